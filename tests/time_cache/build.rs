//! Puts the seed file, byte for byte, in front of the additions that read private fields, and links the
//! static library: `libexports.a` in the directory that the variable LIBRARY names.
use std::{env, fs, path::Path};

fn main() {
    let here = env::var("CARGO_MANIFEST_DIR").unwrap();
    let rust = Path::new(&here).join("../rust");
    let seed = rust.join("seed/util.rs");
    let extra = rust.join("src/extra_util.rs");
    let mut text = fs::read(&seed).unwrap();
    text.push(b'\n');
    text.extend_from_slice(&fs::read(&extra).unwrap());
    let to = Path::new(&env::var("OUT_DIR").unwrap()).join("util.rs");
    fs::write(&to, text).unwrap();
    fs::write(
        Path::new(&env::var("OUT_DIR").unwrap()).join("mods.rs"),
        format!("#[path = {:?}] pub(crate) mod util;\n", to.display().to_string()),
    )
    .unwrap();
    let dir = env::var("LIBRARY").expect("LIBRARY names the directory of libexports.a");
    for p in [&seed, &extra] {
        println!("cargo:rerun-if-changed={}", p.display());
    }
    println!("cargo:rerun-if-env-changed=LIBRARY");
    println!("cargo:rerun-if-changed={dir}/libexports.a");
    println!("cargo:rustc-link-search=native={dir}");
    println!("cargo:rustc-link-lib=static=exports");
}
