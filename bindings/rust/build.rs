//! Links libplumtree.a from the directory that the variable PLUMTREE_LIB_DIR names, by default target/staticlib of the repository. Where the variable
//! PLUMTREE_LIB_KIND is `dylib` it links libplumtree.so of that directory, which can be exchanged between runs (tests/mutants).
//!
//! Where there is no such file the crate is built all the same, and src/ffi.rs names the library's functions by what is missing: a program that
//! calls one is not linked, and the linker's message says why.
use std::env;
use std::path::PathBuf;

fn main() {
    println!("cargo:rerun-if-env-changed=PLUMTREE_LIB_DIR");
    println!("cargo:rerun-if-env-changed=PLUMTREE_LIB_KIND");
    println!("cargo:rustc-check-cfg=cfg(plumtree_missing)");
    let dir = match env::var_os("PLUMTREE_LIB_DIR") {
        Some(dir) => PathBuf::from(dir),
        None => PathBuf::from(env::var_os("CARGO_MANIFEST_DIR").expect("cargo sets it")).join("../../target/staticlib"),
    };
    let (kind, name) = match env::var("PLUMTREE_LIB_KIND").as_deref() {
        Err(_) | Ok("static") => ("static", "libplumtree.a"),
        Ok("dylib") => ("dylib", "libplumtree.so"),
        Ok(other) => panic!("PLUMTREE_LIB_KIND is static or dylib, not {other}"),
    };
    let library = dir.join(name);
    println!("cargo:rerun-if-changed={}", library.display());
    if library.is_file() {
        println!("cargo:rustc-link-search=native={}", dir.display());
        println!("cargo:rustc-link-lib={kind}=plumtree");
    } else {
        println!("cargo:rustc-cfg=plumtree_missing");
        println!(
            "cargo:rustc-env=PLUMTREE_MISSING=there is no {}: run `tools/staticlib.sh plumtree`, or set PLUMTREE_LIB_DIR to the directory of {name}",
            library.display()
        );
    }
}
