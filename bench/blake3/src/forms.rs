// Times of the identifier in several forms: forms SECONDS NAME=LIBRARY.so .. (forms.sh makes the libraries). A ratio is to the first.
mod turns;

use std::ffi::{c_char, c_int, c_void, CString};

extern "C" {
    fn dlopen(file: *const c_char, flags: c_int) -> *mut c_void;
    fn dlsym(library: *mut c_void, name: *const c_char) -> *mut c_void;
}

const RTLD_NOW: c_int = 2;

type HashInto = unsafe extern "C" fn(*const u8, usize, *mut [u8; 32]);

// The function of a library, which stays open.
fn open(file: &str) -> HashInto {
    let file = CString::new(file).expect("a path");
    // SAFETY: both are strings with a last byte 0; the symbol is the function of crates/exports, which has this type.
    unsafe {
        let library = dlopen(file.as_ptr(), RTLD_NOW);
        assert!(!library.is_null(), "{file:?} can't be opened");
        let hash = dlsym(library, c"blake3_hash_into".as_ptr());
        assert!(!hash.is_null(), "{file:?} has no blake3_hash_into");
        std::mem::transmute::<*mut c_void, HashInto>(hash)
    }
}

fn main() {
    let mut words = std::env::args().skip(1);
    let seconds: u64 = words.next().and_then(|s| s.parse().ok()).expect("a number of seconds");
    let forms: Vec<(String, String)> = words.map(|w| w.split_once('=').map(|(n, l)| (n.into(), l.into())).expect("NAME=LIBRARY.so")).collect();
    let hashes: Vec<_> = forms
        .iter()
        .map(|(_, library)| {
            let hash_into = open(library);
            move |content: &[u8]| {
                let mut out = [0u8; 32];
                // SAFETY: content is lent for the call, and out is 32 bytes.
                unsafe { hash_into(content.as_ptr(), content.len(), &mut out) };
                out
            }
        })
        .collect();
    let bytes = turns::bytes();
    turns::compare(&hashes, &bytes);
    println!("| form |{}", turns::SIZES.map(|size| format!(" {size} B, ns | ratio |")).concat());
    println!("|---|{}", "---:|---:|".repeat(turns::SIZES.len()));
    let times = turns::SIZES.map(|size| turns::least(&hashes, &bytes[..size], seconds));
    for (i, (name, _)) in forms.iter().enumerate() {
        let cells = times.iter().map(|t| format!(" {:.1} | {:.3} |", t[i], t[i] / t[0]));
        println!("| {name} |{}", cells.collect::<String>());
    }
}
