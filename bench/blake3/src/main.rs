// Times of the identifier beside Debian's blake3 crate, portable, with its code for SSE2 and with all of its vector code: bench_blake3 [SECONDS for each size].
mod turns;

#[link(name = "exports", kind = "static")]
extern "C" {
    // crates/exports. A slice is passed as its pointer and its length.
    fn blake3_hash_into(content: *const u8, len: usize, out: *mut [u8; 32]);
}

fn rattle(content: &[u8]) -> [u8; 32] {
    let mut out = [0u8; 32];
    // SAFETY: content is lent for the call, and out is 32 bytes.
    unsafe { blake3_hash_into(content.as_ptr(), content.len(), &mut out) };
    out
}

fn portable(content: &[u8]) -> [u8; 32] {
    blake3_portable::hash(content).into()
}

fn sse2(content: &[u8]) -> [u8; 32] {
    blake3_sse2::hash(content).into()
}

fn vector(content: &[u8]) -> [u8; 32] {
    blake3_vector::hash(content).into()
}

type Hash = fn(&[u8]) -> [u8; 32];
const IMPLEMENTATIONS: [Hash; 4] = [rattle, portable, sse2, vector];

fn main() {
    let seconds: u64 = std::env::args().nth(1).map_or(4, |s| s.parse().expect("a number of seconds"));
    let bytes = turns::bytes();
    turns::compare(&IMPLEMENTATIONS, &bytes);
    println!("| bytes | Rattle, ns | portable, ns | SSE2, ns | vector, ns | Rattle / portable | Rattle / SSE2 | Rattle / vector |");
    println!("|---:|---:|---:|---:|---:|---:|---:|---:|");
    for size in turns::SIZES {
        // The vector code by itself: what runs right behind its wide registers is slower for it.
        let times = turns::least(&IMPLEMENTATIONS[..3], &bytes[..size], seconds);
        let (r, p, s) = (times[0], times[1], times[2]);
        let v = turns::least(&IMPLEMENTATIONS[3..], &bytes[..size], seconds)[0];
        println!("| {size} | {r:.1} | {p:.1} | {s:.1} | {v:.1} | {:.2} | {:.2} | {:.2} |", r / p, r / s, r / v);
    }
}
