//! Times of the time caches: the least of many short turns. The table is filled by `insert` itself. Each exported function tests the tables
//! before its work, as `is_sound` does, so a call's time has that test in it.
use std::time::Instant;

#[link(name = "exports", kind = "static")]
extern "C" {
    fn time_cache_is_sound(p: *const u8, l: usize, a: usize, s: usize, n: usize, b: usize, t: usize, m: usize) -> bool;
    fn time_cache_insert(
        p: *mut u8, l: usize, a: usize, s: usize, n: usize, b: usize, t: usize, m: usize,
        w0: u64, w1: u64, w2: u64, w3: u64, expires: u64, out: *mut [u64; 4],
    ) -> bool;
    fn time_cache_contains_key(
        p: *const u8, l: usize, a: usize, s: usize, n: usize, b: usize, t: usize, m: usize,
        w0: u64, w1: u64, w2: u64, w3: u64,
    ) -> bool;
}

fn random(x: &mut u64) -> u64 {
    *x ^= *x << 13;
    *x ^= *x >> 7;
    *x ^= *x << 17;
    *x
}

/// The time of `calls` calls, for one.
fn turn(calls: usize, f: &mut impl FnMut()) -> f64 {
    let t = Instant::now();
    for _ in 0..calls {
        f();
    }
    t.elapsed().as_nanos() as f64 / calls as f64
}

fn main() {
    println!("| keys | expiry rows | `is_sound`, ns | test and `contains_key`, ns | test and `insert` of a new key, ns |");
    println!("|---:|---:|---:|---:|---:|");
    for keys in [64usize, 500, 2047] {
        let (s, t) = (2, 40);
        let rows_at = s * (keys + 1);
        let mut block = vec![0u8; rows_at + t * (2 * keys + 2)];
        let (mut n, mut m, mut x) = (0usize, 0usize, 88172645463325252u64);
        let mut out = [0u64; 4];
        let ids: Vec<[u64; 4]> = (0..keys).map(|_| [0; 4].map(|_: u64| random(&mut x))).collect();
        for turn in 0..2u64 {
            for (i, k) in ids.iter().enumerate() {
                let time = 1_000 + turn * 1_000_000 + i as u64;
                assert!(unsafe { time_cache_insert(block.as_mut_ptr(), block.len(), 0, s, n, rows_at, t, m, k[0], k[1], k[2], k[3], time, &mut out) });
                (n, m) = (out[0] as usize, out[1] as usize);
            }
        }
        let p = block.as_ptr();
        let l = block.len();
        assert!(unsafe { time_cache_is_sound(p, l, 0, s, n, rows_at, t, m) });
        let mut i = 0;
        let mut find = || {
            let k = ids[i % keys];
            i += 1;
            assert!(unsafe { time_cache_contains_key(p, l, 0, s, n, rows_at, t, m, k[0], k[1], k[2], k[3]) });
        };
        let mut test = || assert!(unsafe { time_cache_is_sound(p, l, 0, s, n, rows_at, t, m) });
        let (mut sound, mut found) = (f64::INFINITY, f64::INFINITY);
        for _ in 0..400 {
            sound = sound.min(turn(50, &mut test));
            found = found.min(turn(50, &mut find));
        }
        // an insert changes the block, so each call is timed alone
        let copy = block.clone();
        let mut put = f64::INFINITY;
        for _ in 0..4000 {
            let k = [random(&mut x), 1, 2, 3];
            put = put.min(turn(1, &mut || {
                assert!(unsafe { time_cache_insert(block.as_mut_ptr(), l, 0, s, n, rows_at, t, m, k[0], k[1], k[2], k[3], 9_000_000, &mut out) })
            }));
            block.copy_from_slice(&copy);
        }
        println!("| {n} | {m} | {sound:.0} | {found:.0} | {put:.0} |");
    }
}
