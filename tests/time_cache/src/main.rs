//! Random lists of calls on the library's time caches and on the Rust's `TimeBoundCache`, compared after
//! each call. See README.md.
#![allow(dead_code, unused_imports, unused_macros)]
mod proto {
    include!(concat!(env!("OUT_DIR"), "/mods.rs"));
}

use std::{
    cell::RefCell,
    collections::{BTreeMap, BTreeSet},
    rc::Rc,
};

use n0_future::time::Instant;
use proto::util::TimeBoundCache;

extern "C" {
    fn time_cache_is_sound(p: *const u8, l: usize, a: usize, s: usize, n: usize, b: usize, t: usize, m: usize) -> bool;
    fn time_cache_insert(
        p: *mut u8, l: usize, a: usize, s: usize, n: usize, b: usize, t: usize, m: usize,
        w0: u64, w1: u64, w2: u64, w3: u64, expires: u64, out: *mut [u64; 4],
    ) -> bool;
    fn time_cache_expire_until(
        p: *mut u8, l: usize, a: usize, s: usize, n: usize, b: usize, t: usize, m: usize,
        instant: u64, out: *mut [u64; 3], gone: *mut [u64; 4], room: usize,
    ) -> bool;
    fn time_cache_contains_key(
        p: *const u8, l: usize, a: usize, s: usize, n: usize, b: usize, t: usize, m: usize,
        w0: u64, w1: u64, w2: u64, w3: u64,
    ) -> bool;
    fn time_cache_contains_later(
        p: *const u8, l: usize, a: usize, s: usize, n: usize, b: usize, t: usize, m: usize,
        w0: u64, w1: u64, w2: u64, w3: u64, instant: u64,
    ) -> bool;
    fn time_cache_entries_later(
        p: *const u8, l: usize, a: usize, s: usize, n: usize, b: usize, t: usize, m: usize, instant: u64,
    ) -> usize;
    fn time_cache_rows_later(
        p: *const u8, l: usize, a: usize, s: usize, n: usize, b: usize, t: usize, m: usize, instant: u64,
    ) -> usize;
}

type Key = [u8; 32];
/// What an entry holds: the bytes after its place, and those after its row's identifier.
type Value = (Vec<u8>, Vec<u8>);

/// A value in the Rust's cache. Its `expire_until` answers a number only; it drops a value where it removes its key, so
/// the keys that are written down here are those that it removes, in its order.
struct Kept {
    value: Value,
    key: Key,
    dropped: Rc<RefCell<Vec<Key>>>,
}

impl Drop for Kept {
    fn drop(&mut self) {
        self.dropped.borrow_mut().push(self.key);
    }
}

struct Rng(u64);

impl Rng {
    fn next(&mut self) -> u64 {
        self.0 ^= self.0 << 13;
        self.0 ^= self.0 >> 7;
        self.0 ^= self.0 << 17;
        self.0
    }
    fn below(&mut self, n: u64) -> u64 {
        self.next() % n
    }
}

const ENTRIES: usize = 40;
/// As many as the cache of the received messages has at most.
const MOST_ENTRIES: usize = 2048;

/// A cache in a block, with other bytes around its tables: room for `most` entries, and for twice as many rows.
struct Block {
    bytes: Vec<u8>,
    most: usize,
    a: usize,
    s: usize,
    n: usize,
    b: usize,
    t: usize,
    m: usize,
}

impl Block {
    fn new(rng: &mut Rng, s: usize, t: usize, most: usize) -> Self {
        let a = rng.below(50) as usize;
        let b = a + (most + 1) * s + rng.below(50) as usize;
        let bytes = (0..b + (2 * most + 1) * t + 64).map(|_| rng.next() as u8).collect();
        Block { bytes, most, a, s, n: 0, b, t, m: 0 }
    }
    fn entry(&self, i: usize) -> &[u8] {
        &self.bytes[self.a + i * self.s..][..self.s]
    }
    fn row(&self, p: usize) -> &[u8] {
        &self.bytes[self.b + p * self.t..][..self.t]
    }
    fn place(&self, i: usize) -> usize {
        u16::from_le_bytes(self.entry(i)[..2].try_into().unwrap()) as usize
    }
    fn time(&self, p: usize) -> u64 {
        u64::from_le_bytes(self.row(p)[..8].try_into().unwrap())
    }
    fn key(&self, p: usize) -> Key {
        self.row(p)[8..40].try_into().unwrap()
    }
    fn insert(&mut self, key: &Key, expires: u64, value: &Value) -> bool {
        let w = words(key);
        let mut out = [0; 4];
        let done = unsafe {
            time_cache_insert(
                self.bytes.as_mut_ptr(), self.bytes.len(), self.a, self.s, self.n, self.b, self.t, self.m,
                w[0], w[1], w[2], w[3], expires, &mut out,
            )
        };
        if !done {
            return false;
        }
        (self.n, self.m) = (out[0] as usize, out[1] as usize);
        let e = self.a + out[2] as usize * self.s + 2;
        self.bytes[e..e + self.s - 2].copy_from_slice(&value.0);
        let r = self.b + out[3] as usize * self.t + 40;
        self.bytes[r..r + self.t - 40].copy_from_slice(&value.1);
        true
    }
    /// How many keys it removes. They go into `gone`, as many as there is room for.
    fn expire_until(&mut self, instant: u64, gone: &mut [[u64; 4]]) -> Option<usize> {
        let mut out = [0; 3];
        let done = unsafe {
            time_cache_expire_until(
                self.bytes.as_mut_ptr(), self.bytes.len(), self.a, self.s, self.n, self.b, self.t, self.m,
                instant, &mut out, gone.as_mut_ptr(), gone.len(),
            )
        };
        if !done {
            return None;
        }
        (self.n, self.m) = (out[0] as usize, out[1] as usize);
        Some(out[2] as usize)
    }
    fn is_sound(&self) -> bool {
        unsafe { time_cache_is_sound(self.bytes.as_ptr(), self.bytes.len(), self.a, self.s, self.n, self.b, self.t, self.m) }
    }
    /// What stands outside the two tables and their spare rows.
    fn around(&self) -> [Vec<u8>; 3] {
        let e = self.a + (self.most + 1) * self.s;
        let r = self.b + (2 * self.most + 1) * self.t;
        [self.bytes[..self.a].into(), self.bytes[e..self.b].into(), self.bytes[r..].into()]
    }
}

fn words(k: &Key) -> [u64; 4] {
    std::array::from_fn(|i| u64::from_be_bytes(k[8 * i..8 * i + 8].try_into().unwrap()))
}

/// The first difference between the block and the Rust's cache, asked at an instant.
fn differs(x: &Block, rust: &TimeBoundCache<Key, Kept>, keys: &[Key], at: u64) -> Option<String> {
    let (p, l) = (x.bytes.as_ptr(), x.bytes.len());
    macro_rules! ask {
        ($f:ident $(, $e:expr)*) => { unsafe { $f(p, l, x.a, x.s, x.n, x.b, x.t, x.m $(, $e)*) } };
    }
    let theirs: BTreeMap<Key, (u64, Value)> = rust.oracle_entries().map(|(k, t, v)| (*k, (t, v.value.clone()))).collect();
    let mut ours = BTreeMap::new();
    let mut last = None;
    for i in 0..x.n {
        let q = x.place(i);
        if q >= x.m || last >= Some(x.key(q)) {
            return Some(format!("entry {i} names row {q}"));
        }
        last = Some(x.key(q));
        ours.insert(x.key(q), (x.time(q), (x.entry(i)[2..].to_vec(), x.row(q)[40..].to_vec())));
    }
    let rows: Vec<(u64, Key)> = (0..x.m).map(|q| (x.time(q), x.key(q))).collect();
    if ours != theirs {
        return Some("entries".into());
    }
    if rows != rust.oracle_expiry() {
        return Some("expiry entries".into());
    }
    if !x.is_sound() {
        return Some("is_sound".into());
    }
    if ask!(time_cache_entries_later, at) != theirs.values().filter(|v| v.0 > at).count() {
        return Some("entries_later".into());
    }
    if ask!(time_cache_rows_later, at) != rows.iter().filter(|r| r.0 > at).count() {
        return Some("rows_later".into());
    }
    for k in keys {
        let w = words(k);
        if ask!(time_cache_contains_key, w[0], w[1], w[2], w[3]) != rust.contains_key(k) {
            return Some("contains_key".into());
        }
        let later = theirs.get(k).is_some_and(|v| v.0 > at);
        if ask!(time_cache_contains_later, w[0], w[1], w[2], w[3], at) != later {
            return Some("contains_later".into());
        }
    }
    None
}

/// What damage makes of `is_sound`: the same as of the places, keys and times one by one.
fn judged(x: &Block) -> bool {
    let places = (0..x.n).all(|i| x.place(i) < x.m);
    places
        && (1..x.n).all(|i| x.key(x.place(i - 1)) < x.key(x.place(i)))
        && (1..x.m).all(|q| x.time(q - 1) <= x.time(q))
}

/// Whether every call answers no or 0 and leaves all as it was.
fn refused(mut x: Block, key: &Key, at: u64) -> bool {
    let before = (x.bytes.clone(), x.n, x.m);
    let value = (vec![0; x.s.clamp(2, 119) - 2], vec![0; x.t.clamp(40, 48) - 40]);
    let mut gone = [[at; 4]; 3];
    let taken = x.insert(key, at, &value) || x.expire_until(u64::MAX, &mut gone).is_some();
    let (p, l, w) = (x.bytes.as_ptr(), x.bytes.len(), words(key));
    macro_rules! ask {
        ($f:ident $(, $e:expr)*) => { unsafe { $f(p, l, x.a, x.s, x.n, x.b, x.t, x.m $(, $e)*) } };
    }
    !taken
        && !ask!(time_cache_contains_key, w[0], w[1], w[2], w[3])
        && !ask!(time_cache_contains_later, w[0], w[1], w[2], w[3], 0)
        && ask!(time_cache_entries_later, 0) == 0
        && ask!(time_cache_rows_later, 0) == 0
        && before == (x.bytes, x.n, x.m)
        && gone == [[at; 4]; 3]
}

/// Both caches expire, the library's with room for so many keys. The first difference: how many keys left, which ones and
/// in which order, and what stands behind them where there was more room.
fn expires(
    rng: &mut Rng, x: &mut Block, rust: &mut TimeBoundCache<Key, Kept>, dropped: &RefCell<Vec<Key>>, instant: u64, room: usize,
) -> Result<usize, String> {
    let there: BTreeSet<Key> = rust.oracle_entries().map(|e| *e.0).collect();
    dropped.borrow_mut().clear();
    let removed = rust.expire_until(Instant(instant));
    let left: BTreeSet<Key> = rust.oracle_entries().map(|e| *e.0).collect();
    let lent: Vec<[u64; 4]> = (0..room).map(|_| [0; 4].map(|_: u64| rng.next())).collect();
    let mut gone = lent.clone();
    if x.expire_until(instant, &mut gone) != Some(removed) {
        return Err("expire_until's count".into());
    }
    let told = removed.min(room);
    let order: Vec<[u64; 4]> = dropped.borrow().iter().map(words).collect();
    if order.len() != removed || gone[..told] != order[..told] {
        return Err("the keys removed, or their order".into());
    }
    if gone[told..] != lent[told..] {
        return Err("what stands behind the keys removed".into());
    }
    let out: BTreeSet<[u64; 4]> = there.difference(&left).map(words).collect();
    if removed <= room && gone[..told].iter().copied().collect::<BTreeSet<_>>() != out {
        return Err("the keys that left the Rust's map".into());
    }
    Ok(removed)
}

fn list(seed: u64, number: u64, calls: &mut [u64; 8]) -> Result<(), String> {
    let mut rng = Rng(seed.wrapping_mul(0x9e37_79b9_7f4a_7c15) ^ (number + 1).wrapping_mul(0xd134_2543_de82_ef95) | 1);
    for _ in 0..8 {
        rng.next();
    }
    let (s, t) = [(2, 40), (4, 48), (119, 40)][rng.below(3) as usize];
    let mut x = Block::new(&mut rng, s, t, ENTRIES);
    let mut rust: TimeBoundCache<Key, Kept> = TimeBoundCache::default();
    let dropped = Rc::new(RefCell::new(Vec::new()));
    // keys that agree in their first words, so that the later ones decide
    let pool = 2 + rng.below(48);
    let same = rng.below(4) as usize;
    let mut keys: Vec<Key> = Vec::new();
    for _ in 0..pool {
        let mut k: Key = std::array::from_fn(|_| rng.next() as u8);
        if let Some(first) = keys.first() {
            k[..8 * same].copy_from_slice(&first[..8 * same]);
        }
        keys.push(k);
    }
    let step = [1, 3, 50, 1 << 40][rng.below(4) as usize];
    let mut clock = rng.below(1 << 62);
    for call in 0..rng.below(300) {
        let before = x.around();
        // forward, back, or standing still
        clock = match rng.below(8) {
            0 => clock.saturating_sub(rng.below(4 * step)),
            1..=3 => clock,
            _ => clock + rng.below(step),
        };
        let at = clock.wrapping_add(rng.below(3)).wrapping_sub(1);
        if rng.below(5) != 0 && x.n < ENTRIES && x.m < 2 * ENTRIES {
            let k = keys[rng.below(pool) as usize];
            let expires = clock + rng.below(3 * step);
            let v = ((2..s).map(|_| rng.next() as u8).collect(), (40..t).map(|_| rng.next() as u8).collect());
            calls[if rust.contains_key(&k) { 1 } else { 0 }] += 1;
            if !x.insert(&k, expires, &v) {
                return Err(format!("call {call}: insert refuses"));
            }
            rust.insert(k, Kept { value: v, key: k, dropped: dropped.clone() }, Instant(expires));
        } else {
            let instant = if x.m > 0 && rng.below(2) == 0 { x.time(rng.below(x.m as u64) as usize) } else { at };
            let room = match rng.below(4) {
                0 => 0,
                1 => rng.below(4) as usize,
                _ => ENTRIES + rng.below(9) as usize,
            };
            let removed = expires(&mut rng, &mut x, &mut rust, &dropped, instant, room).map_err(|why| format!("call {call}: {why}"))?;
            calls[match removed { 0 => 3, 1 => 2, _ => 5 }] += 1;
        }
        if x.around() != before {
            return Err(format!("call {call}: bytes around the tables"));
        }
        if let Some(why) = differs(&x, &rust, &keys, at) {
            return Err(format!("call {call}: {why}"));
        }
    }
    // bytes of the tables exchanged for others
    for _ in 0..20 {
        let mut bad = Block { bytes: x.bytes.clone(), ..x };
        let (from, size) = if rng.below(2) == 0 { (x.a, x.n * x.s) } else { (x.b, x.m * x.t) };
        if size == 0 {
            continue;
        }
        bad.bytes[from + rng.below(size as u64) as usize] ^= 1 << rng.below(8);
        calls[4] += 1;
        let sound = judged(&bad);
        if bad.is_sound() != sound {
            return Err("is_sound of damaged tables".into());
        }
        if !sound && !refused(bad, &keys[0], clock) {
            return Err("a call takes damaged tables".into());
        }
        calls[6] += !sound as u64;
    }
    // numbers that the tables can't have in this block
    for which in 0..8 {
        let mut bad = Block { bytes: x.bytes.clone(), ..x };
        match which {
            0 => bad.s = rng.below(2) as usize,
            1 => bad.t = rng.below(40) as usize,
            2 => bad.m = 65536 + rng.below(1 << 20) as usize,
            3 => bad.n = (bad.b - bad.a) / bad.s + 1 + rng.below(9) as usize,
            4 => bad.b = bad.bytes.len() + 1 + rng.below(9) as usize,
            5 => bad.a = bad.b + 1 + rng.below(9) as usize,
            // products that would wrap
            6 => bad.n = usize::MAX / bad.s + 1 + rng.below(9) as usize,
            _ => bad.t = usize::MAX / 3 + rng.below(9) as usize * 2,
        }
        // the last is in order where there are no expiry rows
        if which == 7 && bad.m == 0 {
            continue;
        }
        calls[7] += 1;
        if bad.is_sound() || !refused(bad, &keys[0], clock) {
            return Err(format!("a call takes numbers of kind {which}"));
        }
    }
    // no room for one more
    let mut full = Block { bytes: x.bytes[..x.b + x.m * x.t].to_vec(), ..x };
    if !full.is_sound() || full.insert(&keys[0], clock, &(vec![0; s - 2], vec![0; t - 40])) || full.bytes != x.bytes[..x.b + x.m * x.t] {
        return Err("a full table takes one more".into());
    }
    Ok(())
}

/// A cache as full as the received messages' can be, each key put in twice, which expires in a few calls. One entry more
/// is refused.
fn full(seed: u64) -> Result<usize, String> {
    let mut rng = Rng(seed.wrapping_mul(0x9e37_79b9_7f4a_7c15) | 1);
    let mut told = 0;
    for (s, t) in [(2, 40), (4, 48), (119, 40)] {
        let mut x = Block::new(&mut rng, s, t, MOST_ENTRIES + 1);
        let mut rust: TimeBoundCache<Key, Kept> = TimeBoundCache::default();
        let dropped = Rc::new(RefCell::new(Vec::new()));
        let keys: Vec<Key> = (0..MOST_ENTRIES).map(|_| std::array::from_fn(|_| rng.next() as u8)).collect();
        for call in 0..2 * MOST_ENTRIES {
            // the second time of a key is often the first
            let (k, expires) = (keys[call % MOST_ENTRIES], rng.below(6));
            let value = (vec![0; s - 2], vec![0; t - 40]);
            if !x.insert(&k, expires, &value) {
                return Err("insert refuses".into());
            }
            rust.insert(k, Kept { value, key: k, dropped: dropped.clone() }, Instant(expires));
        }
        let mut more = Block { bytes: x.bytes.clone(), ..x };
        let one: Key = std::array::from_fn(|_| rng.next() as u8);
        if !more.insert(&one, 9, &(vec![0; s - 2], vec![0; t - 40])) {
            return Err("insert of one more refuses".into());
        }
        let (bytes, mut gone) = (more.bytes.clone(), [[7; 4]; 1]);
        if more.expire_until(3, &mut gone).is_some() || more.bytes != bytes || gone != [[7; 4]; 1] {
            return Err("expire_until takes more entries than a cache of a panel has".into());
        }
        for instant in 0..7 {
            told += expires(&mut rng, &mut x, &mut rust, &dropped, instant, MOST_ENTRIES)?;
            if let Some(why) = differs(&x, &rust, &keys[..4], instant) {
                return Err(why);
            }
        }
    }
    Ok(told)
}

fn main() {
    let args: Vec<u64> = std::env::args().skip(1).map(|a| a.parse().expect("a number")).collect();
    let (seed, lists) = (args.first().copied().unwrap_or(1), args.get(1).copied().unwrap_or(2000));
    let mut calls = [0; 8];
    for number in args.get(2).copied().unwrap_or(0)..lists {
        if let Err(why) = list(seed, number, &mut calls) {
            println!("DIFFERENT: seed {seed} list {number}: {why}");
            std::process::exit(1);
        }
    }
    let told = full(seed).unwrap_or_else(|why| {
        println!("DIFFERENT: seed {seed}, full caches: {why}");
        std::process::exit(1);
    });
    println!(
        "time caches: seed {seed}, {lists} lists, no difference; inserts of new keys {}, of keys that were there {}, expiries that removed one {}, several {}, none {}, damaged tables {} (refused {}), numbers out of range {}, keys told of full caches {told}",
        calls[0], calls[1], calls[2], calls[5], calls[3], calls[4], calls[6], calls[7]
    );
}
