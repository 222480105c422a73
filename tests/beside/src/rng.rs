//! Random numbers from a seed (SplitMix64).
use std::sync::OnceLock;

/// From one state to the next.
const STEP: u64 = 0x9e37_79b9_7f4a_7c15;
/// Bytes of any value, which memory is covered with where only that is asked of it: so many, drawn once, again and again. Their number is a prime, so that a table's rows have not all the
/// same bytes.
const COVER: usize = 65_521;

/// As many of these bytes as the part has, from this place on, piece by piece.
fn cover_from(place: usize, len: usize) -> impl Iterator<Item = &'static [u8]> {
    static TWICE: OnceLock<Vec<u8>> = OnceLock::new();
    let twice = TWICE.get_or_init(|| Rng::new(0).bytes(COVER).repeat(2));
    let here = &twice[place % COVER..][..COVER];
    (0..len).step_by(COVER).map(move |at| &here[..COVER.min(len - at)])
}

/// Covers a part with the bytes of this place.
pub fn cover(place: usize, v: &mut [u8]) {
    let mut at = 0;
    for piece in cover_from(place, v.len()) {
        v[at..at + piece.len()].copy_from_slice(piece);
        at += piece.len();
    }
}

/// Whether a part has the bytes of this place.
pub fn covered(place: usize, v: &[u8]) -> bool {
    let mut left = v;
    cover_from(place, v.len()).all(|piece| {
        let (now, rest) = left.split_at(piece.len());
        left = rest;
        now == piece
    })
}

#[derive(Clone)]
pub struct Rng(u64);

impl Rng {
    pub fn new(seed: u64) -> Rng {
        Rng(seed.wrapping_mul(STEP) ^ 0x1234_5678_9abc_def1)
    }

    pub fn next(&mut self) -> u64 {
        self.0 = self.0.wrapping_add(STEP);
        let mut z = self.0;
        z = (z ^ (z >> 30)).wrapping_mul(0xbf58_476d_1ce4_e5b9);
        z = (z ^ (z >> 27)).wrapping_mul(0x94d0_49bb_1331_11eb);
        z ^ (z >> 31)
    }

    /// A number below n.
    pub fn below(&mut self, n: u64) -> u64 {
        ((u128::from(self.next()) * u128::from(n.max(1))) >> 64) as u64
    }

    pub fn index(&mut self, n: usize) -> usize {
        self.below(n as u64) as usize
    }

    /// True in `percent` of a hundred cases.
    pub fn chance(&mut self, percent: f64) -> bool {
        (self.next() >> 11) as f64 / ((1u64 << 53) as f64) * 100.0 < percent
    }

    pub fn pick<T: Clone>(&mut self, v: &[T]) -> T {
        v[self.index(v.len())].clone()
    }

    pub fn bytes(&mut self, n: usize) -> Vec<u8> {
        let mut v = vec![0; n];
        self.fill(&mut v);
        v
    }

    pub fn fill(&mut self, v: &mut [u8]) {
        let mut words = v.chunks_exact_mut(8);
        for w in &mut words {
            w.copy_from_slice(&self.next().to_le_bytes());
        }
        let rest = words.into_remainder();
        if !rest.is_empty() {
            rest.copy_from_slice(&self.next().to_le_bytes()[..rest.len()]);
        }
    }

    /// Covers a part with bytes of any value, those of a place that is drawn. What is drawn behind it is what is drawn behind `fill`.
    pub fn cover(&mut self, v: &mut [u8]) {
        cover(self.clone().index(COVER), v);
        self.0 = self.0.wrapping_add(STEP.wrapping_mul(v.len().div_ceil(8) as u64));
    }

    pub fn shuffle<T>(&mut self, v: &mut [T]) {
        for i in (1..v.len()).rev() {
            v.swap(i, self.index(i + 1));
        }
    }
}
