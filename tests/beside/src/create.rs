//! Creations with settings, limits and lengths around their bounds.
use crate::{
    block::{self, CEILINGS},
    library,
    rng::{cover, covered, Rng},
};

/// A block is longer than it need be by at most so many bytes.
const MORE: usize = 500;

/// The specification's questions 1 to 4.
fn expected(m: u64, cfg: [u64; 7], max: [u64; 9], len: usize) -> u64 {
    let durations = [cfg[0], cfg[1], cfg[2], cfg[4], cfg[5], cfg[6]];
    if !(510..=4094).contains(&m) {
        return 1;
    }
    if durations.iter().any(|d| *d > 1 << 40) {
        return 2;
    }
    if !in_range(&max) {
        return 3;
    }
    if len < block::need(&max) {
        return 4;
    }
    0
}

fn in_range(max: &[u64; 9]) -> bool {
    (0..9).all(|i| (1..=CEILINGS[i]).contains(&max[i]))
}

/// The memory of the blocks of creations, which is covered with bytes of any value before each; where a block begins is drawn.
pub struct Creations {
    bytes: Vec<u8>,
}

impl Default for Creations {
    fn default() -> Creations {
        let mut bytes = vec![0; block::need(&CEILINGS) + MORE];
        cover(0, &mut bytes);
        Creations { bytes }
    }
}

impl Creations {
    /// One creation; answers its number. Also the size of a block, 0 for limits out of range.
    pub fn check(&mut self, seed: u64) -> Result<u64, String> {
        let r = &mut Rng::new(seed ^ 0xc4ea7e);
        let any = r.next();
        let me = r.pick(&[0, 1, u64::MAX, any]);
        let m = r.pick(&[510, 511, 4093, 4094, 4094, 509, 4095, 0, u64::MAX, 1000]);
        let m = if r.chance(70.0) { m.clamp(510, 4094) } else { m };
        let good = r.chance(70.0);
        let cfg: [u64; 7] = std::array::from_fn(|i| {
            let any = r.next();
            let wide = r.pick(&[0, 1, 1 << 40, (1 << 40) + 1, u64::MAX, any, 1 << 41]);
            match i {
                3 => wide % 65536,
                _ if good => wide.min(1 << 40),
                _ => wide,
            }
        });
        let good = r.chance(70.0);
        let max: [u64; 9] = std::array::from_fn(|i| {
            let any = 1 + r.below(CEILINGS[i]);
            let c = CEILINGS[i];
            let wide = r.pick(&[1, any % 50 + 1, any, c, c, 0, c + 1, u64::MAX, 1 << 32]);
            if good {
                wide.clamp(1, c)
            } else {
                wide
            }
        });
        let most = block::need(&CEILINGS);
        let need = if good { block::need(&max) } else { r.index(most) };
        let any = r.index(most);
        let len =
            r.pick(&[need, need, need + 1, need - 1, need + MORE, need / 2, any, 0, 2048, 4096]);
        // At the end of the memory, so that valgrind tells a step beyond the block.
        let from = self.bytes.len() - len;
        let bytes = &mut self.bytes[from..];
        let any = [r.next(), r.next(), r.below(65536)];
        let number = one(me, m, cfg, max, bytes, from, any).map_err(|e| {
            format!("creation: me {me} M {m} settings {cfg:?} limits {max:?} length {len}: {e}")
        })?;
        if number == 0 {
            cover(from, &mut bytes[..block::need(&max)]);
        }
        Ok(number)
    }
}

/// A creation in these bytes, which are covered with those of this place, with any counts.
fn one(
    me: u64,
    m: u64,
    cfg: [u64; 7],
    max: [u64; 9],
    bytes: &mut [u8],
    place: usize,
    any: [u64; 3],
) -> Result<u64, String> {
    let size = if in_range(&max) { block::need(&max) as u64 } else { 0 };
    let ours = library::block_size(max);
    if size != ours {
        return Err(format!("block size {size}, the library {ours}"));
    }
    let number = expected(m, cfg, max, bytes.len());
    // What a creation leaves as it is: all, or what is behind the need.
    let from = if number == 0 { block::need(&max) } else { 0 };
    let mut counts = any;
    let ours = library::create(bytes, &mut counts, me, m, cfg, max);
    if ours != (library::Answer { number, length: 0, kept: true }) {
        return Err(format!("{number}, the library {ours:?}"));
    }
    let untouched = covered(place + from, &bytes[from..]);
    if number != 0 {
        if !untouched || counts != any {
            return Err("refused, but the block or the counts changed".into());
        }
        return Ok(number);
    }
    if counts != [0; 3] {
        return Err(format!("counts {counts:?}"));
    }
    let state = block::read(bytes).map_err(|e| format!("not whole: {e}"))?;
    if state != oracle::Panel::new(me, m, cfg).snap() || block::limits(bytes) != max {
        return Err("another state".into());
    }
    if !untouched || !library::whole(bytes) {
        return Err("past the need, or not whole".into());
    }
    Ok(number)
}
