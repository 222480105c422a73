//! Savings and returns: under names from a small pool, in areas of zeros, damaged ones and ones that are too short. They are drawn apart from the calls: a list
//! without them stays what it is.
use oracle::snap::Snap;

use crate::{block, likeness, rng::Rng, run::Pair, script::Cmd};

const FRONT: usize = 256;
const ROW: usize = 26;
const COUNT: usize = 255;
const MOST: usize = 4;
/// Lists with longer blocks have fewer of them.
const LONG: usize = 300_000;

pub struct States {
    r: Rng,
    /// Behind so many calls of a hundred.
    rate: f64,
    names: Vec<u64>,
}

impl States {
    /// Those of a list; two lists in five have some.
    pub fn of(seed: u64, list: u64) -> States {
        let mut r = Rng::new(seed.rotate_left(16) ^ !list);
        r.next();
        let rate = r.pick(&[0.0, 0.0, 0.0, 12.0, 40.0]);
        let any = r.next();
        let base = r.pick(&[0, 0, 1, any]);
        let mut names = vec![0, base, base ^ 1, base ^ 1 << 63, base ^ 1 << 32, any];
        for _ in 0..3 {
            names.push(base ^ 1 << r.below(64));
        }
        if r.chance(50.0) {
            r.shuffle(&mut names);
            names.truncate(5);
        }
        States { r, rate, names }
    }

    /// An area.
    pub fn begin(&mut self, pair: &Pair) -> Vec<Cmd> {
        if self.rate == 0.0 {
            return vec![];
        }
        if pair.block().len() > LONG {
            self.rate = self.r.pick(&[0.0, 0.0, 0.0, 4.0]);
        }
        vec![self.area(pair)]
    }

    fn area(&mut self, pair: &Pair) -> Cmd {
        let need = 4 * pair.block().len() + FRONT;
        let any = self.r.index(need);
        Cmd::Area(match self.r.below(20) {
            0 => need - 1,
            1 => any,
            2..=4 => need + 1,
            5..=6 => need + self.r.index(1000),
            // Room for a fifth state.
            7..=9 => need + pair.block().len() + self.r.index(2),
            _ => need,
        })
    }

    /// A name: one that is kept, or any.
    fn name(&mut self, pair: &Pair, kept: f64) -> u64 {
        let names = pair.keeper.names();
        if !names.is_empty() && self.r.chance(kept) {
            return self.r.pick(&names);
        }
        self.r.pick(&self.names)
    }

    fn both(&mut self, pair: &Pair, v: &mut Vec<Cmd>) {
        for _ in 0..2 {
            let name = self.name(pair, 50.0);
            v.push(Cmd::Return(name));
            let name = self.name(pair, 50.0);
            v.push(Cmd::Save(name));
        }
    }

    /// Behind a call: now and then a saving, a return, or some upon a damaged area or block.
    pub fn behind(&mut self, pair: &Pair) -> Vec<Cmd> {
        let mut v = Vec::new();
        if self.rate == 0.0 || !self.r.chance(self.rate) {
            return v;
        }
        let n = pair.block().len();
        let need = block::need(&pair.limits.max);
        match self.r.below(100) {
            0..=37 => {
                let name = self.name(pair, 25.0);
                v.push(Cmd::Save(name));
                if self.r.chance(5.0) {
                    v.push(Cmd::Save(name));
                }
                if self.r.chance(5.0) {
                    v.push(Cmd::Return(name));
                }
            }
            38..=60 => {
                let name = self.name(pair, 80.0);
                v.push(Cmd::Return(name));
                if self.r.chance(8.0) {
                    v.push(Cmd::Return(name));
                }
            }
            61..=78 => {
                v.push(self.damage(pair));
                self.both(pair, &mut v);
                v.push(Cmd::UndoArea);
            }
            79..=85 => {
                v.push(self.broken(pair));
                self.both(pair, &mut v);
                v.push(Cmd::Undo);
            }
            86..=91 => v.push(self.other(pair)),
            92..=95 if need < n => {
                // A state of a shorter block, and then of this one; and back.
                let name = self.name(pair, 0.0);
                v.push(Cmd::Area(4 * n + FRONT));
                v.push(Cmd::Cut(need + self.r.index(n - need)));
                v.push(Cmd::Save(name));
                v.push(Cmd::Undo);
                if self.r.chance(70.0) {
                    v.push(Cmd::Return(name));
                }
                let other = self.name(pair, 0.0);
                v.push(Cmd::Save(other));
                v.push(Cmd::Cut(need + self.r.index(n - need)));
                v.push(Cmd::Return(name));
                v.push(Cmd::Save(name));
                v.push(Cmd::Undo);
            }
            _ => v.push(self.area(pair)),
        }
        v
    }

    /// Damage to an area.
    fn damage(&mut self, pair: &Pair) -> Cmd {
        let n = pair.block().len();
        let area = pair.keeper.area();
        let r = &mut self.r;
        if area.len() < FRONT || r.chance(12.0) {
            let any = r.index(area.len() + 1);
            return Cmd::CutArea(r.pick(&[
                0,
                10,
                COUNT,
                FRONT,
                3 * n + FRONT,
                4 * n + FRONT - 1,
                4 * n + FRONT,
                any,
            ]));
        }
        let kept = area[COUNT] as usize;
        let fifth = FRONT + MOST * n;
        if kept == MOST && n < 100_000 && area.len() >= fifth + n && r.chance(60.0) {
            // A fifth state: the first one again, under another name.
            let row = |k: usize| (ROW * MOST + k, if k == 7 { area[k] ^ 0x40 } else { area[k] });
            let block = (0..n).map(|k| (fifth + k, area[FRONT + k])).filter(|e| e.1 != 0);
            let mut v: Vec<(usize, u8)> = (0..ROW).map(row).chain(block).collect();
            v.push((COUNT, 5));
            return Cmd::PokeArea(v);
        }
        let end = (FRONT + n * kept).min(area.len() - 1);
        let bit = 1 << r.below(8);
        let byte = |i: usize, with: u8| Cmd::PokeArea(vec![(i, area[i] ^ with)]);
        match r.below(12) {
            0 => Cmd::PokeArea(vec![(COUNT, r.pick(&[0, 1, 2, 3, 4, 5, 6, 255]))]),
            1 => {
                let any = r.next() as u8;
                Cmd::PokeArea(vec![(COUNT, any)])
            }
            // What is unused.
            2 => byte((ROW * kept).min(COUNT - 1), bit),
            3 => byte(r.pick(&[ROW * MOST, COUNT - 1, COUNT - 1]), bit),
            4 => byte(end, bit),
            5 => byte(area.len() - 1, bit),
            6 => byte(end + r.index(area.len() - end), bit),
            // A name twice, or another name.
            7 if kept > 1 => {
                let (i, j) = (r.index(kept), r.index(kept));
                let name = area[ROW * i..][..8].iter().enumerate();
                Cmd::PokeArea(name.map(|(k, b)| (ROW * j + k, *b)).collect())
            }
            // A row.
            8 if kept > 0 => byte(r.index(ROW * kept), bit),
            // A block: its header, or any of its bytes.
            9 | 10 if kept > 0 && FRONT + n * kept <= area.len() => {
                let i = r.pick(&[0, r.clone().index(kept), kept - 1]);
                let word = 8 * r.pick(&[
                    block::word::M,
                    block::word::THRESHOLD,
                    block::word::LIMITS,
                    block::word::LIVE,
                ]) + 2;
                byte(FRONT + n * i + word, bit)
            }
            11 if kept > 0 && FRONT + n * kept <= area.len() => {
                byte(FRONT + r.index(n * kept), bit)
            }
            _ => byte(r.index(area.len()), bit),
        }
    }

    /// Damage to a block.
    fn broken(&mut self, pair: &Pair) -> Cmd {
        let b = pair.block();
        let r = &mut self.r;
        if r.chance(30.0) {
            let need = block::need(&pair.limits.max);
            let any = r.index(b.len());
            return Cmd::Cut(r.pick(&[0, 2047, need - 1, need, any]));
        }
        let bit = 1 << r.below(8);
        let any = r.index(b.len());
        let i = r.pick(&[
            8 * block::word::M + 1,
            8 * block::word::M + 4,
            r.clone().index(8 * block::word::END),
            any,
        ]);
        Cmd::Poke(vec![(i, b[i] ^ bit)])
    }

    /// Another panel, in a block as long as this one: near to this one, or new.
    fn other(&mut self, pair: &Pair) -> Cmd {
        let name = self.name(pair, 30.0);
        let s = pair.snap.as_deref().expect("a whole block");
        let r = &mut self.r;
        let (mut max, mut other) = likeness::near(r, s, &pair.limits.max);
        if r.chance(40.0) || block::need(&max) > pair.block().len() {
            max = pair.limits.max.map(|x| 1 + r.below(x));
            let any = r.next();
            let me = r.pick(&[0, 1, u64::MAX, any]);
            other = Snap { me, m: r.pick(&[510, 511, 1024, 4094]), cfg: s.cfg, ..Snap::default() };
        }
        let any = r.next();
        let counts =
            [r.pick(&[0, 1, u64::MAX, any]), r.pick(&[0, u64::MAX, any]), r.pick(&[0, 9, 65535])];
        Cmd::SaveOther { name, counts, max, state: Box::new(other) }
    }
}
