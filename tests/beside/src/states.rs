//! Named states beside the Rust: an area, what was saved into it with a copy of the Rust's panel for each state, and a plain model of question 17.
use std::{
    collections::{BTreeMap, BTreeSet},
    rc::Rc,
};

use oracle::{
    snap::{Id, Snap},
    Panel,
};

use crate::{
    block::{self, le},
    lent::{all_are, Block, Lent, PATTERN},
    library,
    run::{holds, loaded, same, Same},
};

const FRONT: usize = 256;
const ROW: usize = 26;
const COUNT: usize = 255;
const MOST: usize = 4;
/// Behind so many savings the whole area is held against the model.
const SELDOM: u64 = 16;

/// Paths of savings and returns.
pub const ABOUT: &[&str] = &[
    "save: first name",
    "save: second name",
    "save: third name",
    "save: fourth name",
    "save: used name",
    "save: used name of four",
    "save: used name, the same again",
    "save: the name 0",
    "save: names that differ in their low half alone",
    "save: names that differ in their high half alone",
    "save: another panel",
    "save: quiet neighbours",
    "save: into an area of another length, one state kept",
    "save: into a damaged area that savings leave",
    "save: 5",
    "save: 5 before 17",
    "save: 5 before 16",
    "save: 16",
    "save: 17, shorter than 256",
    "save: 17, too short",
    "save: 17, short by a byte",
    "save: 17, more than four",
    "save: 17, a fifth state",
    "save: 17, a name twice",
    "save: 17, the first block not whole",
    "save: 17, the last of the blocks not whole",
    "save: 17, an unused row",
    "save: 17, the byte before how many",
    "save: 17, an unused block",
    "save: 17, a byte behind the blocks",
    "save: 17, blocks of another length",
    "save: 17 before 16",
    "return: the state of now",
    "return: another state",
    "return: other counts",
    "return: another panel",
    "return: other quiet neighbours",
    "return: twice",
    "return: of four",
    "return: from an area of another length, one state kept",
    "return: from a damaged area that savings leave",
    "return: bytes behind the need",
    "return: 5",
    "return: 5 before 17",
    "return: 5 before 15",
    "return: 15",
    "return: 15, none kept",
    "return: 15, the name 0",
    "return: 17, shorter than 256",
    "return: 17, too short",
    "return: 17, short by a byte",
    "return: 17, more than four",
    "return: 17, a fifth state",
    "return: 17, a name twice",
    "return: 17, the first block not whole",
    "return: 17, the last of the blocks not whole",
    "return: 17, an unused row",
    "return: 17, the byte before how many",
    "return: 17, an unused block",
    "return: 17, a byte behind the blocks",
    "return: 17, blocks of another length",
    "return: 17 before 15",
    "return: an event accepted behind it",
    "return: an event refused behind it",
    "return: what came back leaves the message cache",
    "return: what came back leaves the message cache, which it had left before",
];

/// A state as the bytes of an area tell it.
#[derive(Clone, PartialEq)]
struct Slot {
    name: u64,
    counts: [u64; 3],
    block: Rc<[u8]>,
}

impl Slot {
    /// Writes the state as number i of an area: a row of name 8, payload 8, control 8, hops 2; and the block.
    fn put(&self, area: &mut [u8], i: usize) {
        let row = &mut area[ROW * i..][..ROW];
        row[..8].copy_from_slice(&self.name.to_le_bytes());
        row[8..16].copy_from_slice(&self.counts[0].to_le_bytes());
        row[16..24].copy_from_slice(&self.counts[1].to_le_bytes());
        row[24..].copy_from_slice(&(self.counts[2] as u16).to_le_bytes());
        let n = self.block.len();
        area[FRONT + n * i..][..n].copy_from_slice(&self.block);
    }
}

/// The bytes of an area of this length that keeps these states: the rows; zeros; how many; the blocks; zeros.
fn lay_out(length: usize, slots: &[Slot]) -> Vec<u8> {
    let mut v = vec![0; length];
    for (i, s) in slots.iter().enumerate() {
        s.put(&mut v, i);
    }
    v[COUNT] = slots.len() as u8;
    v
}

/// The states that an area keeps for blocks of n bytes, or why no savings of such blocks leave it (17).
fn keeps(area: &[u8], n: usize) -> Result<Vec<Slot>, &'static str> {
    if area.len() < FRONT {
        return Err("shorter than 256");
    }
    if (area.len() as u128) < 4 * n as u128 + FRONT as u128 {
        return Err(if area.len() + 1 == 4 * n + FRONT { "short by a byte" } else { "too short" });
    }
    let kept = area[COUNT] as usize;
    if kept > MOST {
        let fifth = area.get(FRONT + MOST * n..FRONT + 5 * n).filter(|b| block::read(b).is_ok());
        return Err(if kept == 5 && fifth.is_some() { "a fifth state" } else { "more than four" });
    }
    let name = |i: usize| le(area, ROW * i, 8);
    if (0..kept).any(|i| (0..i).any(|j| name(j) == name(i))) {
        return Err("a name twice");
    }
    let block = |i: usize| &area[FRONT + n * i..][..n];
    if let Some(i) = (0..kept).find(|i| block::read(block(*i)).is_err()) {
        return Err(if i == 0 {
            "the first block not whole"
        } else {
            "the last of the blocks not whole"
        });
    }
    let unused = |from: usize, to: usize| all_are(&area[from..to], 0);
    if !unused(ROW * kept, COUNT - 1) {
        return Err("an unused row");
    }
    if area[COUNT - 1] != 0 {
        return Err("the byte before how many");
    }
    if !unused(FRONT + n * kept, FRONT + MOST * n) {
        return Err("an unused block");
    }
    if !unused(FRONT + MOST * n, area.len()) {
        return Err("a byte behind the blocks");
    }
    let slot = |i: usize| Slot {
        name: name(i),
        counts: [(8, 8), (16, 8), (24, 2)].map(|(at, k)| le(area, ROW * i + at, k)),
        block: block(i).into(),
    };
    Ok((0..kept).map(slot).collect())
}

/// A state that was saved, with the Rust's panel as it was then.
#[derive(Clone)]
struct Kept {
    slot: Slot,
    panel: Rc<Panel>,
    snap: Rc<Snap>,
}

/// What an area keeps for blocks of one length, or why no savings leave it.
type Told = Result<Vec<Slot>, &'static str>;

/// The bytes that an area should have, and what is known of them.
#[derive(Clone, Default)]
struct Area {
    length: usize,
    /// Its bytes up to the last state, or the last byte that somebody else changed; all others are 0.
    front: Vec<u8>,
    kept: Vec<Kept>,
    /// The length of the blocks saved last.
    n: usize,
    /// For this length of blocks the model told that, and no byte was changed since.
    told: Option<(usize, Told)>,
}

impl Area {
    /// An area of zeros.
    fn new(length: usize, n: usize) -> Area {
        Area { length, n, ..Area::default() }
    }

    /// Its first bytes, up to this place at least.
    fn up_to(&mut self, place: usize) -> &mut [u8] {
        if self.front.len() < place {
            self.front.resize(place, 0);
        }
        &mut self.front
    }

    fn is(&self, bytes: &[u8]) -> bool {
        let (front, behind) = bytes.split_at(self.front.len());
        bytes.len() == self.length && front == self.front && all_are(behind, 0)
    }
}

/// What a saving or a return is asked with: the block and what is known of it.
pub struct Asked<'a> {
    pub block: &'a mut Block,
    pub counts: [u64; 3],
    /// The Rust's panel and its state; none where the block is not whole.
    pub known: Option<(&'a Panel, &'a Rc<Snap>)>,
}

/// What a return brought back.
pub struct Back {
    pub panel: Panel,
    pub counts: [u64; 3],
}

pub struct Keeper {
    lent: Lent,
    area: Area,
    /// The area before it was damaged.
    undamaged: Option<Area>,
    /// Accepted savings.
    savings: u64,
    last: Option<u64>,
    /// The identifiers that were told as forgotten.
    told: BTreeSet<Id>,
    /// Those that the state returned to has cached; whether they had been told before the return.
    back: BTreeMap<Id, bool>,
    pub about: Vec<&'static str>,
    pub calls: u64,
}

impl Default for Keeper {
    fn default() -> Keeper {
        Keeper {
            lent: Lent::new(0),
            area: Area::default(),
            undamaged: None,
            savings: 0,
            last: None,
            told: BTreeSet::new(),
            back: BTreeMap::new(),
            about: Vec::new(),
            calls: 0,
        }
    }
}

/// The bytes are as they should be.
fn same_bytes(what: &str, should: &[u8], ours: &[u8]) -> Same<()> {
    if should == ours {
        return Ok(());
    }
    let i = should.iter().zip(ours).position(|(a, b)| a != b).unwrap_or(0);
    Err(format!("{what}, byte {i}: the Rust {}, the library {}", should[i], ours[i]))
}

/// A path whose name is put together.
fn named(call: &str, rest: &str) -> &'static str {
    let name = format!("{call}: {rest}");
    ABOUT.iter().find(|n| **n == name).unwrap_or_else(|| panic!("{name}"))
}

impl Keeper {
    /// The area that is lent. Before and behind each call its bytes are those that it should have.
    pub fn area(&self) -> &[u8] {
        self.lent.part()
    }

    /// The names kept, in their order.
    pub fn names(&self) -> Vec<u64> {
        self.area.kept.iter().map(|k| k.slot.name).collect()
    }

    /// Goes on with the memory of an earlier one.
    pub fn take_memory(&mut self, old: Keeper) {
        self.lent = old.lent;
        self.lend();
    }

    /// A new area of zeros.
    pub fn begin(&mut self, length: usize) {
        self.area = Area::new(length, self.area.n);
        self.undamaged = None;
        self.lend();
    }

    /// The area is about to be damaged.
    fn remember(&mut self) {
        if self.undamaged.is_none() {
            self.undamaged = Some(self.area.clone());
        }
        self.area.told = None;
    }

    /// Bytes of the area changed by somebody else.
    pub fn poke(&mut self, v: &[(usize, u8)]) {
        self.remember();
        for (i, b) in v {
            if let Some(x) = self.lent.part_mut().get_mut(*i) {
                *x = *b;
                self.area.up_to(i + 1)[*i] = *b;
            }
        }
    }

    /// Only so many bytes of the area are lent.
    pub fn cut(&mut self, n: usize) {
        self.remember();
        self.area.length = n.min(self.area.length);
        self.area.front.truncate(n);
        self.lend();
    }

    /// Lends the bytes of the area. Behind one that is too short for the byte that says how many are kept stands a 0, which would say that none are.
    fn lend(&mut self) {
        let Area { length, front, .. } = &self.area;
        self.lent.put_front(front, *length, if *length < FRONT { 0 } else { PATTERN });
    }

    pub fn undo(&mut self) -> Same<()> {
        self.area = self.undamaged.take().ok_or("script: no area to undo")?;
        self.lend();
        Ok(())
    }

    /// What the area keeps for blocks of n bytes, asked of its bytes where they or n are others than the last time. Where nobody but savings of this length wrote it, that is what
    /// was saved.
    fn keeps(&mut self, n: usize) -> Told {
        let area = &mut self.area;
        if let Some((_, told)) = area.told.as_ref().filter(|t| t.0 == n) {
            return told.clone();
        }
        let mut told = keeps(self.lent.part(), n);
        if self.undamaged.is_none() && area.length >= 4 * n + FRONT {
            if n == area.n || area.kept.is_empty() {
                let saved: Vec<Slot> = area.kept.iter().map(|k| k.slot.clone()).collect();
                assert!(
                    told.as_ref().is_ok_and(|t| *t == saved),
                    "an area of savings: {:?}",
                    told.err()
                );
            } else if told.is_err() {
                told = Err("blocks of another length");
            }
        }
        area.told = Some((n, told.clone()));
        told
    }

    /// The state of a slot as it was saved; one that nobody saved so is loaded from its block.
    fn kept(&self, slot: Slot) -> Same<Kept> {
        let like = |k: &&Kept| {
            let least = slot.block.len().min(k.slot.block.len());
            let same = |a: &Rc<[u8]>, b: &Rc<[u8]>| Rc::ptr_eq(a, b) || a[..least] == b[..least];
            k.slot.name == slot.name && same(&k.slot.block, &slot.block)
        };
        if let Some(k) = self.area.kept.iter().find(like) {
            return Ok(Kept { slot, ..k.clone() });
        }
        holds(
            self.undamaged.is_some() || self.area.n != slot.block.len(),
            "script: a state that nobody saved",
        )?;
        let snap = block::read(&slot.block).map_err(|e| format!("script: {e}"))?;
        let panel = loaded(&snap)?;
        Ok(Kept { slot, panel: Rc::new(panel), snap: Rc::new(snap) })
    }

    /// Question 5 before the others, for the paths.
    fn not_whole(&mut self, call: &str, n: usize, name: u64) {
        let full = self.area.kept.len() == MOST && !self.names().contains(&name);
        match self.keeps(n) {
            Err(_) => self.about.push(named(call, "5 before 17")),
            Ok(_) if call == "save" && full => self.about.push("save: 5 before 16"),
            Ok(s) if call == "return" && s.iter().all(|s| s.name != name) => {
                self.about.push("return: 5 before 15")
            }
            Ok(_) => self.about.push(named(call, "5")),
        }
    }

    /// A saving of what is asked with, or of another panel's block in its place.
    pub fn save(&mut self, asked: Asked, other: bool, name: u64) -> Same<()> {
        self.last = None;
        asked.block.note();
        let n = asked.block.part().len();
        let told = self.keeps(n);
        let at = |s: &[Slot]| s.iter().position(|s| s.name == name).unwrap_or(s.len());
        let number = match (&asked.known, &told) {
            (None, _) => 5,
            (_, Err(_)) => 17,
            (_, Ok(s)) if at(s) == MOST => 16,
            _ => 0,
        };
        self.calls += 1;
        let (ours, length) =
            library::save(asked.block.part(), asked.counts, self.lent.part_mut(), name);
        same("save answer", number, ours)?;
        same("save length", 0, length)?;
        holds(asked.block.unchanged(), "save changed the block")?;
        holds(asked.block.pads_kept(), "save wrote outside of the block")?;
        holds(self.lent.pads_kept(), "save wrote outside of the area")?;
        if number != 0 {
            holds(self.area.is(self.lent.part()), "a refused saving changed the area")?;
            match told {
                _ if number == 5 => self.not_whole("save", n, name),
                Ok(_) => self.about.push("save: 16"),
                Err(why) => {
                    self.about.push(named("save", &format!("17, {why}")));
                    let full = self.area.kept.len() == MOST && !self.names().contains(&name);
                    if full && why != "shorter than 256" {
                        self.about.push("save: 17 before 16");
                    }
                }
            }
            return Ok(());
        }
        let slots = told.expect("an area");
        let i = at(&slots);
        self.saved(&slots, i, name, &asked, other);
        let (panel, snap) = asked.known.expect("a panel");
        let slot = Slot { name, counts: asked.counts, block: asked.block.noted().into() };
        let mut kept = slots.into_iter().map(|s| self.kept(s)).collect::<Same<Vec<Kept>>>()?;
        let new = Kept { slot, panel: Rc::new(panel.copy()), snap: snap.clone() };
        if i == kept.len() {
            kept.push(new);
        } else {
            kept[i] = new;
        }
        let all: Vec<Slot> = kept.iter().map(|k| k.slot.clone()).collect();
        let front = self.area.up_to(FRONT + n * all.len());
        all[i].put(front, i);
        front[COUNT] = all.len() as u8;
        let bytes = self.lent.part();
        if !self.area.is(bytes) {
            self.area.up_to(bytes.len());
            same_bytes("area after a saving", &self.area.front, bytes)?;
        }
        self.savings += 1;
        if self.savings % SELDOM == 0 {
            assert!(*bytes == lay_out(bytes.len(), &all), "an area of savings, laid out");
            assert!(keeps(bytes, n) == Ok(all.clone()), "an area of savings, read");
        }
        (self.area.kept, self.area.n, self.area.told) = (kept, n, Some((n, Ok(all))));
        Ok(())
    }

    fn saved(&mut self, slots: &[Slot], i: usize, name: u64, asked: &Asked, other: bool) {
        let block = asked.block.noted();
        let about = &mut self.about;
        match slots.get(i) {
            Some(s) if *s.block == *block && s.counts == asked.counts => {
                about.push("save: used name, the same again")
            }
            Some(_) if slots.len() == MOST => about.push("save: used name of four"),
            Some(_) => about.push("save: used name"),
            None => about.push(ABOUT[i]),
        }
        if name == 0 {
            about.push("save: the name 0");
        }
        let beside = |low: bool| {
            slots.iter().any(|s| {
                s.name != name
                    && (if low { s.name >> 32 == name >> 32 } else { s.name as u32 == name as u32 })
            })
        };
        if beside(true) {
            about.push("save: names that differ in their low half alone");
        }
        if beside(false) {
            about.push("save: names that differ in their high half alone");
        }
        if other {
            about.push("save: another panel");
        }
        if asked.known.is_some_and(|(_, snap)| !snap.quiet.is_empty()) {
            about.push("save: quiet neighbours");
        }
        if self.undamaged.is_some() {
            about.push("save: into a damaged area that savings leave");
        } else if !slots.is_empty() && self.area.n != block.len() {
            about.push("save: into an area of another length, one state kept");
        }
    }

    /// A return; none where it is refused.
    pub fn go_back(&mut self, asked: Asked, name: u64) -> Same<Option<Back>> {
        asked.block.note();
        let n = asked.block.part().len();
        let told = self.keeps(n);
        let slot = told.as_ref().ok().and_then(|s| s.iter().find(|s| s.name == name)).cloned();
        let number = match (&asked.known, &told, &slot) {
            (None, _, _) => 5,
            (_, Err(_), _) => 17,
            (_, _, None) => 15,
            _ => 0,
        };
        self.calls += 1;
        let mut counts = asked.counts;
        let a = library::go_back(asked.block.part_mut(), &mut counts, self.lent.part(), name);
        same("return answer", number, a.number)?;
        same("return length", 0, a.length)?;
        holds(a.kept, "return wrote outside of the counts")?;
        holds(asked.block.pads_kept(), "return wrote outside of the block")?;
        holds(self.lent.pads_kept(), "return wrote outside of the area")?;
        holds(self.area.is(self.lent.part()), "a return changed the area")?;
        if number != 0 {
            same("counts of a refused return", asked.counts, counts)?;
            holds(asked.block.unchanged(), "a refused return changed the block")?;
            match told {
                _ if number == 5 => self.not_whole("return", n, name),
                Ok(s) => self.about.push(match (s.is_empty(), name) {
                    (true, _) => "return: 15, none kept",
                    (_, 0) => "return: 15, the name 0",
                    _ => "return: 15",
                }),
                Err(why) => {
                    self.about.push(named("return", &format!("17, {why}")));
                    if !self.names().contains(&name) && why != "shorter than 256" {
                        self.about.push("return: 17 before 15");
                    }
                }
            }
            return Ok(None);
        }
        let kept = self.kept(slot.expect("a state"))?;
        same("counts of a return", kept.slot.counts, counts)?;
        same_bytes("block after a return", &kept.slot.block, asked.block.part())?;
        self.returned(&kept, &asked, name);
        let mut panel = kept.panel.copy();
        panel.set_counts(counts);
        let cached = kept.snap.cache.iter();
        self.back = cached.map(|c| (c.id, self.told.contains(&c.id))).collect();
        Ok(Some(Back { panel, counts }))
    }

    fn returned(&mut self, kept: &Kept, asked: &Asked, name: u64) {
        let (block, before) = (&kept.slot.block[..], asked.block.noted());
        let (_, snap) = asked.known.expect("a panel");
        let need = block::need(&block::limits(before));
        let head = |b: &[u8]| b[8 * block::word::M..8 * block::word::LIVE].to_vec();
        let about = &mut self.about;
        about.push(if block == before {
            "return: the state of now"
        } else {
            "return: another state"
        });
        let more = [
            (kept.slot.counts != asked.counts, "return: other counts"),
            (head(block) != head(before), "return: another panel"),
            (kept.snap.quiet != snap.quiet, "return: other quiet neighbours"),
            (self.last == Some(name), "return: twice"),
            (self.area.kept.len() == MOST, "return: of four"),
            (block.get(need..) != before.get(need..), "return: bytes behind the need"),
            (self.undamaged.is_some(), "return: from a damaged area that savings leave"),
            (
                self.undamaged.is_none() && self.area.n != block.len(),
                "return: from an area of another length, one state kept",
            ),
        ];
        about.extend(more.iter().filter(|m| m.0).map(|m| m.1));
        self.last = Some(name);
    }

    /// An event call, and what it told as forgotten.
    pub fn event(&mut self, accepted: bool, forgotten: &[Id]) {
        let back: Vec<bool> = forgotten.iter().filter_map(|id| self.back.remove(id)).collect();
        if !back.is_empty() {
            self.about.push("return: what came back leaves the message cache");
        }
        if back.contains(&true) {
            self.about
                .push("return: what came back leaves the message cache, which it had left before");
        }
        self.told.extend(forgotten);
        if self.last.take().is_some() {
            self.about.push(if accepted {
                "return: an event accepted behind it"
            } else {
                "return: an event refused behind it"
            });
        }
    }
}
