//! Runs commands on both, the Rust and the library, and compares after each.
use std::{
    collections::{BTreeMap, BTreeSet},
    rc::Rc,
};

use oracle::{
    snap::{Id, Snap},
    Answer, Limits, Panel, Seen, FORGOTTEN,
};

use crate::{
    block,
    lent::{Block, Lent, Output, SELDOM},
    library,
    likeness::{self, List},
    rewriting::Rewriter,
    rng::Rng,
    script::Cmd,
    second::{self, First, Seconds},
    states::{Asked, Keeper},
    wire::{self, Action, Message},
};

/// What an event call was, for the summary of paths.
pub struct Call {
    pub before: Option<Rc<Snap>>,
    /// With the identifiers that the library told in actions 4.
    pub answer: Answer,
}

struct Saved {
    panel: Panel,
    snap: Rc<Snap>,
    block: Vec<u8>,
    counts: [u64; 3],
    limits: Limits,
}

pub struct Pair {
    /// All of an output is looked at behind so many calls.
    every: u32,
    settings: Option<(u64, u64, [u64; 7])>,
    pub limits: Limits,
    panel: Option<Panel>,
    /// The state; none if the block is not whole.
    pub snap: Option<Rc<Snap>>,
    /// Why the block is not whole.
    pub fault: Option<&'static str>,
    /// What the last question of *alike* was about.
    pub likeness: Option<&'static str>,
    block: Block,
    /// The block's bytes behind the needed length.
    behind: Vec<u8>,
    /// The memory of the other block of *alike*.
    other: Lent,
    counts: [u64; 3],
    out: Output,
    saved: Option<Saved>,
    garbage: Rng,
    pub rewriter: Rewriter,
    /// The area and what was saved into it.
    pub keeper: Keeper,
    /// The second panel.
    pub seconds: Seconds,
}

pub type Same<T> = Result<T, String>;

pub fn same<T: PartialEq + std::fmt::Debug>(what: &str, rust: T, ours: T) -> Same<()> {
    if rust == ours {
        Ok(())
    } else {
        Err(format!("{what}: the Rust {rust:?}, the library {ours:?}"))
    }
}

pub fn holds(yes: bool, what: &str) -> Same<()> {
    if yes {
        Ok(())
    } else {
        Err(what.into())
    }
}

/// The words in which two lines of text differ.
fn unlike(rust: &Snap, ours: &Snap) -> String {
    let (a, b) = (rust.text(), ours.text());
    let [x, y] = [&a, &b].map(|text| {
        text.split(' ').filter_map(|w| w.split_once('=')).collect::<BTreeMap<&str, &str>>()
    });
    let mut o = String::from("state:");
    for name in x.keys().chain(y.keys()).collect::<BTreeSet<_>>() {
        let [p, q] = [&x, &y].map(|v| v.get(name).unwrap_or(&"-"));
        if p != q {
            o += &format!("\n  the Rust    {name}={p}\n  the library {name}={q}");
        }
    }
    o
}

impl Default for Pair {
    fn default() -> Pair {
        Pair::looking(SELDOM)
    }
}

impl Pair {
    /// All of an output is looked at behind so many calls.
    pub fn looking(every: u32) -> Pair {
        Pair {
            every,
            settings: None,
            limits: Limits { max: [0; 9], out: 0 },
            panel: None,
            snap: None,
            fault: None,
            likeness: None,
            block: Block::new(0),
            behind: Vec::new(),
            other: Lent::new(0),
            counts: [0; 3],
            out: Output::new(every),
            saved: None,
            garbage: Rng::new(7),
            rewriter: Rewriter::new(every),
            keeper: Keeper::default(),
            seconds: Seconds::new(every),
        }
    }

    /// At the end of a list: what was lent is as it should be where that was not looked at yet.
    pub fn end(&mut self) -> Same<()> {
        self.out.look()?;
        self.rewriter.end()?;
        self.seconds.look()
    }

    /// The Rust's panel.
    pub fn panel(&self) -> &Panel {
        self.panel.as_ref().expect("a panel")
    }

    pub fn block(&self) -> &[u8] {
        self.block.part()
    }

    /// Runs a command. The error tells a difference.
    pub fn run(&mut self, cmd: &Cmd) -> Same<Option<Call>> {
        match cmd {
            Cmd::New { me, m, cfg } => {
                self.end()?;
                let old = std::mem::replace(self, Pair::looking(self.every));
                // Of what was before, outputs, blocks and areas stay as memory, and a panel that was put aside.
                self.out = old.out;
                self.block = old.block;
                self.other = old.other;
                self.rewriter.take_output(old.rewriter);
                self.keeper.take_memory(old.keeper);
                self.seconds.go_on(old.seconds);
                self.settings = Some((*me, *m, *cfg));
                self.garbage = Rng::new(*me ^ *m ^ cfg[4]);
                Ok(None)
            }
            Cmd::Limits { max, out } => {
                if self.panel.is_none() {
                    self.limits = Limits { max: *max, out: *out };
                    self.create()?;
                }
                if self.limits.max != *max {
                    return Err("script: limits change only by creation".into());
                }
                self.limits.out = *out;
                Ok(None)
            }
            Cmd::Load(_) if self.panel.is_none() => Err("script: load before limits".into()),
            Cmd::Load(state) => self.load(loaded(state)?).map(|()| None),
            Cmd::Counts(c) => {
                self.counts = *c;
                self.seconds.end();
                self.panel.as_mut().ok_or("script: no panel")?.set_counts(*c);
                Ok(None)
            }
            Cmd::Event { now, rooms, event } => self.event(*now, rooms, event).map(Some),
            Cmd::Rewrite { message, room } => self.rewriter.run(message, *room).map(|()| None),
            Cmd::Alike { max, state } => self.alike(max, state).map(|()| None),
            Cmd::Poke(v) => {
                self.save();
                for (i, b) in v {
                    if let Some(x) = self.block.part_mut().get_mut(*i) {
                        *x = *b;
                    }
                }
                self.look().map(|()| None)
            }
            Cmd::Cut(n) => {
                self.save();
                let n = (*n).min(self.block.part().len());
                let kept = self.block.part()[..n].to_vec();
                self.block.put(&kept);
                self.look().map(|()| None)
            }
            Cmd::Undo => {
                let s = self.saved.take().ok_or("script: nothing to undo")?;
                self.panel = Some(s.panel);
                self.snap = Some(s.snap);
                self.fault = None;
                self.block.put(&s.block);
                self.counts = s.counts;
                self.limits = s.limits;
                Ok(None)
            }
            Cmd::Area(n) => {
                self.keeper.begin(*n);
                Ok(None)
            }
            Cmd::Save(name) => {
                let (asked, keeper) = self.asked();
                keeper.save(asked, false, *name).map(|()| None)
            }
            Cmd::SaveOther { name, counts, max, state } => {
                self.save_other(*name, *counts, max, state).map(|()| None)
            }
            Cmd::Return(name) => self.go_back(*name).map(|()| None),
            Cmd::PokeArea(v) => {
                self.keeper.poke(v);
                Ok(None)
            }
            Cmd::CutArea(n) => {
                self.keeper.cut(*n);
                Ok(None)
            }
            Cmd::UndoArea => self.keeper.undo().map(|()| None),
            Cmd::Second(seed) => self.second(*seed, None).map(|()| None),
            Cmd::Reordered(list, seed) => {
                let list = likeness::LISTS.get(*list).ok_or("script: no such list")?;
                self.second(*seed, Some(*list)).map(|()| None)
            }
            Cmd::Aside => {
                self.seconds.put_aside(self.block.part(), self.counts);
                Ok(None)
            }
            Cmd::Together(kind) => self.together(*kind).map(|()| None),
        }
    }

    /// A second panel with this state, or with one of its lists in another order.
    fn second(&mut self, seed: u64, list: Option<List>) -> Same<()> {
        let state = self.snap.clone().ok_or("script: a block that is not whole")?;
        let mut snap = Snap::clone(&state);
        let mut r = Rng::new(seed);
        if list.is_some_and(|list| !likeness::reorder(&mut r, &mut snap, list)) {
            return Ok(());
        }
        let mut block = vec![0; block::need(&self.limits.max) + r.pick(&[0, 1, 50, 3000])];
        r.cover(&mut block);
        block::write(&mut r, &mut block, &self.limits.max, &snap);
        let (first, seconds) = self.first();
        let told = seconds.goes_along(first, &block, first.counts)?;
        self.likeness = Some(told.about);
        holds(told.unordered, "second panel: not alike in the old way")?;
        holds(told.alike == list.is_none(), "second panel: not as it was written")
    }

    /// The panel that was put aside and this one, by two lists of calls of this kind.
    fn together(&mut self, kind: usize) -> Same<()> {
        let (name, alike, about) = second::BY_CALLS.get(kind).ok_or("script: no such lists")?;
        let (first, seconds) = self.first();
        let told = seconds.together(first)?;
        self.likeness = Some(told.about);
        let should = told.unordered && told.alike == *alike && told.about == *about;
        if should && self.seconds.is_there() {
            self.seconds.about.push(name);
        }
        Ok(())
    }

    /// A saving of another panel's state, in a block as long as this one.
    fn save_other(
        &mut self,
        name: u64,
        counts: [u64; 3],
        max: &[u64; 9],
        state: &Snap,
    ) -> Same<()> {
        let mut panel = loaded(state)?;
        panel.set_counts(counts);
        let len = self.block.part().len();
        if block::need(max) > len {
            return Err("script: another panel does not fit".into());
        }
        let mut second = Block::new(len);
        self.garbage.cover(second.part_mut());
        let snap = Rc::new(sorted(panel.snap()));
        block::write(&mut self.garbage, second.part_mut(), max, &snap);
        let known = block::read(second.part()).is_ok().then_some((&panel, &snap));
        let asked = Asked { block: &mut second, counts, known };
        self.keeper.save(asked, true, name)
    }

    /// What a saving or a return is asked with, and who answers.
    fn asked(&mut self) -> (Asked<'_>, &mut Keeper) {
        let known = self.panel.as_ref().zip(self.snap.as_ref());
        let asked = Asked { block: &mut self.block, counts: self.counts, known };
        (asked, &mut self.keeper)
    }

    /// The first panel before a call, and the second one.
    fn first(&mut self) -> (First<'_>, &mut Seconds) {
        let (block, snap) = (self.block.part(), self.snap.as_deref());
        let first = First { block, snap, counts: self.counts, number: 0, actions: &[] };
        (first, &mut self.seconds)
    }

    /// A return: the Rust goes on from its copy of the time of the saving.
    fn go_back(&mut self, name: u64) -> Same<()> {
        let (asked, keeper) = self.asked();
        let Some(back) = keeper.go_back(asked, name)? else {
            return Ok(());
        };
        self.seconds.end();
        self.panel = Some(back.panel);
        self.counts = back.counts;
        self.limits.max = block::limits(self.block.part());
        self.fault = None;
        self.settle()
    }

    fn create(&mut self) -> Same<()> {
        let (me, m, cfg) = self.settings.ok_or("script: limits before new")?;
        let max = self.limits.max;
        let need = block::need(&max);
        same("block size", need as u64, library::block_size(max))?;
        let any = [self.garbage.next(), self.garbage.next(), self.garbage.below(65536)];
        // One byte short: refused, nothing touched.
        self.fill(need - 1);
        self.block.note();
        let mut counts = any;
        let a = library::create(self.block.part_mut(), &mut counts, me, m, cfg, max);
        let refused = library::Answer { number: 4, length: 0, kept: true };
        same("creation in a short block", refused, a)?;
        same("counts of a refused creation", any, counts)?;
        holds(self.block.unchanged(), "a refused creation changed the block")?;
        let more = self.garbage.pick(&[0, 0, 1, 7, 100]);
        self.fill(need + more);
        self.note_behind(need);
        let a = library::create(self.block.part_mut(), &mut counts, me, m, cfg, max);
        same("creation", library::Answer { number: 0, length: 0, kept: true }, a)?;
        same("counts of a creation", [0; 3], counts)?;
        holds(self.block.pads_kept(), "creation wrote outside of the block")?;
        holds(self.block.part()[need..] == self.behind, "creation wrote past the need")?;
        self.counts = counts;
        self.panel = Some(Panel::new(me, m, cfg));
        self.settle()
    }

    /// A new block full of anything.
    fn fill(&mut self, len: usize) {
        self.block.set_len(len);
        self.garbage.cover(self.block.part_mut());
    }

    fn note_behind(&mut self, need: usize) {
        self.behind.clear();
        self.behind.extend_from_slice(&self.block.part()[need..]);
    }

    fn load(&mut self, panel: Panel) -> Same<()> {
        let snap = sorted(panel.snap());
        let len = self.block.part().len();
        self.fill(len);
        block::write(&mut self.garbage, self.block.part_mut(), &self.limits.max, &snap);
        self.seconds.end();
        self.panel = Some(panel);
        self.counts = [0; 3];
        self.settle()
    }

    /// After an accepted creation, a load or an accepted event: the states agree.
    fn settle(&mut self) -> Same<()> {
        let rust = sorted(self.panel().snap());
        let ours = block::read(self.block.part()).map_err(|e| format!("not whole: {e}"))?;
        holds(library::whole(self.block.part_mut()), "the library says that the block is not whole")?;
        if rust != ours {
            return Err(unlike(&rust, &ours));
        }
        same("limits", self.limits.max, block::limits(self.block.part()))?;
        self.snap = Some(Rc::new(rust));
        self.block.changed();
        Ok(())
    }

    fn save(&mut self) {
        if self.saved.is_none() {
            self.saved = Some(Saved {
                panel: self.panel().copy(),
                snap: self.snap.clone().expect("a state"),
                block: self.block.part().to_vec(),
                counts: self.counts,
                limits: self.limits,
            });
        }
    }

    /// After a poke: whole or not, and if it is, the Rust goes on with what the block tells.
    fn look(&mut self) -> Same<()> {
        self.block.changed();
        self.block.note();
        let read = block::read(self.block.part());
        let why = read.as_ref().err().copied().unwrap_or("");
        let ours = library::whole(self.block.part_mut());
        if read.is_ok() != ours {
            return Err(format!("whole {} ({why}), the library {ours}", read.is_ok()));
        }
        self.snap = None;
        self.fault = read.as_ref().err().copied();
        if let Ok(snap) = read {
            // A poke that changes nothing of the state leaves the Rust's panel as it is.
            let saved = self.saved.as_ref().filter(|s| *s.snap == snap);
            let mut panel = saved.map_or_else(|| loaded(&snap), |s| Ok(s.panel.copy()))?;
            panel.set_counts(self.counts);
            self.panel = Some(panel);
            self.limits.max = block::limits(self.block.part());
            self.snap = Some(Rc::new(snap));
        }
        Ok(())
    }

    fn event(&mut self, now: u64, rooms: &[(u64, u16)], event: &[u8]) -> Same<Call> {
        let before = self.snap.clone();
        let limits = self.limits;
        let answer = match &before {
            Some(_) => {
                let panel = self.panel.as_mut().ok_or("script: no panel")?;
                panel.call(Some(&limits), now, rooms, event)
            }
            None => Answer { number: 5, ..Answer::default() },
        };
        let need = block::need(&limits.max);
        if answer.number == 0 {
            self.note_behind(need);
        } else {
            self.block.note();
        }
        // With the counts full a call is answered 11, and the question, which takes them as zero, is another one.
        if answer.number != 11 {
            let ours = library::limit_met(self.block.part(), now, event, rooms);
            same("limit met", first_limit(answer.over), ours)?;
        }
        let n = answer.actions.len() + FORGOTTEN * answer.forgotten.len();
        self.out.lend(limits.out, n)?;
        let mut counts = self.counts;
        let block = self.block.part_mut();
        let a = library::event(block, &mut counts, now, event, rooms, self.out.part_mut());
        same("answer", u64::from(answer.number), a.number)?;
        same("length", n as u64, a.length)?;
        if let Some(s) = before.as_ref().filter(|s| within(s)) {
            let enough = library::output_size(limits.max, s.m);
            holds(a.length <= enough, "more actions than output_size")?;
            holds(a.number != 14 || (limits.out as u64) < enough, "14 for an output of output_size")?;
        }
        holds(a.kept, "wrote outside of the counts")?;
        holds(self.block.pads_kept(), "wrote outside of the block")?;
        self.out.kept(n)?;
        compare_actions(&answer, self.out.written())?;
        if answer.number != 0 {
            same("counts of a refused call", self.counts, counts)?;
            holds(self.block.unchanged(), "a refused call changed the block")?;
        } else {
            same("counts", self.panel().counts(), counts)?;
            self.counts = counts;
            holds(self.block.part()[need..] == self.behind, "wrote past the need")?;
            self.settle()?;
            let (before, after) = (before.as_deref(), self.snap.as_deref());
            let (before, after) = before.zip(after).ok_or("an accepted call upon a block that is not whole")?;
            let seen = self.panel().see(event);
            let anew = match &seen {
                Some(Seen::Gossip { id, .. }) => Some(*id),
                Some(Seen::Broadcast { content, .. }) => Some(oracle::identifier(content)),
                _ => None,
            };
            held_against_the_cache(&answer.forgotten, before, after, anew)?;
            only_asked(&before.quiet, seen.as_ref(), self.out.written())?;
        }
        if self.saved.is_none() {
            let (block, snap) = (self.block.part(), self.snap.as_deref());
            let (number, actions) = (answer.number.into(), self.out.written());
            let first = First { block, snap, counts: self.counts, number, actions };
            let asked = second::Asked { now, rooms, event, out: limits.out };
            self.seconds.event(first, asked)?;
        }
        self.keeper.event(answer.number == 0, &answer.forgotten);
        Ok(Call { before, answer })
    }

    /// *Alike*, of the block and one that holds another state, both ways.
    fn alike(&mut self, max: &[u64; 9], other: &Snap) -> Same<()> {
        let second = &mut self.other;
        second.set_len(block::need(max));
        self.garbage.cover(second.part_mut());
        let as_before = *max == self.limits.max && second.part().len() <= self.block.part().len();
        if as_before && self.garbage.chance(50.0) {
            // What the state leaves free are the bytes of this block, rows behind shorter lists too.
            let n = second.part().len();
            second.part_mut().copy_from_slice(&self.block.part()[..n]);
        }
        block::write(&mut self.garbage, second.part_mut(), max, &sorted(other.clone()));
        self.block.note();
        let (a, b) = (self.block.part(), second.part());
        let told = second::asked_both_ways(a, self.snap.as_deref(), b)?;
        self.likeness = Some(told.about);
        holds(self.block.unchanged(), "alike changed the block")
    }
}

/// The library's actions: with the actions 4 struck out they are the Rust's, and those are its evictions' identifiers in their order, before its schedule.
fn compare_actions(answer: &Answer, actions: &[u8]) -> Same<()> {
    let hex = |bytes: &[u8]| hex::encode(bytes);
    let Some(struck) = wire::struck(actions) else {
        return Err(format!("no actions:\n  the library {}", hex(actions)));
    };
    if struck.others != answer.actions {
        let (a, b) = (hex(&answer.actions), hex(&struck.others));
        return Err(format!("actions:\n  the Rust    {a}\n  the library {b}"));
    }
    if struck.forgotten != answer.forgotten {
        let [a, b] = [&answer.forgotten, &struck.forgotten].map(|v| hex(&v.concat()));
        return Err(format!("forgotten:\n  the Rust    {a}\n  the library {b}"));
    }
    holds(struck.first, "forgotten, told behind another action")
}

/// What was told is what left the Rust's message cache, each once. `anew` may be cached again by the same call.
fn held_against_the_cache(
    forgotten: &[Id],
    before: &Snap,
    after: &Snap,
    anew: Option<Id>,
) -> Same<()> {
    let caches = |s: &Snap, id: &Id| s.cache.binary_search_by(|c| c.id.cmp(id)).is_ok();
    let told: BTreeSet<&Id> = forgotten.iter().collect();
    holds(told.len() == forgotten.len(), "forgotten, told twice")?;
    holds(told.iter().all(|id| caches(before, id)), "forgotten, and not cached before")?;
    let mut left = before.cache.iter().map(|c| &c.id).filter(|id| !caches(after, id));
    holds(left.all(|id| told.contains(id)), "left the message cache and not told")?;
    let again = told.iter().all(|id| !caches(after, id) || anew == Some(**id));
    holds(again, "forgotten, and still cached")
}

/// A quiet neighbour is sent no Gossip, taken or handed back, but one that it asks for by this very event.
fn only_asked(quiet: &[u64], seen: Option<&Seen>, actions: &[u8]) -> Same<()> {
    let asked = match seen {
        Some(Seen::Graft { peer, id: Some(id), .. }) => Some((*peer, *id)),
        _ => None,
    };
    let unasked = |a: &Action| match a {
        Action::Send { peer, message: Message::Gossip { id, .. }, .. } => {
            quiet.contains(peer) && asked != Some((*peer, *id))
        }
        _ => false,
    };
    let none = quiet.is_empty() || !wire::actions(actions).iter().any(unasked);
    holds(none, "a quiet neighbour is sent a payload that it did not ask for")
}

/// The first limit of those that the Rust's sizes are over, from 1; 0 if there is none. The numbers of expiry entries, bits 9 to 11, count to their caches.
fn first_limit(over: u16) -> u64 {
    const BITS: [u16; 9] = [1, 1 << 1 | 1 << 9, 1 << 2 | 1 << 10, 1 << 3, 1 << 4 | 1 << 11, 1 << 5, 1 << 6, 1 << 7, 1 << 8];
    BITS.iter().position(|b| over & b != 0).map_or(0, |i| i as u64 + 1)
}

/// Whether each cached message came as one of at most M bytes, and nothing is cached before the first event, as in every state that calls lead to from a creation.
fn within(s: &Snap) -> bool {
    (s.init || s.cache.is_empty()) && s.cache.iter().all(|c| c.content.len() as u64 + 37 <= s.m)
}

/// The Rust's panel with this state, counts zero.
pub fn loaded(s: &Snap) -> Same<Panel> {
    Panel::of(s).ok_or("a state that the Rust does not load".into())
}

/// Grafted peers of an identifier are a map, the block has them ascending.
fn sorted(mut s: Snap) -> Snap {
    for g in &mut s.grafted {
        g.peers.sort();
    }
    s
}
