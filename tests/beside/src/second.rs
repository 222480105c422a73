//! A second panel of the library. One that is alike, with equal counts, goes through the same calls: it must answer the same and stay alike. One that differs in an
//! order goes through them too, to count how many calls tell apart.
use std::collections::BTreeMap;

use oracle::snap::Snap;

use crate::{
    block,
    lent::{Block, Output},
    library,
    likeness::{self, Told},
    run::{holds, Same},
    wire,
};

/// Pairs that two lists of calls lead to: what differs between the lists, whether the panels are alike, and what *alike* is then about.
pub const BY_CALLS: &[(&str, bool, &str)] = &[
    (
        "by calls: record of broadcasts and of a dispatch",
        true,
        "alike: record interleaved otherwise",
    ),
    ("by calls: queue of broadcasts and of a tick", true, "alike: queue interleaved otherwise"),
    ("by calls: rows of different times in either order", true, "alike: the same tables"),
    ("by calls: received rows of one time", false, "alike not: order of received rows"),
    ("by calls: cached rows of one time", false, "alike not: order of cached rows"),
    ("by calls: received and cached rows of one time", false, "alike not: several orders"),
    ("by calls: grafted rows of one time", false, "alike not: order of grafted rows"),
    ("by calls: announcers", false, "alike not: order of announcers"),
    ("by calls: queue", false, "alike not: order of queue"),
    ("by calls: record", false, "alike not: order of record"),
];

/// Paths of second panels.
pub const ABOUT: &[&str] = &[
    "second: answer 0",
    "second: answer 6",
    "second: answer 7",
    "second: answer 8",
    "second: answer 9",
    "second: answer 10",
    "second: answer 11",
    "second: answer 12",
    "second: answer 13",
    "second: answer 14",
    "second: answer 23",
    "second: 13, notes interleaved otherwise",
    "second: 14, notes interleaved otherwise",
    "second: 23, notes interleaved otherwise",
    "second: dispatch, queue interleaved otherwise",
    "second: dispatch handed back, queue interleaved otherwise",
    "second: announce, record interleaved otherwise",
    "second: announce leaves some, record interleaved otherwise",
    "second: a longer queue, interleaved otherwise",
    "second: a longer record, interleaved otherwise",
    "second: down, notes interleaved otherwise",
    "second: in a longer block",
    "second: forgotten, one",
    "second: forgotten, several",
    "second: up quiet",
    "second: a push, some are quiet",
    "in another order, told apart by chosen calls: queue",
    "in another order, told apart by chosen calls: record",
    "in another order, told apart by chosen calls: announcers",
    "in another order, told apart by chosen calls: cached rows",
];

/// The paths of `BY_CALLS`.
pub fn by_calls() -> impl Iterator<Item = &'static str> {
    BY_CALLS.iter().map(|e| e.0)
}

#[derive(Clone, Copy, PartialEq)]
enum Mode {
    /// Waits for the first one.
    Aside,
    Alike,
    /// Differs in this order.
    Apart(&'static str),
}

struct Second {
    block: Block,
    counts: [u64; 3],
    mode: Mode,
    /// Whether its queue and its record are interleaved otherwise than the first one's.
    mixed: [bool; 2],
}

/// The first panel, after a call or before all of them.
#[derive(Clone, Copy)]
pub struct First<'a> {
    pub block: &'a [u8],
    /// The state that was read off the block; none if it is not whole.
    pub snap: Option<&'a Snap>,
    pub counts: [u64; 3],
    pub number: u64,
    pub actions: &'a [u8],
}

/// What is asked with.
pub struct Asked<'a> {
    pub now: u64,
    pub rooms: &'a [(u64, u16)],
    pub event: &'a [u8],
    pub out: usize,
}

/// Pairs by the order that differs: how many there were, how many of them chosen calls tell apart, and how many the calls of the list.
pub type Apart = BTreeMap<&'static str, [u64; 3]>;

pub struct Seconds {
    second: Option<Second>,
    out: Output,
    /// The outputs of chosen calls.
    chosen: [Vec<u8>; 2],
    pub about: Vec<&'static str>,
    /// Pairs that are alike, and calls that both went through.
    pub alike: u64,
    pub calls: u64,
    pub apart: Apart,
}

/// A path whose name is put together; none where it is no path.
fn named(name: String) -> Option<&'static str> {
    ABOUT.iter().find(|n| **n == name).copied()
}

/// The kind of order that `likeness::told` is about.
fn order(about: &'static str) -> &'static str {
    about.strip_prefix("alike not: order of ").unwrap_or("several")
}

impl Seconds {
    /// All of the output is looked at behind so many calls.
    pub fn new(every: u32) -> Seconds {
        Seconds {
            second: None,
            out: Output::new(every),
            chosen: [Vec::new(), Vec::new()],
            about: Vec::new(),
            alike: 0,
            calls: 0,
            apart: Apart::new(),
        }
    }

    /// At the end of a list: nothing was written beyond a length.
    pub fn look(&mut self) -> Same<()> {
        self.out.look().map_err(|e| format!("second panel: {e}"))
    }

    /// Whether a second panel goes along.
    pub fn is_there(&self) -> bool {
        self.second.is_some()
    }

    /// The first panel is put aside: it is the second one of the panel that is created next.
    pub fn put_aside(&mut self, block: &[u8], counts: [u64; 3]) {
        self.second = Some(Second::new(block, counts, Mode::Aside, [false; 2]));
    }

    /// A creation begins: of what was before, a panel that is put aside stays, and the outputs.
    pub fn go_on(&mut self, old: Seconds) {
        self.second = old.second.filter(|s| s.mode == Mode::Aside);
        (self.out, self.chosen) = (old.out, old.chosen);
    }

    /// The first panel is another one from here on.
    pub fn end(&mut self) {
        self.second = None;
    }

    /// The panel that was put aside goes along from here on.
    pub fn together(&mut self, first: First) -> Same<Told> {
        let second = self.second.take().filter(|s| s.mode == Mode::Aside);
        let s = second.ok_or("script: no panel aside")?;
        self.goes_along(first, s.block.part(), s.counts)
    }

    /// A panel with this block and these counts goes along from here on.
    pub fn goes_along(&mut self, first: First, block: &[u8], counts: [u64; 3]) -> Same<Told> {
        let told = asked_both_ways(first.block, first.snap, block)?;
        self.second = None;
        let mode = match told.number == 0 && told.alike {
            true if counts == first.counts => Mode::Alike,
            false if told.unordered => Mode::Apart(order(told.about)),
            _ => return Ok(told),
        };
        match mode {
            Mode::Apart(list) => {
                let n = self.apart.entry(list).or_default();
                n[0] += 1;
                if told_apart(first.block, block, &mut self.chosen) {
                    n[1] += 1;
                    self.about.extend(named(format!(
                        "in another order, told apart by chosen calls: {list}"
                    )));
                }
            }
            _ => self.alike += 1,
        }
        if mode == Mode::Alike && block.len() > first.block.len() {
            self.about.push("second: in a longer block");
        }
        let mixed = likeness::mixed(first.block, block);
        self.second = Some(Second::new(block, counts, mode, mixed));
        Ok(told)
    }

    /// A call upon the second panel, behind one upon the first.
    pub fn event(&mut self, first: First, asked: Asked) -> Same<()> {
        let Some(s) = self.second.as_mut().filter(|s| s.mode != Mode::Aside) else {
            return Ok(());
        };
        let out = &mut self.out;
        let in_second = |e: String| format!("second panel: {e}");
        if s.mode != Mode::Alike {
            // How much it writes is not known before.
            out.look().map_err(in_second)?;
        }
        out.lend(asked.out, first.actions.len()).map_err(in_second)?;
        let was = block::interleaved(s.block.part());
        if first.number != 0 || s.mode != Mode::Alike {
            s.block.note();
        }
        let mut counts = s.counts;
        let (block, to) = (s.block.part_mut(), out.part_mut());
        let a = library::event(block, &mut counts, asked.now, asked.event, asked.rooms, to);
        holds(a.kept, "second panel: wrote outside of the counts")?;
        holds(s.block.pads_kept(), "second panel: wrote outside of the block")?;
        out.kept(a.length as usize).map_err(in_second)?;
        let actions = out.written();
        if s.mode == Mode::Alike {
            holds(a.number == first.number, "second panel: another answer")?;
        }
        if a.number != 0 {
            holds(s.block.unchanged(), "second panel: a refused call changed the block")?;
            holds(counts == s.counts, "second panel: a refused call changed the counts")?;
        } else {
            s.block.changed();
        }
        s.counts = counts;
        let same = [
            (a.number == first.number, "second panel: another answer"),
            (actions == first.actions, "second panel: other actions"),
            (counts == first.counts, "second panel: other counts"),
        ];
        if let Mode::Apart(list) = s.mode {
            if same.iter().any(|e| !e.0) {
                self.apart.entry(list).or_default()[2] += 1;
                self.second = None;
            } else if asked_both_ways(first.block, first.snap, s.block.part())?.alike {
                self.second = None;
            }
            return Ok(());
        }
        self.calls += 1;
        for (yes, why) in same {
            holds(yes, why)?;
        }
        match wire::struck(actions).map_or(0, |s| s.forgotten.len()) {
            0 => {}
            1 => self.about.push("second: forgotten, one"),
            _ => self.about.push("second: forgotten, several"),
        }
        if a.number == 0 && asked.event[0] == wire::QUIET {
            self.about.push("second: up quiet");
        }
        let quiet = first.snap.is_some_and(|s| !s.quiet.is_empty());
        let gossip = |m: &&[u8]| m.first() == Some(&0);
        if quiet && wire::sent(actions).iter().any(gossip) {
            self.about.push("second: a push, some are quiet");
        }
        let told = asked_both_ways(first.block, first.snap, s.block.part())?;
        holds(told.alike, "second panel: no longer alike")?;
        let is = block::interleaved(s.block.part());
        self.about.extend(paths(a.number, asked.event, s.mixed, [was, is]));
        s.mixed = likeness::mixed(first.block, s.block.part());
        Ok(())
    }
}

impl Second {
    fn new(block: &[u8], counts: [u64; 3], mode: Mode, mixed: [bool; 2]) -> Second {
        Second { block: Block::of(block), counts, mode, mixed }
    }
}

/// *Alike*, both ways, held against the model. `x` is the state that was read off the first block, where that was done before.
pub fn asked_both_ways(a: &[u8], x: Option<&Snap>, b: &[u8]) -> Same<Told> {
    let told = likeness::told(a, x, b);
    let model = (told.number, told.alike);
    for (what, ours) in
        [("alike", library::alike(a, b)), ("alike, the other way", library::alike(b, a))]
    {
        if ours != model {
            return Err(format!(
                "{what} ({}): the model {model:?}, the library {ours:?}",
                told.about
            ));
        }
    }
    holds(!told.alike || told.unordered, "alike, and not alike in the old way")?;
    Ok(told)
}

/// A panel that chosen calls are run on, with an output that is long enough.
struct Chosen<'a> {
    block: Vec<u8>,
    counts: [u64; 3],
    out: &'a mut Vec<u8>,
}

impl Chosen<'_> {
    fn new<'a>(block: &[u8], out: &'a mut Vec<u8>) -> Chosen<'a> {
        out.resize(1 << 21, 0);
        Chosen { block: block.to_vec(), counts: [0; 3], out }
    }

    /// The answer, the actions and the counts of a call with room on every link.
    fn answered(&mut self, now: u64, event: &[u8]) -> (u64, &[u8], [u64; 3]) {
        let a = library::event(&mut self.block, &mut self.counts, now, event, &[], self.out);
        (a.number, &self.out[..a.length as usize], self.counts)
    }
}

/// Whether chosen calls tell two panels apart: dispatches of what is queued, ticks that bring what is recorded, Grafts to announcers that stand in another order, an
/// eviction of all that is cached.
fn told_apart(a: &[u8], b: &[u8], outs: &mut [Vec<u8>; 2]) -> bool {
    let (Ok(x), Ok(y)) = (block::read(a), block::read(b)) else {
        return false;
    };
    let mut events = Vec::new();
    if (&x.queue, &x.dropped) != (&y.queue, &y.dropped) {
        let ticks = [wire::DISPATCH, wire::ANNOUNCE].map(|e| (0, e.to_vec()));
        events.extend(std::iter::repeat_n(ticks, 5).flatten());
    }
    for (m, n) in x.missing.iter().zip(&y.missing).filter(|e| e.0 != e.1) {
        assert_eq!(m.0, n.0);
        events.extend(std::iter::repeat_n((0, wire::send_graft(&m.0)), m.1.len()));
    }
    if x.cexp != y.cexp {
        events.push((1 << 62, wire::EVICT.to_vec()));
    }
    let [m, n] = outs;
    let (mut a, mut b) = (Chosen::new(a, m), Chosen::new(b, n));
    events.iter().any(|(now, e)| a.answered(*now, e) != b.answered(*now, e))
}

/// The paths of a call that both panels went through. `mixed` tells whether their queues and records were interleaved otherwise before it; `notes` are the link numbers before
/// and after it.
fn paths(
    number: u64,
    event: &[u8],
    mixed: [bool; 2],
    notes: [[Vec<u8>; 2]; 2],
) -> Vec<&'static str> {
    let mut v: Vec<&'static str> = named(format!("second: answer {number}")).into_iter().collect();
    let [queue, record] = mixed;
    if queue || record {
        v.extend(named(format!("second: {number}, notes interleaved otherwise")));
    }
    if number != 0 {
        return v;
    }
    let [was, is] = notes.map(|n| n.map(|x| x.len()));
    let (dispatch, announce) = (event == wire::DISPATCH, event == wire::ANNOUNCE);
    let down = event.first() == Some(&4);
    let all = [
        (dispatch && queue, "second: dispatch, queue interleaved otherwise"),
        (
            dispatch && queue && is[1] > was[1],
            "second: dispatch handed back, queue interleaved otherwise",
        ),
        (announce && record, "second: announce, record interleaved otherwise"),
        (
            announce && record && is[1] > 0,
            "second: announce leaves some, record interleaved otherwise",
        ),
        (queue && is[0] > was[0], "second: a longer queue, interleaved otherwise"),
        (record && is[1] > was[1], "second: a longer record, interleaved otherwise"),
        (down && (queue || record) && is != was, "second: down, notes interleaved otherwise"),
    ];
    v.extend(all.iter().filter(|e| e.0).map(|e| e.1));
    v
}
