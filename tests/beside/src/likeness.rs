//! *Alike*, and a plain model of it; the older one, which sees no order; and states that lie near another.
use std::collections::BTreeMap;

use oracle::snap::{Id, Notes, Snap};

use crate::{
    block::{self, CEILINGS},
    rng::Rng,
};

/// What two blocks are to one another.
pub struct Told {
    pub number: u64,
    pub alike: bool,
    /// As before "Order in alike": order ignored.
    pub unordered: bool,
    /// For the summary of paths.
    pub about: &'static str,
}

/// The lists whose order *alike* sees.
#[derive(Clone, Copy, PartialEq, Debug)]
pub enum List {
    Queue,
    Record,
    Announcers,
    ReceivedRows,
    CachedRows,
    GraftedRows,
}

pub const LISTS: [List; 6] = [
    List::Queue,
    List::Record,
    List::Announcers,
    List::ReceivedRows,
    List::CachedRows,
    List::GraftedRows,
];

impl List {
    pub fn name(self) -> &'static str {
        match self {
            List::Queue => "queue",
            List::Record => "record",
            List::Announcers => "announcers",
            List::ReceivedRows => "received rows",
            List::CachedRows => "cached rows",
            List::GraftedRows => "grafted rows",
        }
    }
}

fn notes(v: &mut Notes) {
    v.iter_mut().for_each(|e| e.1.sort());
}

/// The state with its lists sorted.
fn plain(s: &Snap) -> Snap {
    let mut s = s.clone();
    s.rexp.sort();
    s.cexp.sort();
    s.gexp.sort();
    s.grafted.iter_mut().for_each(|g| g.peers.sort());
    s.missing.iter_mut().for_each(|e| e.1.sort());
    notes(&mut s.queue);
    notes(&mut s.dropped);
    s
}

/// The first thing in which two states differ, order ignored: the specification's "own peer number, settings, limits, sets, flags and maps agree, order inside queue,
/// record, announcer and expiry lists ignored, repeats counted"; and "The quiet marks belong to the state: [..] alike compares them".
fn unlike(a: &[u8], b: &[u8], x: &Snap, y: &Snap) -> Option<&'static str> {
    let (p, q) = (plain(x), plain(y));
    let first = [
        (p.me != q.me, "alike not: own number"),
        (p.m != q.m, "alike not: M"),
        (p.cfg != q.cfg, "alike not: settings"),
        (block::limits(a) != block::limits(b), "alike not: limits"),
        ([&p.eager, &p.lazy] != [&q.eager, &q.lazy], "alike not: sets"),
        (p.quiet != q.quiet, "alike not: quiet marks"),
        (
            [p.init, p.dispatch, p.announce] != [q.init, q.dispatch, q.announce],
            "alike not: flags",
        ),
        (p.received != q.received, "alike not: received"),
        (p.rexp != q.rexp, "alike not: received rows"),
        (p.cache != q.cache, "alike not: cached"),
        (p.cexp != q.cexp, "alike not: cached rows"),
        (p.grafted != q.grafted, "alike not: grafted"),
        (p.gexp != q.gexp, "alike not: grafted rows"),
        (p.missing != q.missing, "alike not: missing"),
        (p.timers != q.timers, "alike not: timers"),
        (p.queue != q.queue, "alike not: queue"),
        (p.dropped != q.dropped, "alike not: record"),
    ];
    first.into_iter().find(|e| e.0).map(|e| e.1)
}

/// The identifiers of each time, in their order.
fn of_one_time(rows: &[(u64, Id)]) -> BTreeMap<u64, Vec<Id>> {
    let mut v: BTreeMap<u64, Vec<Id>> = BTreeMap::new();
    for (time, id) in rows {
        v.entry(*time).or_default().push(*id);
    }
    v
}

/// Where the order differs: "Alike now also compares the order of announcers, queues and records, and the order of expiry entries of one time." A queue and a record are
/// a peer's, announcers an identifier's.
fn orders(x: &Snap, y: &Snap) -> Vec<List> {
    let differs = |list: &List| match list {
        List::Queue => x.queue != y.queue,
        List::Record => x.dropped != y.dropped,
        List::Announcers => x.missing != y.missing,
        List::ReceivedRows => of_one_time(&x.rexp) != of_one_time(&y.rexp),
        List::CachedRows => of_one_time(&x.cexp) != of_one_time(&y.cexp),
        List::GraftedRows => of_one_time(&x.gexp) != of_one_time(&y.gexp),
    };
    LISTS.into_iter().filter(differs).collect()
}

/// *Alike*, "of two blocks (5 for either)". `x` is the state of the first one, where it is known.
pub fn told(a: &[u8], x: Option<&Snap>, b: &[u8]) -> Told {
    let read = if x.is_none() { block::read(a).ok() } else { None };
    let (Some(x), Ok(y)) = (x.or(read.as_ref()), block::read(b)) else {
        return Told { number: 5, alike: false, unordered: false, about: "alike: not whole" };
    };
    if *x == y && block::limits(a) == block::limits(b) {
        return Told { number: 0, alike: true, unordered: true, about: free(a, b) };
    }
    if let Some(about) = unlike(a, b, x, &y) {
        return Told { number: 0, alike: false, unordered: false, about };
    }
    let orders = orders(x, &y);
    let about = match orders[..] {
        [] => free(a, b),
        [list] => named("alike not: order of", list.name()),
        _ => "alike not: several orders",
    };
    Told { number: 0, alike: orders.is_empty(), unordered: true, about }
}

/// In what the blocks of one state differ: how the notes of different peers are interleaved, which of equal expiry rows an entry names, and the bytes of quiet marks.
fn free(a: &[u8], b: &[u8]) -> &'static str {
    let [queue, record] = mixed(a, b);
    let marks = block::marks(a) != block::marks(b);
    match (queue, record, block::places_named(a) != block::places_named(b)) {
        (true, true, _) => "alike: queue and record interleaved otherwise",
        (true, false, _) => "alike: queue interleaved otherwise",
        (false, true, _) => "alike: record interleaved otherwise",
        (false, false, true) => "alike: another of equal rows named",
        (false, false, false) if marks => "alike: quiet marks of other bytes",
        (false, false, false) => "alike: the same tables",
    }
}

/// Whether the notes of two blocks' queues, and of their records, are interleaved otherwise.
pub fn mixed(a: &[u8], b: &[u8]) -> [bool; 2] {
    let (x, y) = (block::interleaved(a), block::interleaved(b));
    [x[0] != y[0], x[1] != y[1]]
}

/// Every name that `told` has.
pub const ABOUT: &[&str] = &[
    "alike: not whole",
    "alike: the same tables",
    "alike: queue interleaved otherwise",
    "alike: record interleaved otherwise",
    "alike: queue and record interleaved otherwise",
    "alike: another of equal rows named",
    "alike: quiet marks of other bytes",
    "alike not: own number",
    "alike not: M",
    "alike not: settings",
    "alike not: limits",
    "alike not: sets",
    "alike not: quiet marks",
    "alike not: flags",
    "alike not: received",
    "alike not: received rows",
    "alike not: cached",
    "alike not: cached rows",
    "alike not: grafted",
    "alike not: grafted rows",
    "alike not: missing",
    "alike not: timers",
    "alike not: queue",
    "alike not: record",
    "alike not: order of queue",
    "alike not: order of record",
    "alike not: order of announcers",
    "alike not: order of received rows",
    "alike not: order of cached rows",
    "alike not: order of grafted rows",
    "alike not: several orders",
];

/// A path whose name is put together.
fn named(what: &str, list: &str) -> &'static str {
    let name = format!("{what} {list}");
    ABOUT.iter().find(|n| **n == name).unwrap_or_else(|| panic!("{name}"))
}

/// Two elements that are not the same exchanged, or all of them in another order; false where all are the same.
fn reordered<T: PartialEq + Clone>(r: &mut Rng, v: &mut [T]) -> bool {
    if v.iter().all(|x| *x == v[0]) {
        return false;
    }
    let before = v.to_vec();
    if r.chance(30.0) {
        r.shuffle(v);
    }
    if *v == before[..] {
        let i = r.index(v.len());
        let others: Vec<usize> = (0..v.len()).filter(|j| v[*j] != v[i]).collect();
        v.swap(i, r.pick(&others));
    }
    true
}

/// Expiry rows of one time in another order.
fn reordered_rows(r: &mut Rng, rows: &mut [(u64, Id)]) -> bool {
    let mut times: Vec<&mut [(u64, Id)]> = rows.chunk_by_mut(|x, y| x.0 == y.0).collect();
    r.shuffle(&mut times);
    times.into_iter().any(|v| reordered(r, v))
}

/// One list of this kind in another order, and nothing else changed; false where there is none that has another order.
pub fn reorder(r: &mut Rng, s: &mut Snap, list: List) -> bool {
    match list {
        List::Queue => {
            r.shuffle(&mut s.queue);
            let done = s.queue.iter_mut().any(|e| reordered(r, &mut e.1));
            s.queue.sort_by_key(|e| e.0);
            done
        }
        List::Record => {
            r.shuffle(&mut s.dropped);
            let done = s.dropped.iter_mut().any(|e| reordered(r, &mut e.1));
            s.dropped.sort_by_key(|e| e.0);
            done
        }
        List::Announcers => {
            r.shuffle(&mut s.missing);
            let done = s.missing.iter_mut().any(|e| reordered(r, &mut e.1));
            s.missing.sort_by_key(|e| e.0);
            done
        }
        List::ReceivedRows => reordered_rows(r, &mut s.rexp),
        List::CachedRows => reordered_rows(r, &mut s.cexp),
        List::GraftedRows => reordered_rows(r, &mut s.gexp),
    }
}

/// One row's time or identifier changed, a row that no entry needs.
fn row(r: &mut Rng, rows: &mut Vec<(u64, [u8; 32])>, held: &[(u64, [u8; 32])]) {
    let free: Vec<usize> = (0..rows.len()).filter(|i| !held.contains(&rows[*i])).collect();
    let Some(&i) = free.get(r.index(free.len())) else { return };
    match r.below(4) {
        0 => rows[i].0 ^= 1,
        1 => rows[i].1[31] ^= 1,
        // As many rows, but another one twice.
        2 => rows[i] = r.pick(rows),
        _ => {
            rows.remove(i);
        }
    }
    rows.sort_by_key(|e| e.0);
}

/// Notes of which each identifier stands once, as in a record: where it stood first, with its last round.
fn once(list: &mut Vec<(Id, u16)>) {
    let mut i = 0;
    while i < list.len() {
        let (id, round) = list[i];
        match list[..i].iter().position(|e| e.0 == id) {
            Some(first) => {
                list[first].1 = round;
                list.remove(i);
            }
            None => i += 1,
        }
    }
}

/// One note changed: its round, its identifier, or, where the list has repeats, another one twice in its place.
fn note(r: &mut Rng, v: &mut Notes, repeats: bool) {
    if v.is_empty() {
        return;
    }
    let k = r.index(v.len());
    let list = &mut v[k].1;
    let i = r.index(list.len());
    match r.below(4) {
        0 => list[i].1 ^= 1 << r.below(16),
        1 => list[i].0[r.index(32)] ^= 1 << r.below(8),
        2 if repeats => list[i] = r.pick(list),
        _ => {
            list.remove(i);
        }
    }
    if !repeats {
        once(list);
    }
    v.retain(|e| !e.1.is_empty());
}

/// A state near to this one, with limits: one list in another order, all lists so, one thing changed, or nothing.
pub fn near(r: &mut Rng, s: &Snap, limits: &[u64; 9]) -> ([u64; 9], Snap) {
    let mut t = s.clone();
    let mut max = *limits;
    match r.below(10) {
        0..=2 => {
            let mut lists = LISTS;
            r.shuffle(&mut lists);
            lists.into_iter().find(|list| reorder(r, &mut t, *list));
            return (max, t);
        }
        3 => {
            for list in LISTS {
                reorder(r, &mut t, list);
            }
            change(r, &mut t, &mut max);
        }
        4..=8 => {
            // One that there is.
            for _ in 0..5 {
                if t == *s && max == *limits {
                    change(r, &mut t, &mut max);
                }
            }
        }
        _ => {}
    }
    (max, t)
}

/// A lazy neighbour's quiet mark set, or taken.
fn mark(quiet: &mut Vec<u64>, peer: u64) {
    match quiet.iter().position(|p| *p == peer) {
        Some(i) => drop(quiet.remove(i)),
        None => quiet.push(peer),
    }
    quiet.sort();
}

/// One thing changed, or none where there is no such thing.
fn change(r: &mut Rng, t: &mut Snap, max: &mut [u64; 9]) {
    match r.below(23) {
        0 => t.me ^= 1 << r.below(64),
        1 => t.m = if t.m == 510 { 511 } else { t.m - 1 },
        2 => {
            let i = r.index(7);
            t.cfg[i] = if t.cfg[i] == 0 { 1 } else { t.cfg[i] - 1 };
        }
        3 => {
            let i = r.index(9);
            max[i] = (max[i] + 1).min(CEILINGS[i]);
        }
        4 => {
            let all: Vec<u64> = t.eager.iter().chain(&t.lazy).copied().collect();
            if let Some(p) = all.get(r.index(all.len())) {
                // Where some neighbour is quiet, a lazy one also changes between quiet and not.
                let lazy = t.lazy.contains(p);
                if !t.quiet.is_empty() && lazy && r.chance(70.0) {
                    return mark(&mut t.quiet, *p);
                }
                t.quiet.retain(|q| q != p);
                let (from, to) = match t.eager.contains(p) {
                    true => (&mut t.eager, &mut t.lazy),
                    false => (&mut t.lazy, &mut t.eager),
                };
                from.retain(|x| x != p);
                to.push(*p);
                to.sort();
            }
        }
        5 => t.init = !t.init,
        6 => t.dispatch = !t.dispatch,
        7 => t.announce = !t.announce,
        8 if !t.received.is_empty() => {
            let i = r.index(t.received.len());
            let (id, time) = t.received[i];
            if r.chance(50.0) {
                // Its row stays, no longer needed.
                t.received.remove(i);
            } else if let Some(e) = t.rexp.iter().find(|e| e.1 == id && e.0 != time) {
                t.received[i].1 = e.0;
            }
        }
        9 => {
            let held: Vec<_> = t.received.iter().map(|e| (e.1, e.0)).collect();
            row(r, &mut t.rexp, &held);
        }
        10 if !t.cache.is_empty() => {
            let i = r.index(t.cache.len());
            t.cache[i].round ^= 1 << r.below(16);
        }
        11 if !t.cache.is_empty() => {
            let i = r.index(t.cache.len());
            let c = &mut t.cache[i].content;
            match c.len() {
                0 => {}
                n if r.chance(60.0) => c[r.index(n)] ^= 1 << r.below(8),
                _ => {
                    c.pop();
                }
            }
        }
        12 if !t.cache.is_empty() => {
            t.cache.remove(r.index(t.cache.len()));
        }
        13 => {
            let held: Vec<_> = t.cache.iter().map(|c| (c.expires, c.id)).collect();
            row(r, &mut t.cexp, &held);
        }
        14 if !t.grafted.is_empty() => {
            let i = r.index(t.grafted.len());
            let g = &mut t.grafted[i];
            match r.below(5) {
                0 => g.first = if g.first.is_some() { None } else { Some((0, 0)) },
                1 => g.kept = if g.kept.is_some() { None } else { Some(0) },
                2 => g.first = g.first.map(|f| (f.0 ^ 1, f.1)),
                3 => g.first = g.first.map(|f| (f.0, f.1 ^ 256)),
                _ => g.kept = g.kept.map(|p| p ^ (1 << r.below(64))),
            }
        }
        15 if !t.grafted.is_empty() => {
            t.grafted.remove(r.index(t.grafted.len()));
        }
        16 => {
            let held: Vec<_> = t.grafted.iter().map(|g| (g.expires, g.id)).collect();
            row(r, &mut t.gexp, &held);
        }
        17 if !t.missing.is_empty() => {
            let i = r.index(t.missing.len());
            let v = &mut t.missing[i].1;
            let j = r.index(v.len());
            if v.len() > 1 && r.chance(50.0) {
                // Two peers' rounds exchanged, or one peer less.
                if r.chance(50.0) {
                    let round = v[0].1;
                    v[0].1 = v[j].1;
                    v[j].1 = round;
                } else {
                    v.remove(if r.chance(50.0) { v.len() - 1 } else { j });
                }
            } else {
                v[j].1 ^= 1 << r.below(16);
            }
        }
        18 if !t.missing.is_empty() => {
            t.missing.remove(r.index(t.missing.len()));
        }
        19 if !t.timers.is_empty() => {
            let i = r.index(t.timers.len());
            if r.chance(50.0) {
                t.timers.remove(i);
            } else {
                t.timers[i][r.index(32)] ^= 1 << r.below(8);
                t.timers.sort();
                t.timers.dedup();
            }
        }
        20 => note(r, &mut t.queue, true),
        21 => note(r, &mut t.dropped, false),
        22 if !t.grafted.is_empty() => {
            // Of the one with the most peers, or of any.
            let most = (0..t.grafted.len()).max_by_key(|i| t.grafted[*i].peers.len()).unwrap();
            let i = if r.chance(50.0) { most } else { r.index(t.grafted.len()) };
            let v = &mut t.grafted[i].peers;
            match v.len() {
                0 => {}
                n if r.chance(50.0) => v[r.index(n)].1 ^= 1 << r.below(16),
                n => {
                    // The last one more often: what stands behind the list may still be it.
                    v.remove(if r.chance(50.0) { n - 1 } else { r.index(n) });
                }
            }
        }
        _ => {}
    }
}
