//! A stored sample of calls with the Rust's answers and states (README.md, "The sample").
use std::collections::BTreeSet;

use oracle::{snap::Snap, Limits, Panel};

use crate::{
    block,
    gen::{Quiets, World},
    library,
    likeness::{self, LISTS},
    paths::{Paths, QUIET},
    rng::Rng,
    run::Pair,
    script::Cmd,
};

/// The longest block and output of the sample: the program that replays it has no more.
const MOST: usize = 65536;
/// A state stands behind so many accepted calls, and behind the last of a list.
const EVERY: usize = 6;
/// So many of the states have a queue whose order could be another; so many a record, announcers, expiry rows of one time.
const ORDERS: usize = 4;

fn low(o: &mut Vec<u8>, v: u64, bytes: usize) {
    o.extend(&v.to_le_bytes()[..bytes]);
}

/// The peer of a received message, if it can be read.
fn sender(event: &[u8]) -> Option<u64> {
    let (0, rest) = event.split_first().map(|(k, r)| (*k, r))? else { return None };
    let mut v: u64 = 0;
    for (i, b) in rest.iter().enumerate().take(10) {
        v |= u64::from(b & 127).checked_shl(7 * i as u32).unwrap_or(0);
        if *b < 128 {
            return Some(v);
        }
    }
    None
}

/// The neighbours, ascending.
fn neighbours(s: &Snap) -> Vec<u64> {
    let mut v: Vec<u64> = s.eager.iter().chain(&s.lazy).copied().collect();
    v.sort();
    v
}

/// The bounds of a call's link room, by the number of the neighbour, and at 32 that of the sender.
fn bounds(s: &Snap, rooms: &[(u64, u16)], event: &[u8]) -> Vec<(u8, u16)> {
    let of = |p: &u64| rooms.iter().find(|e| e.0 == *p).map(|e| e.1);
    let links = neighbours(s).into_iter().enumerate().map(|(i, p)| (i as u8, p));
    let all = links.chain(sender(event).map(|p| (32, p)));
    all.filter_map(|(i, p)| Some((i, of(&p)?))).collect()
}

/// A block of zeros with this state: the runs of its bytes that are not zero.
fn state(o: &mut Vec<u8>, max: &[u64; 9], s: &Snap) {
    let mut b = vec![0; block::need(max)];
    let mut s = s.clone();
    s.grafted.iter_mut().for_each(|g| g.peers.sort());
    block::write(&mut Rng::new(1), &mut b, max, &s);
    let mut runs: Vec<(usize, usize)> = Vec::new();
    for i in (0..b.len()).filter(|i| b[*i] != 0) {
        match runs.last_mut() {
            Some((_, end)) if i < *end + 8 => *end = i + 1,
            _ => runs.push((i, i + 1)),
        }
    }
    o.push(3);
    low(o, runs.len() as u64, 4);
    for (from, end) in runs {
        low(o, from as u64, 4);
        low(o, (end - from) as u64, 4);
        o.extend(&b[from..end]);
    }
}

/// The records of a list.
fn records(list: &[Cmd]) -> Vec<u8> {
    let mut o = Vec::new();
    let mut panel: Option<Panel> = None;
    let mut settings = None;
    let mut limits = Limits { max: [0; 9], out: 0 };
    let mut accepted = 0;
    for c in list {
        match c {
            Cmd::New { me, m, cfg } => settings = Some((*me, *m, *cfg)),
            Cmd::Limits { max, out } => {
                limits = Limits { max: *max, out: *out };
                if panel.is_none() {
                    let (me, m, cfg) = settings.expect("settings");
                    panel = Some(Panel::new(me, m, cfg));
                    o.push(0);
                    for x in [me, m].iter().chain(&cfg).chain(max) {
                        low(&mut o, *x, 8);
                    }
                }
            }
            Cmd::Counts(c) => {
                panel.as_mut().expect("a panel").set_counts(*c);
                o.push(1);
                c.iter().for_each(|x| low(&mut o, *x, 8));
            }
            Cmd::Event { now, rooms, event } => {
                let panel = panel.as_mut().expect("a panel");
                let bounds = bounds(&panel.snap(), rooms, event);
                let a = panel.call(Some(&limits), *now, rooms, event);
                o.push(2);
                low(&mut o, *now, 8);
                low(&mut o, 3 * bounds.len() as u64, 4);
                for (i, r) in bounds {
                    o.push(i);
                    low(&mut o, r.into(), 2);
                }
                low(&mut o, event.len() as u64, 4);
                o.extend(event);
                low(&mut o, limits.out as u64, 4);
                o.push(a.number);
                let actions = a.told();
                low(&mut o, actions.len() as u64, 4);
                o.extend(&actions);
                panel.counts().iter().for_each(|x| low(&mut o, *x, 8));
                if a.number == 0 {
                    accepted += 1;
                    if accepted % EVERY == 0 {
                        state(&mut o, &limits.max, &panel.snap());
                    }
                }
            }
            _ => unreachable!("a sample begins with creations"),
        }
    }
    state(&mut o, &limits.max, &panel.expect("a panel").snap());
    o
}

/// How many of these states have a list whose order could be another, for each kind of list.
fn orders(states: &[Snap]) -> [usize; 6] {
    LISTS.map(|list| {
        let other = |s: &&Snap| likeness::reorder(&mut Rng::new(1), &mut (*s).clone(), list);
        states.iter().filter(other).count()
    })
}

/// A list with its paths and the orders of its states.
struct Candidate {
    list: Vec<Cmd>,
    paths: Paths,
    orders: [usize; 6],
}

/// Runs a list without loads and damage.
fn candidate(seed: u64, n: u64) -> Option<Candidate> {
    let mut world = World::new(seed, n);
    let mut quiets = Quiets::of(seed, n, &mut world);
    let mut pair = Pair::default();
    let mut paths = Paths::default();
    let mut states = Vec::new();
    let mut accepted = 0;
    let mut list = world.begin();
    if list.iter().any(|c| matches!(c, Cmd::Load(_))) || world.calls > 60 {
        return None;
    }
    for c in &list {
        if matches!(c, Cmd::Limits { max, .. } if block::need(max) > MOST) {
            return None;
        }
        pair.run(c).ok()?;
    }
    for _ in 0..world.calls {
        let next = world.next(&pair);
        for c in quiets.next(&pair, next) {
            if matches!(c, Cmd::Poke(_) | Cmd::Cut(_) | Cmd::Undo) {
                return None;
            }
            if matches!(c, Cmd::Alike { .. }) {
                continue;
            }
            if matches!(c, Cmd::Limits { out, .. } if out > MOST) {
                return None;
            }
            if let Cmd::Event { now, rooms, event } = &c {
                let seen = pair.panel().see(event);
                let call = pair.run(&c).ok()??;
                let (before, after) = (call.before.as_deref(), pair.snap.as_deref());
                let out = pair.limits.out;
                if out > MOST {
                    return None;
                }
                paths.call(before, seen.as_ref(), *now, &call.answer, out, after, false);
                paths.spelled(before, event, &call.answer);
                paths.retired(&pair, *now, rooms, event, &call.answer);
                world.heard(&call);
                if call.answer.number == 0 {
                    accepted += 1;
                    if accepted % EVERY == 0 {
                        states.extend(pair.snap.as_deref().cloned());
                    }
                }
            } else {
                pair.run(&c).ok()?;
            }
            list.push(c);
        }
    }
    states.extend(pair.snap.as_deref().cloned());
    Some(Candidate { list, paths, orders: orders(&states) })
}

/// Lists that together take as many paths as possible, and have states with orders to compare, in few calls.
pub fn write(file: &str, seed: u64, calls: usize) {
    let mut had = BTreeSet::new();
    let mut orders = [0; 6];
    let mut out = Vec::new();
    let mut total = 0;
    let found: Vec<_> = (0..3000).filter_map(|n| candidate(seed, n)).collect();
    loop {
        // The list with the most new paths and orders for its bytes.
        let gain = |c: &Candidate| {
            let more = |i: usize| c.orders[i].min(ORDERS.saturating_sub(orders[i]));
            c.paths.names().filter(|n| !had.contains(n)).count() + (0..6).map(more).sum::<usize>()
        };
        let best = found
            .iter()
            .map(|c| (gain(c) as f64 / (500.0 + records(&c.list).len() as f64), gain(c), c))
            .max_by(|a, b| a.0.total_cmp(&b.0));
        let Some((_, 1.., c)) = best else {
            break;
        };
        total += c.list.iter().filter(|c| matches!(c, Cmd::Event { .. })).count();
        had.extend(c.paths.names());
        (0..6).for_each(|i| orders[i] += c.orders[i]);
        out.extend(records(&c.list));
        if total >= calls {
            break;
        }
    }
    std::fs::write(file, &out).unwrap();
    let quiet = had.iter().filter(|n| QUIET.contains(n)).count();
    println!("{file}: {total} calls, {} bytes, {} paths, {quiet} of them of a quiet neighbour", out.len(), had.len());
    for (list, n) in LISTS.iter().zip(orders) {
        println!("states in which the order of {} is compared: {n}", list.name());
    }
}

struct Reader<'a>(&'a [u8]);

impl<'a> Reader<'a> {
    fn take(&mut self, n: usize) -> &'a [u8] {
        let (a, b) = self.0.split_at(n);
        self.0 = b;
        a
    }
    fn number(&mut self, bytes: usize) -> u64 {
        self.take(bytes).iter().rev().fold(0, |v, b| v << 8 | u64::from(*b))
    }
    fn numbers<const K: usize>(&mut self) -> [u64; K] {
        std::array::from_fn(|_| self.number(8))
    }
    fn bytes(&mut self) -> &'a [u8] {
        let n = self.number(4) as usize;
        self.take(n)
    }
}

/// Replays a sample on the library. Answers the numbers of calls and of states.
pub fn check(file: &str) -> Result<(usize, usize), String> {
    let all = std::fs::read(file).unwrap();
    let mut r = Reader(&all);
    let mut block = Vec::new();
    let mut counts = [0; 3];
    let mut n = 0;
    let mut states = 0;
    while !r.0.is_empty() {
        match r.number(1) {
            0 => {
                let [me, m] = r.numbers();
                let cfg = r.numbers();
                let max = r.numbers();
                block = vec![0xa5; block::need(&max)];
                if library::create(&mut block, &mut counts, me, m, cfg, max).number != 0 {
                    return Err("a creation is refused".into());
                }
            }
            1 => counts = r.numbers(),
            2 => {
                let now = r.number(8);
                let peers = neighbours(&block::read(&block).map_err(|e| e.to_string())?);
                let bounds: Vec<(usize, u16)> = r
                    .bytes()
                    .chunks(3)
                    .map(|e| (e[0] as usize, u16::from_le_bytes([e[1], e[2]])))
                    .collect();
                let event = r.bytes();
                let from = sender(event).unwrap_or(0);
                let rooms: Vec<(u64, u16)> = bounds
                    .iter()
                    .map(|(i, room)| (peers.get(*i).copied().unwrap_or(from), *room))
                    .collect();
                let mut out = vec![0; r.number(4) as usize];
                let number = r.number(1);
                let actions = r.bytes();
                let after = r.numbers();
                let a = library::event(&mut block, &mut counts, now, event, &rooms, &mut out);
                n += 1;
                let same = a.number == number
                    && a.length as usize == actions.len()
                    && out[..actions.len()] == *actions
                    && counts == after;
                if !same {
                    return Err(format!("call {n} differs"));
                }
            }
            3 => {
                let mut other = vec![0; block.len()];
                for _ in 0..r.number(4) {
                    let at = r.number(4) as usize;
                    let run = r.bytes();
                    other[at..at + run.len()].copy_from_slice(run);
                }
                states += 1;
                let told = likeness::told(&block, None, &other);
                if (told.number, told.alike) != (0, true) || library::alike(&block, &other) != (0, true) {
                    return Err(format!("behind call {n} the state differs: {}", told.about));
                }
            }
            k => return Err(format!("a record of kind {k}")),
        }
    }
    Ok((n, states))
}
