//! Times per call, the library's beside those of the Rust's `handle`, and of its reading and writing
//! of a message; of *alike*, beside question 5; of savings and returns, beside a copy of the block.
//!
//! Each call starts from the same state, given back before it outside of the time taken; the least
//! of many is told.
use std::{hint::black_box, time::Instant};

use oracle::{
    identifier,
    snap::{Cached, Grafted, Id, Snap},
    Message, Panel,
};

use crate::{
    block::{self, Interleaving, CEILINGS},
    gen::{spell, PANELRUN},
    library,
    records::{record, LastWord, CASES},
    rng::Rng,
    wire,
};

const NOW: u64 = 1_000_000;
const CFG: [u64; 7] = [80, 40, 5, 7, 30000, 90000, 1000];
const ME: u64 = 1;
/// A peer between the others, never a neighbour at first.
const STRANGER: u64 = 1000;

/// Contents whose identifiers stand nowhere in the state.
fn fresh(k: u8) -> Vec<u8> {
    vec![k; 100]
}

pub fn some_id(r: &mut Rng) -> Id {
    r.bytes(32).try_into().unwrap()
}

/// The tables at a share of their limits, with room left for one message and a neighbour.
struct Filled {
    snap: Snap,
    /// A cached identifier; a missing one with a timer; one received and grafted.
    cached: Option<Cached>,
    missing: Option<Id>,
}

fn filled(max: &[u64; 9], share: (u64, u64)) -> Filled {
    let r = &mut Rng::new(5);
    let part =
        |limit: u64, less: u64| ((limit * share.0 / share.1) as usize).min((limit - less) as usize);
    let [n, rm, cm, bm, gm, sm, tm, qm, dm] = *max;
    let links = part(n, 1).max(2);
    let peers: Vec<u64> =
        (0..links as u64).map(|i| if i % 2 == 0 { 100 + i } else { 2000 + i }).collect();
    let mut s = Snap { me: ME, m: 4094, cfg: CFG, init: true, dispatch: true, ..Snap::default() };
    for (i, p) in peers.iter().enumerate() {
        if i % 2 == 0 {
            s.eager.push(*p);
        } else {
            s.lazy.push(*p);
        }
    }
    let mut all = peers.clone();
    all.sort();
    let later = |r: &mut Rng| NOW + 1 + r.below(30000);

    let n = part(cm, 1);
    let size =
        if n > 0 { (bm as usize - 200) * share.0 as usize / share.1 as usize / n } else { 0 };
    for _ in 0..n {
        let content = r.bytes(size);
        let id = identifier(&content);
        s.cache.push(Cached { id, expires: later(r), round: 3, content });
    }
    s.cache.sort_by_key(|c| c.id);
    s.cexp = s.cache.iter().map(|c| (c.expires, c.id)).collect();

    for c in s.cache.iter().take(part(rm, 1)) {
        s.received.push((c.id, c.expires + 60000));
    }
    while s.received.len() < part(rm, 1) {
        s.received.push((some_id(r), later(r)));
    }
    s.received.sort();
    s.rexp = s.received.iter().map(|e| (e.1, e.0)).collect();

    for i in 0..part(gm, 1) {
        let id = match s.received.get(i) {
            Some(e) if i % 2 == 0 => e.0,
            _ => some_id(r),
        };
        let v = all.iter().take(4).map(|p| (*p, 5)).collect();
        let first = Some((all[all.len() - 1], 6));
        s.grafted.push(Grafted { id, expires: later(r), first, kept: None, peers: v });
    }
    s.grafted.sort_by_key(|g| g.id);
    s.gexp = s.grafted.iter().map(|g| (g.expires, g.id)).collect();

    for _ in 0..part(sm, 120.min(sm / 2)) {
        s.missing.push((some_id(r), all.iter().take(4).map(|p| (*p, 5)).collect()));
    }
    s.missing.sort();
    s.timers = s.missing.iter().take(part(tm, 120.min(tm / 2))).map(|e| e.0).collect();
    while s.timers.len() < part(tm, 120.min(tm / 2)) {
        s.timers.push(some_id(r));
    }
    s.timers.sort();

    // Old rows up to their limits.
    for (rows, limit) in [(&mut s.rexp, rm), (&mut s.cexp, cm), (&mut s.gexp, gm)] {
        let want = part(2 * limit, 1);
        while rows.len() < want {
            rows.push((later(r), some_id(r)));
        }
        rows.sort_by_key(|e| e.0);
    }
    let known: Vec<Id> = s.cache.iter().map(|c| c.id).collect();
    let note = |r: &mut Rng, k: usize| match known.get(k) {
        Some(id) => (*id, 3),
        None => (some_id(r), 3),
    };
    // The queue, even over the peers, with room for one message to every lazy peer.
    let each = part(qm, max[0]) / links;
    for p in &all {
        let v: Vec<_> = (0..each).map(|k| note(r, k)).collect();
        if !v.is_empty() {
            s.queue.push((*p, v));
        }
    }
    let each = (part(dm, max[0]) / links).min(256);
    for p in &all {
        let v: Vec<_> = (0..each).map(|k| note(r, known.len().saturating_sub(k + 1))).collect();
        let mut ids = v.clone();
        ids.sort();
        ids.dedup_by_key(|e| e.0);
        if !v.is_empty() && ids.len() == v.len() {
            s.dropped.push((*p, v));
        }
    }
    s.announce = !s.dropped.is_empty();
    let cached = s.cache.get(s.cache.len() / 2).cloned();
    let missing = s.timers.iter().find(|t| s.missing.iter().any(|e| e.0 == **t)).copied();
    Filled { snap: s, cached, missing }
}

struct Case {
    name: &'static str,
    now: u64,
    event: Vec<u8>,
    rooms: Vec<(u64, u16)>,
    /// Makes room for what the call moves.
    clear: fn(&mut Snap),
}

fn keep(_: &mut Snap) {}

fn cases(f: &Filled) -> Vec<Case> {
    let s = &f.snap;
    let eager = s.eager[s.eager.len() / 2];
    let lazy = s.lazy[s.lazy.len() / 2];
    let new = |k: u8| (identifier(&fresh(k)), fresh(k));
    let mut v = Vec::new();
    let mut put =
        |name, event: Vec<u8>| v.push(Case { name, now: NOW, event, rooms: vec![], clear: keep });
    let (id, c) = new(1);
    put("Gossip new Swarm, 100 B", wire::recv(eager, &wire::gossip(&id, &c, Some(3))));
    let c = vec![9; 1];
    put("Gossip new Swarm, 1 B", wire::recv(eager, &wire::gossip(&identifier(&c), &c, Some(3))));
    let c = vec![9; 1000];
    put(
        "Gossip new Neighbors, 1,000 B",
        wire::recv(eager, &wire::gossip(&identifier(&c), &c, None)),
    );
    if let Some(c) = &f.cached {
        let m = wire::gossip(&c.id, &c.content, Some(3));
        put("Gossip duplicate", wire::recv(eager, &m));
    }
    put("Gossip not valid, 1 B", wire::recv(eager, &wire::gossip(&id, &[1], Some(3))));
    put("Prune", wire::recv(eager, &wire::prune()));
    put("Prune from a stranger", wire::recv(STRANGER, &wire::prune()));
    if let Some(c) = &f.cached {
        put("Graft cached", wire::recv(lazy, &wire::graft(Some(&c.id), 3)));
    }
    put("Graft not cached", wire::recv(lazy, &wire::graft(Some(&id), 3)));
    put("IHave of 1, new", wire::recv(lazy, &wire::ihave(&[(id, 3)])));
    let list: Vec<(Id, u16)> = (0..8).map(|k| (new(k).0, 3)).collect();
    put("IHave of 8, new", wire::recv(lazy, &wire::ihave(&list)));
    let list: Vec<(Id, u16)> = (0..116).map(|k| (new(k).0, 3)).collect();
    put("IHave of 116, new", wire::recv(lazy, &wire::ihave(&list)));
    if !s.received.is_empty() {
        let n = s.received.len();
        let list: Vec<(Id, u16)> = (0..100).map(|k| (s.received[k * 7 % n].0, 3)).collect();
        put("IHave of 100, received", wire::recv(lazy, &wire::ihave(&list)));
    }
    put("Broadcast Swarm, 100 B", wire::broadcast(&fresh(2)));
    if let Some(id) = &f.missing {
        put("SendGraft", wire::send_graft(id));
    }
    put("SendGraft unknown", wire::send_graft(&id));
    put("DispatchLazyPush", wire::DISPATCH.to_vec());
    put("EvictCache, none due", wire::EVICT.to_vec());
    put("up, new", wire::up(STRANGER));
    put("up, known", wire::up(lazy));
    put("up quiet, new", wire::up_quiet(STRANGER));
    put("up quiet, known", wire::up_quiet(lazy));
    put("down", wire::down(eager));
    let rooms: Vec<(u64, u16)> = s.eager.iter().chain(&s.lazy).map(|p| (*p, 0)).collect();
    v.push(Case {
        name: "DispatchLazyPush, all handed back",
        now: NOW,
        event: wire::DISPATCH.to_vec(),
        rooms: rooms.clone(),
        clear: |s| s.dropped.clear(),
    });
    v.push(Case {
        name: "AnnounceDropped",
        now: NOW,
        event: wire::ANNOUNCE.to_vec(),
        rooms: vec![],
        clear: |s| s.queue.clear(),
    });
    v.push(Case {
        name: "Broadcast Swarm, handed back",
        now: NOW,
        event: wire::broadcast(&fresh(2)),
        rooms,
        clear: keep,
    });
    if let Some(c) = &f.cached {
        v.push(Case {
            name: "Graft cached, of a quiet one",
            now: NOW,
            event: wire::recv(lazy, &wire::graft(Some(&c.id), 3)),
            rooms: vec![],
            clear: |s| s.quiet = s.lazy.clone(),
        });
    }
    let first_due = f.snap.cache.iter().map(|c| c.expires).min().unwrap_or(NOW);
    for (name, now) in [
        ("EvictCache, one due", first_due),
        ("EvictCache, half due", NOW + 15000),
        ("EvictCache, all due", NOW + 500_000),
    ] {
        v.push(Case { name, now, event: wire::EVICT.to_vec(), rooms: vec![], clear: keep });
    }
    v
}

struct Times {
    rust: f64,
    ours: f64,
    whole: f64,
    answer: u64,
}

/// What taking the time costs.
fn clock() -> f64 {
    (0..2000)
        .map(|_| {
            let t = Instant::now();
            t.elapsed().as_nanos() as f64
        })
        .fold(f64::MAX, f64::min)
}

fn measure(max: &[u64; 9], s: &Snap, case: &Case, runs: usize) -> Times {
    let base = clock();
    let s = &{
        let mut s = s.clone();
        (case.clear)(&mut s);
        s
    };
    let need = block::need(max);
    let mut start = vec![0; need];
    block::write(&mut Rng::new(3), &mut start, max, s);
    let mut b = start.clone();
    let rooms = &case.rooms;
    let mut out = vec![0; 1 << 21];
    let mut t = Times { rust: f64::MAX, ours: f64::MAX, whole: f64::MAX, answer: 0 };
    let since = |i: Instant| i.elapsed().as_nanos() as f64 - base;
    for _ in 0..runs {
        b.copy_from_slice(&start);
        // What the call reads is at hand, as it is on the Rust's side.
        assert!(library::whole(&mut b));
        let i = Instant::now();
        let w = library::whole(&mut b);
        t.whole = t.whole.min(since(i));
        assert!(w);
        let mut counts = [0; 3];
        let i = Instant::now();
        let a = library::event(&mut b, &mut counts, case.now, &case.event, rooms, &mut out);
        t.ours = t.ours.min(since(i));
        t.answer = a.number;
    }
    let panel = Panel::load(&s.text()).unwrap();
    let mut bytes = Vec::with_capacity(1 << 21);
    for _ in 0..runs {
        let mut p = panel.copy();
        let ready = p.ready(&case.event).unwrap();
        bytes.clear();
        let i = Instant::now();
        p.handle(ready, case.now, &case.rooms, &mut bytes);
        t.rust = t.rust.min(since(i));
    }
    t
}

const LIMITS: [(&str, [u64; 9]); 2] = [("panelrun's limits", PANELRUN), ("the ceilings", CEILINGS)];

pub fn run(only: Option<&str>) {
    for (title, max) in LIMITS {
        let fills: Vec<Filled> =
            [(0, 4), (1, 4), (1, 1)].iter().map(|share| filled(&max, *share)).collect();
        let names: Vec<&str> = cases(&fills[2]).iter().map(|c| c.name).collect();
        if !names.iter().any(|name| only.is_none_or(|o| name.contains(o))) {
            continue;
        }
        println!("\n{title}: nanoseconds a call; the Rust's `handle`, the library, their ratio, and question 5 alone");
        println!("{:34}|{:^34}|{:^34}|{:^34}", "", "empty", "quarter", "full");
        for name in names {
            if only.is_some_and(|o| !name.contains(o)) {
                continue;
            }
            let mut line = format!("{name:34}");
            for f in &fills {
                let all = cases(f);
                let Some(case) = all.iter().find(|c| c.name == name) else {
                    line += &format!("|{:34}", "");
                    continue;
                };
                let runs = if max == CEILINGS { 60 } else { 400 };
                let t = measure(&max, &f.snap, case, runs);
                let no = if t.answer == 0 { String::new() } else { format!(" ({})", t.answer) };
                let x = t.ours / t.rust.max(1.0);
                let text =
                    format!("{:>8.0} {:>8.0} {x:>6.1}x {:>8.0}{no}", t.rust, t.ours, t.whole);
                line += &format!("|{text:34}");
            }
            println!("{line}");
        }
    }
    rewriting(only);
    for (title, max) in LIMITS {
        alike(only, title, &max);
    }
    for (title, max) in LIMITS {
        states(only, title, &max);
    }
    for (title, max) in LIMITS {
        records(only, title, &max);
    }
}

/// Question 5 of a block whose record is full, by how its identifiers are chosen.
fn records(only: Option<&str>, title: &str, max: &[u64; 9]) {
    let wanted = |name: &str| only.is_none_or(|o| name.contains(o));
    if !CASES.iter().any(|c| wanted(c.0)) {
        return;
    }
    println!("\nrecord, {title}: nanoseconds of question 5");
    println!("{:36}|{:^12}|{:^12}", "", "quarter", "full");
    for (name, last) in CASES {
        if wanted(name) {
            let of = |share| recorded(max, share, last);
            println!("{name:36}|{}", [(1, 4), (1, 1)].map(|s| format!("{:>11.0} ", of(s))).join("|"));
        }
    }
}

/// The time of question 5 of a state whose record is full, or is so at a share of the limits: the mean of many blocks, of each the least. One block over and over would
/// not do, since the processor learns its chains.
fn recorded(max: &[u64; 9], share: (u64, u64), last: LastWord) -> f64 {
    const BLOCKS: u64 = 32;
    let state = noted(max, share, Notes::Each);
    let mut blocks: Vec<_> = (0..BLOCKS).map(|seed| (record(seed, max, &state, last), f64::MAX)).collect();
    let base = clock();
    for _ in 0..10 {
        for (block, least) in &mut blocks {
            // What is read is at hand.
            black_box(block.iter().step_by(32).map(|&b| u64::from(b)).sum::<u64>());
            let i = Instant::now();
            let yes = library::whole(black_box(block));
            *least = least.min(i.elapsed().as_nanos() as f64 - base);
            assert!(yes);
        }
    }
    blocks.iter().map(|b| b.1).sum::<f64>() / BLOCKS as f64
}

/// *Alike* of two blocks with one state, as long as it can be: links, queue and record at their limits, or at a share of them.
fn alike(only: Option<&str>, title: &str, max: &[u64; 9]) {
    use Interleaving::{Peers, Random, Turns};
    const CASES: [(&str, Interleaving, Interleaving, Notes); 9] = [
        ("alike, no notes", Turns, Turns, Notes::None),
        ("alike, notes of the links in turn", Turns, Turns, Notes::Each),
        ("alike, notes link by link", Peers, Peers, Notes::Each),
        ("alike, in turn and link by link", Turns, Peers, Notes::Each),
        ("alike, notes at random", Random, Random, Notes::Each),
        ("alike, in turn, no other table", Turns, Turns, Notes::Alone),
        ("alike, at random, no other table", Random, Random, Notes::Alone),
        ("alike, at random, every link listed", Random, Random, Notes::All),
        ("alike, notes of one link", Peers, Peers, Notes::One),
    ];
    const WHOLE: &str = "alike, question 5 of both alone";
    let wanted = |name: &str| only.is_none_or(|o| name.contains(o));
    if !wanted(WHOLE) && !CASES.iter().any(|c| wanted(c.0)) {
        return;
    }
    println!("\nalike, {title}: nanoseconds a call");
    println!("{:36}|{:^12}|{:^12}|{:^12}", "", "empty", "quarter", "full");
    let runs = if *max == CEILINGS { 200 } else { 2000 };
    let shares = [(0, 4), (1, 4), (1, 1)];
    if wanted(WHOLE) {
        let of = |share| same_state(max, &noted(max, share, Notes::Each), [Turns; 2], runs, false);
        println!("{WHOLE:36}|{}", shares.map(|s| format!("{:>11.0} ", of(s))).join("|"));
    }
    for (name, first, second, notes) in CASES {
        if wanted(name) {
            let of =
                |share| same_state(max, &noted(max, share, notes), [first, second], runs, true);
            println!("{name:36}|{}", shares.map(|s| format!("{:>11.0} ", of(s))).join("|"));
        }
    }
}

/// Whose notes queue and record hold: nobody's, the same identifiers for each link, or those of one link. `Alone` is `Each` with the other tables but the links empty; `All` is `Each` with every
/// link an announcer of each missing message and a peer of each grafted one.
#[derive(Clone, Copy, PartialEq)]
pub enum Notes {
    None,
    Each,
    Alone,
    All,
    One,
}

/// The tables at a share of their limits, and links, queue and record at it to the last; of one link the record has at most 256.
pub fn noted(max: &[u64; 9], share: (u64, u64), whose: Notes) -> Snap {
    let r = &mut Rng::new(9);
    let others = if whose == Notes::Alone { (0, 4) } else { share };
    let mut s = filled(max, others).snap;
    let part = |limit: u64| (limit * share.0 / share.1) as usize;
    let links = part(max[0]).max(2);
    while s.eager.len() + s.lazy.len() < links {
        s.lazy.push(5000 + s.lazy.len() as u64);
    }
    let mut all: Vec<u64> = s.eager.iter().chain(&s.lazy).copied().collect();
    all.sort();
    let ids: Vec<Id> = (0..part(max[7])).map(|_| some_id(r)).collect();
    let notes = |count: usize, most: usize| -> Vec<(u64, Vec<(Id, u16)>)> {
        let peers = match whose {
            Notes::None => return vec![],
            Notes::Each | Notes::Alone | Notes::All => &all[..],
            Notes::One => &all[links / 2..=links / 2],
        };
        let each = (count / peers.len()).min(most);
        let list: Vec<(Id, u16)> = ids[..each].iter().map(|id| (*id, 3)).collect();
        peers.iter().filter(|_| each > 0).map(|p| (*p, list.clone())).collect()
    };
    s.queue = notes(part(max[7]), usize::MAX);
    s.dropped = notes(part(max[8]), 256);
    (s.dispatch, s.announce) = (true, true);
    if whose == Notes::All {
        while s.missing.len() < part(max[5]) {
            s.missing.push((some_id(r), vec![]));
        }
        s.missing.sort();
        let hops: Vec<(u64, u16)> = all.iter().map(|p| (*p, 5)).collect();
        s.missing.iter_mut().for_each(|e| e.1 = hops.clone());
        s.grafted.iter_mut().for_each(|g| g.peers = hops.clone());
    }
    s
}

/// The least time of *alike* of two blocks with this state, interleaved so; or of question 5 of both.
fn same_state(max: &[u64; 9], s: &Snap, how: [Interleaving; 2], runs: usize, alike: bool) -> f64 {
    let base = clock();
    let [mut a, mut b] = [(3, how[0]), (4, how[1])].map(|(seed, how)| {
        let mut block = vec![0; block::need(max)];
        block::write_interleaved(&mut Rng::new(seed), &mut block, max, s, Some(how));
        block
    });
    assert_eq!(library::alike(&a, &b), (0, true));
    let mut least = f64::MAX;
    for _ in 0..runs {
        let i = Instant::now();
        let yes = match alike {
            true => black_box(library::alike(black_box(&a), black_box(&b))).1,
            false => library::whole(black_box(&mut a)) && library::whole(black_box(&mut b)),
        };
        least = least.min(i.elapsed().as_nanos() as f64 - base);
        assert!(yes);
    }
    least
}

/// A call upon an area, or what it is held against.
#[derive(Clone, Copy)]
enum Named {
    Save(u64),
    Return(u64),
    /// Question 5 of the block alone.
    Whole,
    /// A copy of the block's bytes alone.
    Copy,
}

/// States saved and returned to, in areas that keep none or four (under the names 1 to 4).
fn states(only: Option<&str>, title: &str, max: &[u64; 9]) {
    const CASES: [(&str, u64, Named, u64); 8] = [
        ("named states, question 5 alone", 0, Named::Whole, 0),
        ("named states, a copy of the block", 0, Named::Copy, 0),
        ("named states, save, none kept", 0, Named::Save(1), 0),
        ("named states, save, four kept", 4, Named::Save(4), 0),
        ("named states, a fifth name", 4, Named::Save(5), 16),
        ("named states, return, none kept", 0, Named::Return(4), 15),
        ("named states, return, four kept", 4, Named::Return(4), 0),
        ("named states, a name not kept", 4, Named::Return(5), 15),
    ];
    if !CASES.iter().any(|c| only.is_none_or(|o| c.0.contains(o))) {
        return;
    }
    let need = block::need(max);
    println!("\nnamed states, {title}: nanoseconds a call; a block of {need} bytes");
    println!("{:36}|{:^12}|{:^12}|{:^12}", "", "empty", "quarter", "full");
    let runs = if *max == CEILINGS { 60 } else { 400 };
    for (name, kept, call, number) in CASES {
        if only.is_some_and(|o| !name.contains(o)) {
            continue;
        }
        let mut line = format!("{name:36}");
        for share in [(0, 4), (1, 4), (1, 1)] {
            let t = state(max, &filled(max, share).snap, kept, call, number, runs);
            line += &format!("|{t:>11.0} ");
        }
        println!("{line}");
    }
}

/// The least time of a call that is answered with this number.
fn state(max: &[u64; 9], s: &Snap, kept: u64, call: Named, number: u64, runs: usize) -> f64 {
    let base = clock();
    let mut start = vec![0; block::need(max)];
    block::write(&mut Rng::new(3), &mut start, max, s);
    let mut full = vec![0; 4 * start.len() + 256];
    for name in 1..=kept {
        assert_eq!(library::save(&start, [name; 3], &mut full, name), (0, 0));
    }
    let (mut b, mut area) = (start.clone(), full.clone());
    let mut least = f64::MAX;
    for _ in 0..runs {
        area.copy_from_slice(&full);
        b.copy_from_slice(&start);
        assert!(library::whole(&mut b));
        let mut counts = [7; 3];
        let i = Instant::now();
        let answer = match call {
            Named::Save(name) => library::save(&b, counts, &mut area, name).0,
            Named::Return(name) => library::go_back(&mut b, &mut counts, &area, name).number,
            Named::Whole => u64::from(!library::whole(&mut b)),
            Named::Copy => {
                area[256..256 + b.len()].copy_from_slice(black_box(&b));
                0
            }
        };
        least = least.min(i.elapsed().as_nanos() as f64 - base);
        black_box(&mut area);
        assert_eq!(answer, number);
    }
    least
}

/// Messages rewritten, from their shortest form and from a padded one: the Rust's reading and
/// writing beside the library's.
fn rewriting(only: Option<&str>) {
    const CALLS: u32 = 100;
    let r = &mut Rng::new(5);
    let id = some_id(r);
    let list: Vec<(Id, u16)> = (0..110).map(|_| (some_id(r), 3)).collect();
    let messages = [
        ("rewrite Prune", wire::prune()),
        ("rewrite Graft with identifier", wire::graft(Some(&id), 3)),
        ("rewrite Gossip, 100 B", wire::gossip(&id, &r.bytes(100), Some(3))),
        ("rewrite Gossip, 4,000 B", wire::gossip(&id, &r.bytes(4_000), Some(3))),
        ("rewrite Gossip, 70,000 B", wire::gossip(&id, &r.bytes(70_000), Some(3))),
        ("rewrite IHave of 110", wire::ihave(&list)),
    ];
    if !messages.iter().any(|m| only.is_none_or(|o| m.0.contains(o))) {
        return;
    }
    println!("\nrewriting: nanoseconds a call; the Rust's reading and serde's writing, the library, their ratio");
    println!("{:34}|{:^27}|{:^27}", "", "shortest", "padded");
    for (name, message) in messages {
        if only.is_some_and(|o| !name.contains(o)) {
            continue;
        }
        let padded = spell::padded(r, &message, &wire::message(&message).1.numbers);
        let mut line = format!("{name:34}");
        for came in [&message, &padded] {
            let mut out = vec![0; came.len()];
            let (mut rust, mut ours) = (f64::MAX, f64::MAX);
            let each = |i: Instant| i.elapsed().as_nanos() as f64 / f64::from(CALLS);
            for _ in 0..400 {
                let i = Instant::now();
                for _ in 0..CALLS {
                    black_box(Message::read(black_box(came)).unwrap().to_bytes());
                }
                rust = rust.min(each(i));
                let i = Instant::now();
                for _ in 0..CALLS {
                    black_box(library::rewrite(black_box(came), &mut out));
                }
                ours = ours.min(each(i));
            }
            assert!(out.starts_with(&message));
            line += &format!("|{rust:>9.0} {ours:>9.0} {:>6.1}x ", ours / rust);
        }
        println!("{line}");
    }
}

/// One kind of call over and over at full tables, for a profiler.
pub fn spin(name: &str, ceilings: bool, times: u64) {
    let max = if ceilings { CEILINGS } else { PANELRUN };
    let f = filled(&max, (1, 1));
    let all = cases(&f);
    let case = all.iter().find(|c| c.name == name).expect("a kind of the table");
    let mut s = f.snap.clone();
    (case.clear)(&mut s);
    let mut start = vec![0; block::need(&max)];
    block::write(&mut Rng::new(3), &mut start, &max, &s);
    let mut b = start.clone();
    let rooms = &case.rooms;
    let mut out = vec![0; 1 << 21];
    for _ in 0..times {
        b.copy_from_slice(&start);
        library::event(&mut b, &mut [0; 3], case.now, &case.event, rooms, &mut out);
    }
}
