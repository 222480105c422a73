//! The layout of the block: a state written into it, a state read off it, and question 5 asked of
//! it, independently of the library.
use oracle::snap::{by_id, Cached, Grafted, Id, Notes, Snap};

use crate::rng::Rng;

pub const CEILINGS: [u64; 9] = [32, 2048, 512, 1_048_576, 512, 512, 512, 8192, 4096];

/// Question 4's length.
pub fn need(l: &[u64; 9]) -> usize {
    let [n, r, c, b, g, s, t, q, d] = *l;
    (4096 + b + 160 * r + 256 * c + 640 * g + 512 * s + 64 * (n + t + q + d)) as usize
}

/// Where each table starts.
#[derive(Clone, Copy, Debug)]
pub struct Layout {
    pub links: usize,
    pub received: usize,
    pub received_rows: usize,
    pub cached: usize,
    pub cached_rows: usize,
    pub contents: usize,
    pub grafted: usize,
    pub grafted_rows: usize,
    pub missing: usize,
    pub timers: usize,
    pub queue_numbers: usize,
    pub queue: usize,
    pub dropped_numbers: usize,
    pub dropped: usize,
}

impl Layout {
    pub fn of(l: &[u64; 9]) -> Layout {
        let [n, r, c, b, g, s, t, q, d] = l.map(|x| x as usize);
        let mut at = 2048;
        let mut next = |size: usize| {
            let here = at;
            at += size;
            here
        };
        Layout {
            links: next(16 * (n + 1)),
            received: next(2 * (r + 1)),
            received_rows: next(40 * (2 * r + 1)),
            cached: next(4 * (c + 1)),
            cached_rows: next(48 * (2 * c + 1)),
            contents: next(b),
            grafted: next(119 * (g + 1)),
            grafted_rows: next(40 * (2 * g + 1)),
            missing: next(129 * (s + 1)),
            timers: next(32 * (t + 1)),
            queue_numbers: next(q + 1),
            queue: next(34 * (q + 1)),
            dropped_numbers: next(d + 1),
            dropped: next(34 * (d + 1)),
        }
    }
}

/// The mark of a link that is eager, and of one that is lazy and not quiet; every other one is quiet.
const EAGER: u8 = 0;
const LAZY: u8 = 1;

/// The header's words.
pub mod word {
    pub const THRESHOLD: usize = 3;
    pub const M: usize = 7;
    pub const ME: usize = 8;
    pub const LIMITS: usize = 9;
    pub const LIVE: usize = 18;
    pub const FLAGS: usize = 30;
    pub const END: usize = 33;
}

/// A number of k bytes, at most 8.
#[inline]
pub fn le(b: &[u8], at: usize, k: usize) -> u64 {
    let mut v = [0; 8];
    v[..k].copy_from_slice(&b[at..at + k]);
    u64::from_le_bytes(v)
}

fn put(b: &mut [u8], at: usize, k: usize, v: u64) {
    b[at..at + k].copy_from_slice(&v.to_le_bytes()[..k]);
}

fn id_at(b: &[u8], at: usize) -> Id {
    b[at..at + 32].try_into().unwrap()
}

pub fn header(b: &[u8], word: usize) -> u64 {
    le(b, 8 * word, 8)
}

/// The limits that the header tells.
pub fn limits(b: &[u8]) -> [u64; 9] {
    std::array::from_fn(|i| header(b, word::LIMITS + i))
}

/// The twelve numbers of rows: links, received, received rows, cached, cached rows, content bytes,
/// grafted, grafted rows, missing, timers, queued, dropped.
pub fn live(b: &[u8]) -> [u64; 12] {
    std::array::from_fn(|i| header(b, word::LIVE + i))
}

/// What is asked of a whole block.
pub const FAULTS: &[&str] = &[
    "expiry rows in the order of time",
    "places among the rows",
    "keys ascend",
    "at most 32 peers",
    "peers are neighbours",
    "notes' peers are neighbours",
    "length of the header",
    "M",
    "threshold",
    "durations",
    "limits",
    "length",
    "numbers of entries",
    "peers ascend",
    "contents follow each other",
    "contents end",
    "contents of named rows",
    "grafted peers ascend",
    "an announcer",
    "announcers once",
    "missing ascend",
    "timers ascend",
    "a queue with its flag",
    "a record with its flag",
    "records within 256",
    "recorded once",
];

type Read<T> = Result<T, &'static str>;

fn ask(yes: bool, what: &'static str) -> Read<()> {
    if yes {
        Ok(())
    } else {
        Err(what)
    }
}

/// Rows of an expiry list.
fn expiry(b: &[u8], at: usize, stride: usize, n: usize) -> Read<Vec<(u64, Id)>> {
    let rows = b[at..at + stride * n].chunks_exact(stride);
    let v: Vec<_> = rows.map(|row| (le(row, 0, 8), id_at(row, 8))).collect();
    ask(v.windows(2).all(|w| w[0].0 <= w[1].0), "expiry rows in the order of time")?;
    Ok(v)
}

/// The places that n entries name.
fn places(b: &[u8], at: usize, stride: usize, n: usize, rows: &[(u64, Id)]) -> Read<Vec<usize>> {
    let v: Vec<_> = (0..n).map(|i| le(b, at + stride * i, 2) as usize).collect();
    ask(v.iter().all(|p| *p < rows.len()), "places among the rows")?;
    ask(v.windows(2).all(|w| by_id(&rows[w[0]].1, &rows[w[1]].1).is_lt()), "keys ascend")?;
    Ok(v)
}

/// Link numbers with rounds: `n` numbers at `at`, rounds at `rounds`.
fn numbered(
    b: &[u8],
    at: usize,
    rounds: usize,
    n: usize,
    peers: &[u64],
) -> Read<Vec<(usize, u16)>> {
    ask(n <= 32, "at most 32 peers")?;
    let v: Vec<_> = (0..n).map(|j| (b[at + j] as usize, le(b, rounds + 2 * j, 2) as u16)).collect();
    ask(v.iter().all(|e| e.0 < peers.len()), "peers are neighbours")?;
    Ok(v)
}

fn notes(b: &[u8], numbers: usize, rows: usize, n: usize, peers: &[u64]) -> Read<Notes> {
    let numbers = &b[numbers..numbers + n];
    let mut many = vec![0; peers.len()];
    for l in numbers {
        ask(usize::from(*l) < peers.len(), "notes' peers are neighbours")?;
        many[usize::from(*l)] += 1;
    }
    let mut lists: Vec<Vec<(Id, u16)>> = many.into_iter().map(Vec::with_capacity).collect();
    for (l, row) in numbers.iter().zip(b[rows..rows + 34 * n].chunks_exact(34)) {
        lists[usize::from(*l)].push((id_at(row, 0), le(row, 32, 2) as u16));
    }
    Ok(peers.iter().copied().zip(lists).filter(|e| !e.1.is_empty()).collect())
}

/// A neighbour's record has at most so many identifiers.
const RECORD: usize = 256;

/// Whether each identifier of a record stands once.
fn once(list: &[(Id, u16)]) -> bool {
    const SLOTS: usize = 4 * RECORD;
    assert!(list.len() <= RECORD, "a record that was not asked for its length");
    // An identifier stands at the first free slot from the one on that its first bytes say: its place in the list and one more; 0 is a free slot.
    let mut slots = [0u16; SLOTS];
    let mut enter = |place: usize, id: &Id| {
        let mut at = (le(id, 0, 8).wrapping_mul(0x9e37_79b9_7f4a_7c15) >> 32) as usize % SLOTS;
        while slots[at] != 0 {
            if list[usize::from(slots[at]) - 1].0 == *id {
                return false;
            }
            at = (at + 1) % SLOTS;
        }
        slots[at] = place as u16 + 1;
        true
    };
    list.iter().enumerate().all(|(i, e)| enter(i, &e.0))
}

fn to_peers(v: Vec<(usize, u16)>, peers: &[u64]) -> Vec<(u64, u16)> {
    v.into_iter().map(|(l, r)| (peers[l], r)).collect()
}

/// The state of a block, or why it is not whole.
pub fn read(b: &[u8]) -> Read<Snap> {
    ask(b.len() >= 2048, "length of the header")?;
    let cfg: [u64; 7] = std::array::from_fn(|i| header(b, i));
    let m = header(b, word::M);
    let me = header(b, word::ME);
    ask((510..=4094).contains(&m), "M")?;
    ask(cfg[word::THRESHOLD] <= 65535, "threshold")?;
    ask((0..7).all(|i| i == word::THRESHOLD || cfg[i] <= 1 << 40), "durations")?;
    let l = limits(b);
    ask((0..9).all(|i| (1..=CEILINGS[i]).contains(&l[i])), "limits")?;
    ask(b.len() >= need(&l), "length")?;
    let [n, r, rr, c, cr, bytes, g, gr, s, t, q, d] = live(b);
    let most = [l[0], l[1], 2 * l[1], l[2], 2 * l[2], l[3], l[4], 2 * l[4], l[5], l[6], l[7], l[8]];
    ask(live(b).iter().zip(most).all(|(a, z)| *a <= z), "numbers of entries")?;
    let at = Layout::of(&l);
    let flags: [bool; 3] = std::array::from_fn(|i| header(b, word::FLAGS + i) != 0);
    let [dispatch, announce, init] = flags;

    let peers: Vec<u64> = (0..n as usize).map(|i| le(b, at.links + 16 * i, 8)).collect();
    ask(peers.windows(2).all(|w| w[0] < w[1]), "peers ascend")?;
    let mark = |i: usize| b[at.links + 16 * i + 8];
    let marked = |is: fn(u8) -> bool| {
        (0..peers.len()).filter(|i| is(mark(*i))).map(|i| peers[i]).collect::<Vec<_>>()
    };

    let rexp = expiry(b, at.received_rows, 40, rr as usize)?;
    let received = places(b, at.received, 2, r as usize, &rexp)?;
    let received = received.into_iter().map(|p| (rexp[p].1, rexp[p].0)).collect();

    let cexp = expiry(b, at.cached_rows, 48, cr as usize)?;
    let row = |p: usize, k: usize| le(b, at.cached_rows + 48 * p + 40 + 4 * k, 4);
    let mut end = 0;
    for p in 0..cexp.len() {
        ask(row(p, 0) == end, "contents follow each other")?;
        end += row(p, 1);
    }
    ask(end == bytes, "contents end")?;
    let named = places(b, at.cached, 4, c as usize, &cexp)?;
    ask(named.iter().map(|p| row(*p, 1)).sum::<u64>() == bytes, "contents of named rows")?;
    let cache = named
        .iter()
        .enumerate()
        .map(|(i, &p)| {
            let from = at.contents + row(p, 0) as usize;
            Cached {
                id: cexp[p].1,
                expires: cexp[p].0,
                round: le(b, at.cached + 4 * i + 2, 2) as u16,
                content: b[from..from + row(p, 1) as usize].to_vec(),
            }
        })
        .collect();

    let gexp = expiry(b, at.grafted_rows, 40, gr as usize)?;
    let named = places(b, at.grafted, 119, g as usize, &gexp)?;
    let mut grafted = Vec::new();
    for (i, &p) in named.iter().enumerate() {
        let e = at.grafted + 119 * i;
        let v = numbered(b, e + 23, e + 55, b[e + 22] as usize, &peers)?;
        ask(v.windows(2).all(|w| w[0].0 < w[1].0), "grafted peers ascend")?;
        grafted.push(Grafted {
            id: gexp[p].1,
            expires: gexp[p].0,
            first: (b[e + 2] != 0).then(|| (le(b, e + 3, 8), le(b, e + 11, 2) as u16)),
            kept: (b[e + 13] != 0).then(|| le(b, e + 14, 8)),
            peers: to_peers(v, &peers),
        });
    }

    let mut missing = Vec::new();
    for i in 0..s as usize {
        let e = at.missing + 129 * i;
        let v = numbered(b, e + 33, e + 65, b[e + 32] as usize, &peers)?;
        ask(!v.is_empty(), "an announcer")?;
        ask((0..v.len()).all(|j| v[..j].iter().all(|x| x.0 != v[j].0)), "announcers once")?;
        missing.push((id_at(b, e), to_peers(v, &peers)));
    }
    ask(missing.windows(2).all(|w| w[0].0 < w[1].0), "missing ascend")?;

    let timers: Vec<Id> = (0..t as usize).map(|i| id_at(b, at.timers + 32 * i)).collect();
    ask(timers.windows(2).all(|w| w[0] < w[1]), "timers ascend")?;

    let queue = notes(b, at.queue_numbers, at.queue, q as usize, &peers)?;
    let dropped = notes(b, at.dropped_numbers, at.dropped, d as usize, &peers)?;
    ask(queue.is_empty() || dispatch, "a queue with its flag")?;
    ask(dropped.is_empty() || announce, "a record with its flag")?;
    for (_, v) in &dropped {
        ask(v.len() <= RECORD, "records within 256")?;
        ask(once(v), "recorded once")?;
    }
    Ok(Snap {
        me,
        m,
        cfg,
        init,
        dispatch,
        announce,
        eager: marked(|m| m == EAGER),
        lazy: marked(|m| m != EAGER),
        quiet: marked(|m| m != EAGER && m != LAZY),
        received,
        rexp,
        cache,
        cexp,
        grafted,
        gexp,
        missing,
        timers,
        queue,
        dropped,
    })
}

/// The bytes of the marks.
pub fn marks(b: &[u8]) -> Vec<u8> {
    let at = Layout::of(&limits(b));
    (0..live(b)[0] as usize).map(|i| b[at.links + 16 * i + 8]).collect()
}

/// The link numbers of the queue's notes and of the record's: how the notes of different peers are interleaved.
pub fn interleaved(b: &[u8]) -> [Vec<u8>; 2] {
    let at = Layout::of(&limits(b));
    let n = live(b).map(|x| x as usize);
    [b[at.queue_numbers..][..n[10]].to_vec(), b[at.dropped_numbers..][..n[11]].to_vec()]
}

/// The expiry rows that the entries of the three caches name.
pub fn places_named(b: &[u8]) -> Vec<u64> {
    let at = Layout::of(&limits(b));
    let n = live(b).map(|x| x as usize);
    let tables = [(at.received, 2, n[1]), (at.cached, 4, n[3]), (at.grafted, 119, n[6])];
    let of =
        |(at, stride, n): (usize, usize, usize)| (0..n).map(move |i| le(b, at + stride * i, 2));
    tables.into_iter().flat_map(of).collect()
}

/// One of the rows of this time and identifier.
fn place(r: &mut Rng, rows: &[(u64, Id)], time: u64, id: &Id) -> usize {
    // The rows stand in the order of time.
    let (from, to) = (rows.partition_point(|e| e.0 < time), rows.partition_point(|e| e.0 <= time));
    let v: Vec<usize> = (from..to).filter(|i| rows[*i].1 == *id).collect();
    assert!(!v.is_empty(), "an entry without an expiry row");
    r.pick(&v)
}

/// Whether there is a `first`, or a `kept`.
fn presence(r: &mut Rng, yes: bool) -> u8 {
    match yes {
        false => 0,
        true => r.pick(&[1, 1, 2, 128, 255]),
    }
}

/// The mark of a neighbour.
fn mark(r: &mut Rng, s: &Snap, peer: u64) -> u8 {
    let is_quiet = s.quiet.contains(&peer);
    if !s.lazy.contains(&peer) {
        assert!(!is_quiet, "a quiet neighbour that is not lazy");
        return EAGER;
    }
    // Drawn for each lazy one, so that what is drawn behind it does not depend on the mark.
    let quiet = r.pick(&[2, 2, 3, 128, 255]);
    if is_quiet {
        quiet
    } else {
        LAZY
    }
}

/// How the notes of different peers are interleaved.
#[derive(Clone, Copy, PartialEq)]
pub enum Interleaving {
    /// Peer by peer, as a dispatch notes what is handed back.
    Peers,
    /// One of each peer in turn, as broadcasts do.
    Turns,
    /// At random.
    Random,
}

/// All peers' notes in one row, each peer's in their order. Without an interleaving one is drawn.
fn mixed(
    r: &mut Rng,
    how: Option<Interleaving>,
    v: &Notes,
    peers: &[u64],
) -> Vec<(usize, Id, u16)> {
    let drawn = || if r.chance(70.0) { Interleaving::Random } else { Interleaving::Peers };
    let how = how.unwrap_or_else(drawn);
    let mut order: Vec<usize> = Vec::new();
    for (k, e) in v.iter().enumerate() {
        order.extend(std::iter::repeat_n(k, e.1.len()));
    }
    match how {
        Interleaving::Peers => {}
        Interleaving::Turns => {
            let longest = v.iter().map(|e| e.1.len()).max().unwrap_or(0);
            let turn = |i: usize| (0..v.len()).filter(move |k| v[*k].1.len() > i);
            order = (0..longest).flat_map(turn).collect();
        }
        Interleaving::Random => r.shuffle(&mut order),
    }
    let mut next = vec![0; v.len()];
    let mut out = Vec::new();
    for k in order {
        let (p, l) = &v[k];
        let (id, round) = l[next[k]];
        next[k] += 1;
        out.push((peers.iter().position(|q| q == p).unwrap(), id, round));
    }
    out
}

/// Writes a whole state into a block. What the layout leaves free keeps its bytes.
pub fn write(r: &mut Rng, b: &mut [u8], l: &[u64; 9], s: &Snap) {
    write_interleaved(r, b, l, s, None);
}

/// The same, with this interleaving of the queue and of the record.
pub fn write_interleaved(
    r: &mut Rng,
    b: &mut [u8],
    l: &[u64; 9],
    s: &Snap,
    how: Option<Interleaving>,
) {
    let at = Layout::of(l);
    let mut peers: Vec<u64> = s.eager.iter().chain(&s.lazy).copied().collect();
    peers.sort();
    let number = |p: &u64| peers.iter().position(|q| q == p).unwrap() as u8;
    for (i, p) in peers.iter().enumerate() {
        put(b, at.links + 16 * i, 8, *p);
        b[at.links + 16 * i + 8] = mark(r, s, *p);
    }
    for (i, (t, id)) in s.rexp.iter().enumerate() {
        put(b, at.received_rows + 40 * i, 8, *t);
        b[at.received_rows + 40 * i + 8..][..32].copy_from_slice(id);
    }
    for (i, (id, t)) in s.received.iter().enumerate() {
        put(b, at.received + 2 * i, 2, place(r, &s.rexp, *t, id) as u64);
    }

    let mut contents = vec![&[][..]; s.cexp.len()];
    for (i, c) in s.cache.iter().enumerate() {
        let p = place(r, &s.cexp, c.expires, &c.id);
        contents[p] = &c.content;
        put(b, at.cached + 4 * i, 2, p as u64);
        put(b, at.cached + 4 * i + 2, 2, c.round.into());
    }
    let mut used = 0;
    for (i, (t, id)) in s.cexp.iter().enumerate() {
        let row = at.cached_rows + 48 * i;
        put(b, row, 8, *t);
        b[row + 8..][..32].copy_from_slice(id);
        put(b, row + 40, 4, used as u64);
        put(b, row + 44, 4, contents[i].len() as u64);
        b[at.contents + used..][..contents[i].len()].copy_from_slice(contents[i]);
        used += contents[i].len();
    }

    for (i, (t, id)) in s.gexp.iter().enumerate() {
        put(b, at.grafted_rows + 40 * i, 8, *t);
        b[at.grafted_rows + 40 * i + 8..][..32].copy_from_slice(id);
    }
    for (i, g) in s.grafted.iter().enumerate() {
        let e = at.grafted + 119 * i;
        put(b, e, 2, place(r, &s.gexp, g.expires, &g.id) as u64);
        b[e + 2] = presence(r, g.first.is_some());
        if let Some((p, round)) = g.first {
            put(b, e + 3, 8, p);
            put(b, e + 11, 2, round.into());
        }
        b[e + 13] = presence(r, g.kept.is_some());
        if let Some(p) = g.kept {
            put(b, e + 14, 8, p);
        }
        b[e + 22] = g.peers.len() as u8;
        let mut v = g.peers.clone();
        v.sort();
        for (j, (p, round)) in v.iter().enumerate() {
            b[e + 23 + j] = number(p);
            put(b, e + 55 + 2 * j, 2, (*round).into());
        }
    }
    for (i, (id, v)) in s.missing.iter().enumerate() {
        let e = at.missing + 129 * i;
        b[e..e + 32].copy_from_slice(id);
        b[e + 32] = v.len() as u8;
        for (j, (p, round)) in v.iter().enumerate() {
            b[e + 33 + j] = number(p);
            put(b, e + 65 + 2 * j, 2, (*round).into());
        }
    }
    for (i, id) in s.timers.iter().enumerate() {
        b[at.timers + 32 * i..][..32].copy_from_slice(id);
    }
    let queue = mixed(r, how, &s.queue, &peers);
    let dropped = mixed(r, how, &s.dropped, &peers);
    for (v, numbers, rows) in
        [(&queue, at.queue_numbers, at.queue), (&dropped, at.dropped_numbers, at.dropped)]
    {
        for (i, (k, id, round)) in v.iter().enumerate() {
            b[numbers + i] = *k as u8;
            b[rows + 34 * i..][..32].copy_from_slice(id);
            put(b, rows + 34 * i + 32, 2, (*round).into());
        }
    }

    let n = |x: usize| x as u64;
    let mut words = s.cfg.to_vec();
    words.extend([s.m, s.me]);
    words.extend(l);
    words.extend([
        n(peers.len()),
        n(s.received.len()),
        n(s.rexp.len()),
        n(s.cache.len()),
        n(s.cexp.len()),
        n(used),
        n(s.grafted.len()),
        n(s.gexp.len()),
        n(s.missing.len()),
        n(s.timers.len()),
        n(queue.len()),
        n(dropped.len()),
    ]);
    for f in [s.dispatch, s.announce, s.init] {
        words.push(if f { r.pick(&[1, 1, 1 << 40, u64::MAX]) } else { 0 });
    }
    assert_eq!(words.len(), word::END);
    for (i, w) in words.iter().enumerate() {
        put(b, 8 * i, 8, *w);
    }
}
