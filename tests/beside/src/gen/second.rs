//! Second panels: in a block of the same state, in one that has a list in another order, and, in lists of their own, led to by other calls. They are drawn apart from
//! the calls: a list without them stays what it is.
use oracle::snap::Id;

use super::World;
use crate::{likeness, rng::Rng, run::Pair, script::Cmd, second::BY_CALLS, wire};

/// Lists with longer blocks have fewer of them.
const LONG: usize = 300_000;
/// The retentions of lists by calls.
const SHORTER: u64 = 30_000;
const LONGER: u64 = 90_000;

pub struct Seconds {
    r: Rng,
    /// Behind so many calls of a hundred.
    rate: f64,
}

impl Seconds {
    /// Those of a list; one list in four has some.
    pub fn of(seed: u64, list: u64) -> Seconds {
        let mut r = Rng::new(seed.rotate_left(48) ^ !list);
        r.next();
        let rate = r.pick(&[0.0, 0.0, 0.0, 0.0, 0.0, 0.0, 8.0, 25.0]);
        Seconds { r, rate }
    }

    /// At the beginning of such a list: one that is alike, unless two lists of calls led to one.
    pub fn begin(&mut self, pair: &Pair) -> Vec<Cmd> {
        if self.rate == 0.0 || self.too_long(pair) || pair.seconds.is_there() {
            return vec![];
        }
        vec![Cmd::Second(self.r.below(1 << 32))]
    }

    fn too_long(&mut self, pair: &Pair) -> bool {
        pair.block().len() > LONG && self.r.chance(80.0)
    }

    /// Behind a call: now and then another second panel.
    pub fn behind(&mut self, pair: &Pair) -> Vec<Cmd> {
        if self.rate == 0.0 || !self.r.chance(self.rate) || self.too_long(pair) {
            return vec![];
        }
        if pair.seconds.is_there() && self.r.chance(60.0) {
            return vec![];
        }
        let seed = self.r.below(1 << 32);
        vec![match self.r.chance(50.0) {
            true => Cmd::Second(seed),
            false => Cmd::Reordered(self.r.index(likeness::LISTS.len()), seed),
        }]
    }
}

/// A call of a list: when, whether every link hands back what is sent, and the event.
#[derive(Clone)]
struct Told {
    now: u64,
    back: bool,
    event: Vec<u8>,
}

/// Two lists of calls, of the kind that second.rs names in `BY_CALLS`.
struct Lists<'a> {
    peers: &'a [u64],
    contents: &'a [(Id, Vec<u8>)],
    now: u64,
}

impl Lists<'_> {
    fn each_peer(&self, event: impl Fn(u64) -> Vec<u8>) -> Vec<Told> {
        self.peers.iter().map(|p| Told { now: self.now, back: false, event: event(*p) }).collect()
    }

    fn up(&self) -> Vec<Told> {
        self.each_peer(wire::up)
    }

    fn lazy(&self) -> Vec<Told> {
        self.each_peer(|p| wire::recv(p, &wire::prune()))
    }

    fn eager(&self) -> Vec<Told> {
        self.each_peer(|p| wire::recv(p, &wire::graft(None, 0)))
    }

    fn tick(&self, event: [u8; 2], back: bool) -> Vec<Told> {
        vec![Told { now: self.now, back, event: event.to_vec() }]
    }

    /// An event for each content, `apart` milliseconds between them; in the order of the contents, or in the other one with the clock set back at each.
    fn each(
        &self,
        apart: u64,
        other: bool,
        back: bool,
        event: impl Fn(&Id, &[u8]) -> Vec<u8>,
    ) -> Vec<Told> {
        let told = |(i, (id, content)): (usize, &(Id, Vec<u8>))| Told {
            now: self.now + apart * i as u64,
            back,
            event: event(id, content),
        };
        let mut v: Vec<Told> = self.contents.iter().enumerate().map(told).collect();
        if other {
            v.reverse();
        }
        v
    }

    /// An eviction, when the shorter retention has passed.
    fn evict(&self) -> Vec<Told> {
        vec![Told { now: self.now + SHORTER, back: false, event: wire::EVICT.to_vec() }]
    }

    fn broadcasts(&self, apart: u64, other: bool, back: bool) -> Vec<Told> {
        self.each(apart, other, back, |_, content| wire::broadcast(content))
    }

    /// An IHave of everything from a peer.
    fn ihave(&self, peer: usize) -> Vec<Told> {
        let list: Vec<(Id, u16)> = self.contents.iter().map(|c| (c.0, 3)).collect();
        vec![Told {
            now: self.now,
            back: false,
            event: wire::recv(self.peers[peer], &wire::ihave(&list)),
        }]
    }

    fn grafts(&self, apart: u64, other: bool) -> Vec<Told> {
        self.each(apart, other, false, |id, _| wire::send_graft(id))
    }

    /// A list of this kind, the one or the other of the two.
    fn list(&self, kind: usize, other: bool) -> Vec<Told> {
        match (kind, other) {
            // Payloads that every link hands back, or announcements.
            (0, false) => [
                self.up(),
                self.lazy(),
                self.eager(),
                self.broadcasts(0, false, true),
                self.tick(wire::DISPATCH, false),
            ]
            .concat(),
            (0, true) => [
                self.up(),
                self.lazy(),
                self.broadcasts(0, false, false),
                self.tick(wire::DISPATCH, true),
                self.eager(),
            ]
            .concat(),
            // Announcements that wait from the first, or that every link hands back and a tick brings again.
            (1, false) => [self.up(), self.lazy(), self.broadcasts(0, false, false)].concat(),
            (1, true) => [
                self.up(),
                self.lazy(),
                self.broadcasts(0, false, false),
                self.tick(wire::DISPATCH, true),
                self.tick(wire::ANNOUNCE, false),
            ]
            .concat(),
            // The clock goes forward, or is set back.
            (2, _) => {
                [self.up(), self.ihave(0), self.grafts(5, other), self.broadcasts(5, other, false)]
                    .concat()
            }
            // At one time in either order.
            (3 | 4, _) => [self.up(), self.broadcasts(0, other, false), self.evict()].concat(),
            (5, _) => [self.up(), self.broadcasts(0, other, false)].concat(),
            (6, _) => [self.up(), self.ihave(0), self.grafts(0, other)].concat(),
            (7, false) => [self.up(), self.ihave(0), self.ihave(1)].concat(),
            (7, true) => [self.up(), self.ihave(1), self.ihave(0)].concat(),
            // At different times, so that the rows are the same.
            (8, _) => [self.up(), self.lazy(), self.broadcasts(5, other, false)].concat(),
            (_, _) => [self.up(), self.broadcasts(5, other, true)].concat(),
        }
    }
}

impl World {
    /// Two panels by two lists of calls; they go on together.
    pub(super) fn begin_by_calls(&mut self) -> Vec<Cmd> {
        let kind = self.r.index(BY_CALLS.len());
        self.max = [32, 100, 60, 8000, 20, 20, 20, 300, 300];
        // Identifiers are kept longer than contents, but where the cached rows alone are to stay.
        (self.cfg[4], self.cfg[5]) = if kind == 4 { (LONGER, SHORTER) } else { (SHORTER, LONGER) };
        self.now %= 1 << 40;
        self.out = 400_000;
        let mut peers: Vec<u64> = self.peers.iter().copied().filter(|p| *p != self.me).collect();
        self.r.shuffle(&mut peers);
        peers.truncate(2 + self.r.index(4));
        let short = self.contents.iter().filter(|c| c.len() < 100);
        let mut contents: Vec<(Id, Vec<u8>)> =
            short.map(|c| (oracle::identifier(c), c.clone())).collect();
        contents.sort();
        contents.dedup();
        self.r.shuffle(&mut contents);
        contents.truncate(2 + self.r.index(7));
        let lists = Lists { peers: &peers, contents: &contents, now: self.now };
        let mut v = Vec::new();
        let other = self.r.chance(50.0);
        for which in [other, !other] {
            v.push(Cmd::New { me: self.me, m: self.m, cfg: self.cfg });
            v.push(Cmd::Limits { max: self.max, out: self.out });
            for t in lists.list(kind, which) {
                let rooms = if t.back { peers.iter().map(|p| (*p, 0)).collect() } else { vec![] };
                v.push(Cmd::Event { now: t.now, rooms, event: t.event });
            }
            v.push(if which == other { Cmd::Aside } else { Cmd::Together(kind) });
        }
        v
    }
}
