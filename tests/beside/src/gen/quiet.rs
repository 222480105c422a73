//! Quiet neighbours: lists with events of kind 5, most of them for a neighbour that the next call is about. They are drawn apart from the calls: a list without them
//! stays what it is.
use oracle::{
    snap::{Id, Snap},
    Seen,
};

use super::World;
use crate::{rng::Rng, run::Pair, script::Cmd, wire};

/// Bytes that are no event: cut, a peer that is not shortest, bytes left over, a kind that there is none of.
const REFUSED: [&[u8]; 6] =
    [&[5], &[5, 0x80], &[5, 0x80, 0], &[5, 0x82, 0x80, 0], &[5, 2, 0], &[6, 2]];

pub struct Quiets {
    r: Rng,
    /// Before so many calls of a hundred.
    rate: f64,
}

impl Quiets {
    /// Those of a list; one list in four has some.
    pub fn of(seed: u64, list: u64, world: &mut World) -> Quiets {
        let mut r = Rng::new(seed.rotate_left(24) ^ !list);
        r.next();
        let rate = r.pick(&[0.0, 0.0, 0.0, 0.0, 0.0, 0.0, 10.0, 40.0]);
        if rate > 0.0 {
            world.set_quiet();
        }
        Quiets { r, rate }
    }

    /// Whether the list has some.
    pub fn are_there(&self) -> bool {
        self.rate > 0.0
    }

    /// The commands that begin the list: of a state that is loaded, some of the lazy neighbours are quiet.
    pub fn begin(&mut self, mut list: Vec<Cmd>) -> Vec<Cmd> {
        if !self.are_there() {
            return list;
        }
        let some = self.r.pick(&[0.0, 30.0, 100.0]);
        for c in &mut list {
            if let Cmd::Load(s) = c {
                s.quiet = s.lazy.iter().copied().filter(|_| self.r.chance(some)).collect();
            }
        }
        list
    }

    /// The next commands, with events of kind 5 before them, and now and then in place of kind 3.
    pub fn next(&mut self, pair: &Pair, mut list: Vec<Cmd>) -> Vec<Cmd> {
        if !self.are_there() {
            return list;
        }
        let Some(Cmd::Event { now, event, .. }) = list.last().cloned() else {
            panic!("commands that end with a call");
        };
        let s = pair.snap.as_deref().expect("a whole block");
        let seen = pair.panel().see(&event);
        if matches!(seen, Some(Seen::Up(_))) && self.r.chance(50.0) {
            for c in &mut list {
                if let Cmd::Event { event, .. } = c {
                    event[0] = wire::QUIET;
                }
            }
        }
        let mut v = Vec::new();
        while self.r.chance(self.rate) {
            v.push(Cmd::Event { now, rooms: vec![], event: self.event(s, seen.as_ref()) });
        }
        v.extend(list);
        v
    }

    /// A neighbour up as quiet, or up by kind 3 that was quiet, or bytes that are no event.
    fn event(&mut self, s: &Snap, seen: Option<&Seen>) -> Vec<u8> {
        match self.r.below(20) {
            0 => self.r.pick(&REFUSED).to_vec(),
            1..=4 if !s.quiet.is_empty() => wire::up(self.r.pick(&s.quiet)),
            5 => wire::up_quiet(s.me),
            _ => wire::up_quiet(self.peer(s, seen)),
        }
    }

    /// A peer that an event is about, or one of all neighbours.
    fn peer(&mut self, s: &Snap, seen: Option<&Seen>) -> u64 {
        let about = seen.map_or(vec![], |e| about(s, e));
        if !about.is_empty() && self.r.chance(85.0) {
            return self.r.pick(&about);
        }
        let all: Vec<u64> = s.eager.iter().chain(&s.lazy).copied().collect();
        if all.is_empty() {
            return self.r.below(20);
        }
        self.r.pick(&all)
    }
}

/// The peers that an event is about: who sends it, announced its message, was grafted for it, or sent the first copy; or has something queued or recorded.
fn about(s: &Snap, seen: &Seen) -> Vec<u64> {
    let announcers = |id: &Id| s.missing.iter().find(|e| e.0 == *id).map_or(&[][..], |e| &e.1);
    let best = |id: &Id| announcers(id).iter().min_by_key(|e| e.1).map(|e| e.0);
    match seen {
        Seen::Gossip { peer, id, .. } => {
            let mut v = vec![*peer];
            v.extend(best(id));
            if let Some(g) = s.grafted.iter().find(|g| g.id == *id) {
                v.extend(g.peers.iter().map(|e| e.0));
                v.extend(g.first.map(|f| f.0));
            }
            v
        }
        Seen::SendGraft(id) => announcers(id).iter().take(1).map(|e| e.0).collect(),
        Seen::Dispatch => s.queue.iter().map(|e| e.0).collect(),
        Seen::Announce => s.dropped.iter().map(|e| e.0).collect(),
        Seen::Broadcast { .. } | Seen::Evict => vec![],
        Seen::Prune(p) | Seen::Up(p) | Seen::Down(p) | Seen::UpQuiet(p) => vec![*p],
        Seen::Graft { peer, .. } | Seen::IHave { peer, .. } => vec![*peer],
    }
}
