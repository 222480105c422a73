//! States that are one or two calls from a limit, with the calls that reach it: 256 identifiers recorded for a peer, 4,096 in all, a record that a dispatch
//! fills, also by what stands in two of its IHaves, contents that a first event leaves no room in, an AnnounceDropped tick that moves 64 of one link, a
//! missing message that all of 32 links announced.
use oracle::snap::{Cached, Id, Notes, Snap};

use super::World;
use crate::{script::Cmd, wire};

/// Beyond every retention of a list.
const LATER: u64 = 1 << 41;
/// So many contents are cached, the first of the list; the others are new.
const CACHED: usize = 20;
/// So many for a tick of the record.
const MANY_CACHED: usize = 90;

fn neighbours(s: &Snap) -> Vec<u64> {
    let mut v: Vec<u64> = s.eager.iter().chain(&s.lazy).copied().collect();
    v.sort();
    v
}

fn noted(notes: &Notes) -> usize {
    notes.iter().map(|e| e.1.len()).sum()
}

impl World {
    /// A creation, a loaded state, and a plan of calls.
    pub(super) fn begin_on_brink(&mut self) -> Vec<Cmd> {
        // Drawn as one of five, of whose last a half are the two that came later: so the lists that begin otherwise stay what they are.
        let state = match self.r.below(20) {
            0..=3 => self.peers_nearly_full(),
            4..=7 => self.record_nearly_full(),
            8..=11 => self.dispatch_that_fills(),
            12..=15 => self.dispatch_in_two(),
            16..=17 => self.contents_nearly_full(),
            18 => self.all_links_announced(),
            _ => self.tick_that_moves_64(),
        };
        self.out = 400_000;
        vec![
            Cmd::New { me: self.me, m: self.m, cfg: self.cfg },
            Cmd::Limits { max: self.max, out: self.out },
            Cmd::Load(Box::new(state)),
        ]
    }

    /// Limits with room for everything but the contents and the record.
    fn roomy(&mut self, contents: usize, dropped: usize) {
        self.max = [32, 400, 100, contents as u64, 16, 16, 16, 400, dropped.clamp(1, 4096) as u64];
    }

    /// A state with so many neighbours, most of them eager, and a full message cache that stays.
    fn linked(&mut self, links: usize) -> Snap {
        self.linked_with(links, CACHED)
    }

    /// The same with the short ones of so many contents cached.
    fn linked_with(&mut self, links: usize, contents: usize) -> Snap {
        let mut s = Snap { me: self.me, m: self.m, cfg: self.cfg, init: true, ..Snap::default() };
        let mut peers = self.peers[1..].to_vec();
        self.r.shuffle(&mut peers);
        peers.truncate(links);
        peers.sort();
        for p in peers {
            if self.r.chance(80.0) {
                s.eager.push(p);
            } else {
                s.lazy.push(p);
            }
        }
        let mut cached: Vec<usize> =
            (0..contents).filter(|k| self.contents[*k].len() < 100).collect();
        cached.sort_by_key(|k| self.ids[*k]);
        for k in cached {
            let round = self.r.below(12) as u16;
            let (id, content) = (self.ids[k], self.contents[k].clone());
            s.cache.push(Cached { id, expires: self.now + LATER, round, content });
        }
        self.set_rows(&mut s);
        s
    }

    /// The cache's expiry rows.
    fn set_rows(&mut self, s: &mut Snap) {
        s.cexp = s.cache.iter().map(|c| (c.expires, c.id)).collect();
        s.cexp.sort_by_key(|e| e.0);
    }

    /// Notes of `k` identifiers: of all there are, or of none that is cached.
    fn notes(&mut self, k: usize, all: bool) -> Vec<(Id, u16)> {
        let mut v = if all { self.ids.clone() } else { self.ids[CACHED..].to_vec() };
        v.sort();
        v.dedup();
        self.r.shuffle(&mut v);
        v.truncate(k);
        v.into_iter().map(|id| (id, self.r.below(12) as u16)).collect()
    }

    /// A content that is new, and its identifier.
    fn new_content(&mut self) -> (Id, Vec<u8>) {
        loop {
            let k = CACHED + self.r.index(self.contents.len() - CACHED);
            if self.contents[k].len() < 100 {
                return (self.ids[k], self.contents[k].clone());
            }
        }
    }

    /// A broadcast, or a message from a neighbour: pushed, unless its identifier is not new.
    fn push_of_new(&mut self, s: &Snap) -> Vec<u8> {
        let (id, content) = self.new_content();
        if self.r.chance(60.0) {
            return wire::broadcast(&content);
        }
        let p = self.r.pick(&neighbours(s));
        let round = self.r.below(12) as u16;
        wire::recv(p, &wire::gossip(&id, &content, Some(round)))
    }

    /// A neighbour asks for a cached message.
    fn graft_of_cached(&mut self, s: &Snap) -> Vec<u8> {
        let p = self.r.pick(&neighbours(s));
        let id = self.r.pick(&s.cache).id;
        wire::recv(p, &wire::graft(Some(&id), self.r.below(12) as u16))
    }

    /// Five calls that note what is handed back.
    fn plan_notes(&mut self, s: &Snap, grafts: f64) {
        for _ in 0..5 {
            let e = if self.r.chance(10.0) {
                wire::DISPATCH.to_vec()
            } else if self.r.chance(grafts) {
                self.graft_of_cached(s)
            } else {
                self.push_of_new(s)
            };
            self.plan.push(e);
        }
    }

    /// The record has 254, 255 or 256 for some neighbours, and room, or room for a few.
    fn peers_nearly_full(&mut self) -> Snap {
        let links = 1 + self.r.index(5);
        let mut s = self.linked(links);
        for p in neighbours(&s) {
            let k = self.r.pick(&[254, 255, 255, 256, 256, 3]);
            let all = self.r.chance(50.0);
            s.dropped.push((p, self.notes(k, all)));
        }
        s.announce = true;
        let more = self.r.pick(&[0, 1, 2, 50, 400]);
        self.roomy(8000, noted(&s.dropped) + more);
        self.plan_notes(&s, 40.0);
        s
    }

    /// The record has 4,094, 4,095 or 4,096 in all, and 256 for half of the neighbours.
    fn record_nearly_full(&mut self) -> Snap {
        let links = 17 + self.r.index(8);
        let mut s = self.linked(links);
        let all = self.r.pick(&[4094, 4095, 4095, 4096]);
        let mut counts: Vec<usize> = (0..links).map(|i| (all + i) / links).collect();
        for i in 0..links / 2 {
            let up = (256 - counts[i]).min(counts[links - 1 - i]);
            counts[i] += up;
            counts[links - 1 - i] -= up;
        }
        self.r.shuffle(&mut counts);
        for (p, k) in neighbours(&s).into_iter().zip(counts) {
            let some = self.r.chance(30.0);
            let notes = self.notes(k, some);
            if !notes.is_empty() {
                s.dropped.push((p, notes));
            }
        }
        s.announce = true;
        self.roomy(8000, 4096);
        self.plan_notes(&s, 70.0);
        s
    }

    /// The record has 250 to 256 for a neighbour, and a dispatch hands back so many that it would have more; it has room for all, for one more, or for
    /// all but one.
    fn dispatch_that_fills(&mut self) -> Snap {
        let links = 1 + self.r.index(4);
        let mut s = self.linked(links);
        let full = self.r.index(links);
        let mut gains = 0;
        for (i, p) in neighbours(&s).into_iter().enumerate() {
            let k = if i == full { 250 + self.r.index(7) } else { self.r.index(4) };
            let notes = self.notes(k, false);
            let n = if i == full { 1 + self.r.index(12) } else { 0 };
            let mut queue: Vec<(Id, u16)> = s.cache.iter().map(|c| (c.id, c.round)).collect();
            self.r.shuffle(&mut queue);
            queue.truncate(n);
            gains += queue.len().min(256 - k);
            if n > 0 && k > 0 && self.r.chance(40.0) {
                // Those gain nothing: recorded, or twice.
                queue.push(self.r.pick(&notes));
                queue.push(queue[0]);
                self.r.shuffle(&mut queue);
            }
            if n > 0 && self.r.chance(50.0) {
                // Nor do those, which are not cached; they make more than one IHave of the queue.
                let more = 4 + self.r.index(16);
                queue.extend(self.notes(more, false));
                self.r.shuffle(&mut queue);
            }
            if k > 0 {
                s.dropped.push((p, notes));
            }
            if !queue.is_empty() {
                s.queue.push((p, queue));
            }
        }
        s.dispatch = true;
        s.announce = true;
        let room = noted(&s.dropped) + gains + self.r.pick(&[0, 0, 1, 2]);
        self.roomy(8000, (room - 1).max(noted(&s.dropped)));
        self.plan.push(wire::DISPATCH.to_vec());
        s
    }

    /// The one link takes one IHave of a dispatch and hands back the next, in which an identifier of the first stands again; the record has room for what it
    /// gains, or for all but one.
    fn dispatch_in_two(&mut self) -> Snap {
        let mut s = self.linked(1);
        let p = neighbours(&s)[0];
        let mut cached: Vec<(Id, u16)> = s.cache.iter().map(|c| (c.id, c.round)).collect();
        self.r.shuffle(&mut cached);
        let first = ((self.m - 6) / 35) as usize;
        let both = 1 + self.r.index(cached.len().min(6));
        let mut queue = cached[..both].to_vec();
        queue.extend(self.notes(first - both, false));
        let new = self.r.index((cached.len() - both).min(3) + 1);
        let mut back = cached[both..][..new].to_vec();
        let again = queue[self.r.index(both)];
        back.push(again);
        let gains = back.len();
        self.r.shuffle(&mut back);
        self.r.shuffle(&mut queue);
        queue.extend(back);
        s.queue.push((p, queue));
        // One whose identifier ends in the same bytes is recorded.
        let mut near = again;
        near.0[0] ^= 1;
        s.dropped.push((p, vec![near]));
        s.dispatch = true;
        s.announce = true;
        self.room = Some(1);
        let room = 1 + gains + self.r.pick(&[0, 0, 1]);
        self.roomy(8000, room - 1);
        self.plan.push(wire::DISPATCH.to_vec());
        s
    }

    /// No event has come yet, some or all of what is cached is due, and the contents have room for a new one, for one byte more, or for all but one.
    fn contents_nearly_full(&mut self) -> Snap {
        let links = 1 + self.r.index(4);
        let mut s = self.linked(links);
        s.init = false;
        let due = self.r.pick(&[0.0, 0.0, 20.0, 50.0, 100.0]);
        for c in &mut s.cache {
            if self.r.chance(due) {
                c.expires = self.now.saturating_sub(self.r.below(3));
            }
        }
        self.set_rows(&mut s);
        let bytes = |later: bool| -> usize {
            let stays = |c: &&Cached| !later || self.now < c.expires;
            s.cache.iter().filter(stays).map(|c| c.content.len()).sum()
        };
        let (all, later) = (bytes(false), bytes(true));
        let e = self.push_of_new(&s);
        let (_, content) = self.new_content();
        let room = later + content.len() + self.r.pick(&[0, 0, 1, 2]) - 1;
        self.roomy(room.max(all).max(1), 400);
        self.plan.push(e);
        self.plan.push(wire::broadcast(&content));
        s
    }

    /// The record has 64, 65 or a few more of one link, all of them cached, and mostly nothing else; the queue has room for the 64 that a tick moves, for one more, or for all
    /// but one.
    fn tick_that_moves_64(&mut self) -> Snap {
        let links = 1 + self.r.index(4);
        let mut s = self.linked_with(links, MANY_CACHED);
        let from = self.r.pick(&neighbours(&s));
        let mut notes: Vec<(Id, u16)> = s.cache.iter().map(|c| (c.id, c.round)).collect();
        self.r.shuffle(&mut notes);
        let recorded = self.r.pick(&[64, 65, 65, 65, 66, 80]);
        let queued = if self.r.chance(30.0) { 1 + self.r.index(5) } else { 0 };
        if queued > 0 {
            s.queue.push((from, notes[..queued].to_vec()));
        }
        self.r.shuffle(&mut notes);
        notes.truncate(recorded);
        let alone = self.r.chance(70.0);
        let mut moved = notes.len().min(64);
        for p in neighbours(&s) {
            if p == from {
                s.dropped.push((p, notes.clone()));
            } else if !alone && self.r.chance(50.0) {
                let few = 1 + self.r.index(3);
                moved += few;
                s.dropped.push((p, notes[..few].to_vec()));
            }
        }
        s.dispatch = queued > 0;
        s.announce = true;
        self.roomy(8000, 400);
        self.max[7] = (queued + moved + self.r.pick(&[0, 0, 1, 2]) - 1) as u64;
        self.plan = vec![wire::ANNOUNCE.to_vec(), wire::DISPATCH.to_vec(), wire::ANNOUNCE.to_vec()];
        s
    }

    /// Every one of 32 links, the panel itself among them, has announced one message, each at a round of its own; it is asked of them one after the other.
    fn all_links_announced(&mut self) -> Snap {
        let mut s = self.linked(self.peers.len() - 1);
        s.lazy.push(self.me);
        s.lazy.sort();
        let (id, _) = self.notes(1, false)[0];
        let mut announcers: Vec<(u64, u16)> = neighbours(&s).into_iter().zip(1..).collect();
        self.r.shuffle(&mut announcers);
        s.missing.push((id, announcers));
        s.timers.push(id);
        self.roomy(8000, 400);
        self.plan = vec![wire::send_graft(&id); 5];
        s
    }
}
