//! Random lists of calls. A list is determined by its seed and the Rust's answers.
mod brink;
mod quiet;
mod retired;
mod rewrite;
mod second;
pub mod spell;
mod states;

use std::collections::HashMap;

use oracle::{
    identifier,
    snap::{Cached, Grafted, Id, Notes, Snap},
};

pub use quiet::Quiets;
pub use retired::Retired;
pub use rewrite::Rewrites;
pub use second::Seconds;
pub use states::States;

use crate::{
    block::{self, Layout, CEILINGS},
    likeness,
    rng::Rng,
    run::{Call, Pair},
    script::Cmd,
    wire::{self, Action, Message, Timer},
};

const DEFAULT: [u64; 7] = [80, 40, 5, 7, 30000, 90000, 1000];
const TOP: u64 = 1 << 62;
pub const PANELRUN: [u64; 9] = [8, 64, 32, 8192, 16, 16, 16, 64, 64];

const WIDE: [u64; 13] =
    [0, 1, 127, 128, 16383, 16384, 1 << 32, (1 << 63) - 1, 1 << 63, u64::MAX - 1, u64::MAX, 7, 300];

#[derive(Clone, Copy, PartialEq, Debug)]
pub enum Profile {
    /// Default settings, panelrun's limits.
    Default,
    /// Retentions of a few milliseconds.
    Tiny,
    /// Tight links, many contents.
    Drops,
    /// Announcements, grafts, late replies.
    Graft,
    /// First events, from a loaded state that has outlived its entries.
    First,
    /// Records around 64 and 256 of cached messages, from a loaded state.
    Record,
    /// Records and queues that fill, from a loaded state.
    Full,
    /// Records that fill by calls.
    Fill,
    /// The ceilings as limits, from a loaded state.
    Ceilings,
    /// From a loaded state that is one or two calls from a limit (brink.rs).
    Brink,
    /// Two panels, by two lists of calls (second.rs).
    ByCalls,
}

pub struct World {
    r: Rng,
    profile: Profile,
    pub calls: usize,
    me: u64,
    pub m: u64,
    cfg: [u64; 7],
    max: [u64; 9],
    peers: Vec<u64>,
    contents: Vec<Vec<u8>>,
    ids: Vec<Id>,
    content_of: HashMap<Id, usize>,
    now: u64,
    step: u64,
    bad: f64,
    respelled: f64,
    tight: f64,
    damage: f64,
    /// Whether the list has events of kind 5 (quiet.rs).
    quiet: bool,
    alike: f64,
    weights: Vec<(&'static str, u64)>,
    pending: Vec<Vec<u8>>,
    plan: Vec<Vec<u8>>,
    /// The room of every peer, where a list plans it.
    room: Option<u16>,
    out: usize,
}

/// A link number that stands 256 times.
fn full_record(numbers: &[u8]) -> Option<u8> {
    (0..32).find(|k| numbers.iter().filter(|x| *x == k).count() == 256)
}

impl World {
    /// List `list` of a run: one in eight is on the brink of a limit, one in sixteen begins with two panels.
    pub fn of(seed: u64, list: u64) -> World {
        if list % 8 == 5 {
            return World::with(World::start(seed, list), Profile::Brink);
        }
        if list % 16 == 11 {
            return World::with(World::start(seed, list), Profile::ByCalls);
        }
        World::new(seed, list)
    }

    fn start(seed: u64, list: u64) -> Rng {
        let mut r = Rng::new(seed.rotate_left(32) ^ list);
        r.next();
        r
    }

    /// A list of any other profile.
    pub fn new(seed: u64, list: u64) -> World {
        let mut r = World::start(seed, list);
        let profile = match r.below(1000) {
            0..=119 => Profile::Default,
            120..=319 => Profile::Tiny,
            320..=489 => Profile::Drops,
            490..=679 => Profile::Graft,
            680..=939 => Profile::First,
            940..=979 => Profile::Record,
            980..=996 => Profile::Full,
            997..=998 => Profile::Ceilings,
            _ => Profile::Fill,
        };
        World::with(r, profile)
    }

    fn with(mut r: Rng, profile: Profile) -> World {
        let big = matches!(
            profile,
            Profile::Full | Profile::Fill | Profile::Ceilings | Profile::Brink
        );
        let many = if big { 32 } else { r.pick(&[3, 5, 8, 12, 12, 33, 40]) };
        let peers: Vec<u64> = if !big && r.chance(25.0) {
            let mut v = WIDE.to_vec();
            r.shuffle(&mut v);
            v
        } else {
            let base = r.pick(&[0, 1, 1, 120, 1 << 20]);
            let mut v: Vec<u64> = (base..base + many).collect();
            if r.chance(50.0) {
                r.shuffle(&mut v);
            }
            v
        };
        let me = peers[0];
        let m = match profile {
            Profile::Default => 4094,
            // (M - 6) / 35 goes from 14 to 15 at 531.
            Profile::Brink => r.pick(&[510, 511, 530, 530, 531, 531, 565, 4094]),
            _ => r.pick(&[510, 510, 510, 511, 544, 545, 700, 1024, 4094, 4094]),
        };
        let cfg = World::settings(&mut r, profile);
        let max = World::limits(&mut r, profile);
        let step = cfg[4].min(cfg[5]).min(1000).max(8) / 4;
        let n = match profile {
            Profile::Full | Profile::Fill | Profile::Brink => 330,
            Profile::Record => 300,
            Profile::Ceilings => 600,
            Profile::Drops => r.pick(&[20, 90]),
            Profile::ByCalls => 16,
            _ => r.pick(&[1, 2, 4, 8, 16, 40]),
        };
        let small = big || profile == Profile::ByCalls;
        let contents: Vec<_> = (0..n).map(|k| World::content(&mut r, m, k, small)).collect();
        let mut ids: Vec<Id> = contents.iter().map(|c| identifier(c)).collect();
        let content_of = ids.iter().enumerate().map(|(i, id)| (*id, i)).collect();
        // A part of the identifiers comes from nothing that is ever sent.
        let others = if profile == Profile::Ceilings { 2000 } else { (n / 4).max(1) };
        for _ in 0..others {
            let mut id: Id = r.bytes(32).try_into().unwrap();
            if r.chance(30.0) {
                // Differing late, or in the bits by which chains are made.
                id = r.pick(&ids);
                let i = r.index(32);
                id[i] ^= 1 << r.below(8);
            }
            ids.push(id);
        }
        let now = r.pick(&[0, 0, 0, 1000, 1 << 33, TOP - 5000, TOP]);
        let mut weights = vec![
            ("up", 8),
            ("down", 3),
            ("gossip", 24),
            ("ihave", 14),
            ("graft", 8),
            ("prune", 5),
            ("broadcast", 8),
            ("dispatch", 6),
            ("announce", 4),
            ("evict", 5),
            ("sendgraft", 10),
            ("story", 3),
            ("pending", 20),
        ];
        let scale = |w: &mut Vec<(&'static str, u64)>, v: &[(&str, u64)]| {
            for (name, x) in v {
                w.iter_mut().find(|e| e.0 == *name).unwrap().1 = *x;
            }
        };
        match profile {
            Profile::Drops => {
                let v = [("broadcast", 20), ("dispatch", 3), ("announce", 2), ("prune", 8)];
                scale(&mut weights, &v);
                scale(&mut weights, &[("graft", 14), ("down", 1), ("evict", 2)]);
            }
            Profile::Graft => {
                let v = [("ihave", 22), ("sendgraft", 20), ("gossip", 30), ("broadcast", 3)];
                scale(&mut weights, &v);
                scale(&mut weights, &[("story", 20)]);
            }
            Profile::First => {
                let v = [("sendgraft", 24), ("gossip", 40), ("broadcast", 14), ("evict", 6)];
                scale(&mut weights, &v);
                scale(&mut weights, &[("up", 2), ("story", 0), ("pending", 2)]);
            }
            Profile::Full
            | Profile::Fill
            | Profile::Ceilings
            | Profile::Record
            | Profile::Brink => {
                let v = [("dispatch", 14), ("announce", 10), ("down", 1), ("broadcast", 20)];
                scale(&mut weights, &v);
                scale(&mut weights, &[("graft", 14), ("evict", 1)]);
            }
            _ => {}
        }
        if r.chance(40.0) {
            for w in &mut weights {
                w.1 *= r.pick(&[0, 1, 1, 1, 2, 5]);
            }
        }
        weights.push(("up", 1));
        World {
            profile,
            calls: match profile {
                Profile::Full => 40,
                Profile::Ceilings => 30,
                Profile::Fill => 700,
                Profile::First => r.pick(&[2, 4, 10]),
                Profile::Record => 8,
                Profile::Brink => 6,
                Profile::ByCalls => r.pick(&[10, 30, 60]),
                _ => r.pick(&[20, 60, 150, 300]),
            },
            me,
            m,
            cfg,
            max,
            peers,
            contents,
            ids,
            content_of,
            now,
            step,
            bad: if big { 0.5 } else { r.pick(&[0.0, 2.0, 6.0]) },
            respelled: if big { 2.0 } else { r.pick(&[0.0, 4.0, 20.0]) },
            tight: match profile {
                Profile::Drops | Profile::Full | Profile::Fill | Profile::Ceilings => 85.0,
                Profile::Record | Profile::Brink => 85.0,
                _ => r.pick(&[5.0, 35.0, 70.0]),
            },
            damage: if big { 8.0 } else { r.pick(&[0.0, 0.0, 0.0, 20.0]) },
            quiet: false,
            alike: if big { 3.0 } else { r.pick(&[0.0, 3.0, 3.0, 20.0]) },
            weights,
            pending: Vec::new(),
            plan: Vec::new(),
            room: None,
            out: 0,
            r,
        }
    }

    fn settings(r: &mut Rng, profile: Profile) -> [u64; 7] {
        if profile == Profile::Default || r.chance(10.0) {
            return DEFAULT;
        }
        if profile == Profile::Tiny {
            let s = r.pick(&[0, 1, 3, 10, 50]);
            return std::array::from_fn(|_| {
                let any = r.below(4 * s + 1);
                r.pick(&[0, 1, s, 2 * s, any])
            });
        }
        [
            r.pick(&[0, 80, 1 << 40]),
            r.pick(&[0, 40, 127, 128]),
            r.pick(&[0, 5, 1 << 40]),
            r.pick(&[0, 1, 2, 7, 65535]),
            r.pick(&[100, 1000, 30000, 1 << 40]),
            r.pick(&[50, 300, 1000, 90000, 1 << 40]),
            r.pick(&[0, 10, 1000]),
        ]
    }

    fn limits(r: &mut Rng, profile: Profile) -> [u64; 9] {
        match profile {
            Profile::Full | Profile::Fill => {
                let mut max = CEILINGS;
                max[3] = r.pick(&[20_000, 65_536]);
                max[1] = r.pick(&[400, 800]);
                max[4] = 64;
                max[5] = 64;
                max[6] = 64;
                max[8] = r.pick(&[4096, 4096, 4000]);
                max
            }
            Profile::Default => PANELRUN,
            Profile::Ceilings => CEILINGS,
            Profile::Record => [8, 300, 300, 8000, 8, 8, 16, 400, r.pick(&[1100, 1024, 600])],
            _ => match r.below(4) {
                0 => PANELRUN,
                1 => [
                    r.pick(&[1, 2, 3, 6]),
                    r.pick(&[1, 2, 3, 8]),
                    r.pick(&[1, 2, 4]),
                    r.pick(&[1, 20, 40, 200]),
                    r.pick(&[1, 2, 3]),
                    r.pick(&[1, 2, 4]),
                    r.pick(&[1, 2, 4]),
                    r.pick(&[1, 2, 5, 10]),
                    r.pick(&[1, 2, 6]),
                ],
                2 => [
                    r.pick(&[3, 6, 12, 32]),
                    r.pick(&[2, 8, 64]),
                    r.pick(&[1, 4, 32]),
                    r.pick(&[40, 200, 8192]),
                    r.pick(&[1, 3, 16]),
                    r.pick(&[1, 4, 16]),
                    r.pick(&[1, 4, 16]),
                    r.pick(&[2, 10, 64]),
                    r.pick(&[1, 6, 64]),
                ],
                _ => [32, 128, 100, 20000, r.pick(&[3, 60]), 60, 60, 400, 300],
            },
        }
    }

    fn content(r: &mut Rng, m: u64, k: usize, big: bool) -> Vec<u8> {
        let x = r.below(100);
        if x < 75 || big {
            let n = if big && x == 0 { r.index(4000) } else { r.index(12) };
            let mut v = r.bytes(n);
            v.push(k as u8);
            v.push((k / 256) as u8);
            return v;
        }
        if x < 91 {
            let n = r.pick(&[0, 1, 63, 64, 65, 127, 128, 130, 200]);
            return r.bytes(n);
        }
        if x < 94 {
            // Around BLAKE3's chunks.
            let n = r.pick(&[1023, 1024, 1025, 2047, 2048, 2049, 3072, 3073]);
            return r.bytes(n);
        }
        // Around the size that is still sent.
        let n = m as usize - 31 - r.index(14);
        r.bytes(n)
    }

    /// A share of the calls, in percent, that also go to a damaged copy of the block.
    pub fn set_damage(&mut self, percent: f64) {
        self.damage = percent;
    }

    /// The list has events of kind 5.
    pub fn set_quiet(&mut self) {
        self.quiet = true;
    }

    /// The commands that begin the list.
    pub fn begin(&mut self) -> Vec<Cmd> {
        match self.profile {
            Profile::Brink => return self.begin_on_brink(),
            Profile::ByCalls => return self.begin_by_calls(),
            _ => {}
        }
        let mut v = vec![Cmd::New { me: self.me, m: self.m, cfg: self.cfg }];
        self.out = self.outputs();
        v.push(Cmd::Limits { max: self.max, out: self.out });
        let load = match self.profile {
            Profile::Full | Profile::Ceilings | Profile::First | Profile::Record => true,
            Profile::Fill => false,
            _ => self.r.chance(35.0),
        };
        if load {
            v.push(Cmd::Load(Box::new(self.state())));
        }
        if self.r.chance(4.0) {
            let near = |r: &mut Rng| u64::MAX - r.below(6);
            let c = [near(&mut self.r), near(&mut self.r), self.r.pick(&[0, 9, 65535])];
            v.push(Cmd::Counts(c));
        }
        if self.profile == Profile::Fill {
            // A payload to every peer is handed back, content after content.
            let peers = self.peers.clone();
            self.plan = peers[1..].iter().map(|p| wire::up(*p)).collect();
            let n = self.r.pick(&[140, 200, 257, 300]);
            for k in 0..n.min(self.contents.len()) {
                self.plan.push(wire::broadcast(&self.contents[k]));
            }
            if n > 200 {
                self.plan.drain(7..31);
            }
            self.plan.reverse();
        } else if self.r.chance(80.0)
            && !matches!(self.profile, Profile::First | Profile::Record)
        {
            let n = 1 + self.r.index(9);
            for _ in 0..n {
                let p = self.r.pick(&self.peers);
                self.plan.push(wire::up(p));
            }
        }
        v
    }

    fn outputs(&mut self) -> usize {
        match self.profile {
            Profile::Full | Profile::Fill | Profile::Ceilings => 400_000,
            _ => self.r.pick(&[40_960, 40_960, 200_000, 1000]),
        }
    }

    /// The next commands.
    pub fn next(&mut self, pair: &Pair) -> Vec<Cmd> {
        let mut v = Vec::new();
        let snap = pair.snap.as_deref().expect("a whole block");
        let mut event = self.event(snap);
        if !self.quiet && event.first() == Some(&wire::QUIET) {
            event[0] += 1;
        }
        let mut now = self.now;
        if self.r.chance(0.3) {
            now = self.r.pick(&[TOP + 1, u64::MAX, TOP + 1000]);
        }
        let rooms = self.rooms(snap);
        // Now and then an output around what the actions need.
        let mut out = self.out;
        if self.r.chance(6.0) {
            let need = pair.panel().copy().call(None, now, &rooms, &event).need;
            out = match self.r.below(5) {
                0 => need,
                1 => need.saturating_sub(1),
                2 => need + 1,
                3 => self.r.index(need + 1),
                _ => 0,
            };
        }
        if out != pair.limits.out {
            v.push(Cmd::Limits { max: self.max, out });
        }
        if self.r.chance(self.alike) {
            v.push(self.likeness(snap));
        }
        let call = Cmd::Event { now, rooms, event };
        if self.r.chance(self.damage) {
            for _ in 0..self.r.pick(&[1, 3]) {
                let damage = self.poke(pair.block());
                v.push(damage);
                if self.r.chance(self.alike) {
                    v.push(self.likeness(snap));
                }
                v.push(call.clone());
                v.push(Cmd::Undo);
            }
        }
        v.push(call);
        v
    }

    /// Takes notice of a return: the panel can have another number, other settings and limits.
    pub fn goes_on(&mut self, pair: &Pair) {
        let s = pair.snap.as_deref().expect("a whole block");
        (self.me, self.m, self.cfg) = (s.me, s.m, s.cfg);
        self.max = pair.limits.max;
    }

    /// Takes notice of what was answered: what was sent may be replied to, timers may fire.
    pub fn heard(&mut self, call: &Call) {
        for a in wire::actions(&call.answer.actions) {
            let e = match a {
                Action::Send { peer, back: false, message } => match message {
                    Message::Graft { id: Some(id), round } => match self.content_of.get(&id) {
                        Some(k) => {
                            let d = self.r.pick(&[0, 0, 0, 1, 5]);
                            let round = Some(round.saturating_add(d));
                            wire::recv(peer, &wire::gossip(&id, &self.contents[*k], round))
                        }
                        None => continue,
                    },
                    Message::IHave(l) if !l.is_empty() => {
                        let (id, round) = self.r.pick(&l);
                        wire::recv(peer, &wire::graft(Some(&id), round))
                    }
                    Message::Gossip { id, content, round } => {
                        wire::recv(peer, &wire::gossip(&id, &content, round))
                    }
                    _ => continue,
                },
                Action::Schedule(timer) => match timer {
                    Timer::SendGraft(id) => wire::send_graft(&id),
                    Timer::Dispatch => wire::DISPATCH.to_vec(),
                    Timer::Evict => wire::EVICT.to_vec(),
                    Timer::Announce => wire::ANNOUNCE.to_vec(),
                },
                _ => continue,
            };
            if self.pending.len() < 60 {
                self.pending.push(e);
            } else {
                let i = self.r.index(60);
                self.pending[i] = e;
            }
        }
    }

    // Parts of an event

    fn peer(&mut self, s: &Snap) -> u64 {
        match self.r.below(10) {
            0..=4 if s.eager.len() + s.lazy.len() > 0 => {
                let i = self.r.index(s.eager.len() + s.lazy.len());
                *s.eager.iter().chain(&s.lazy).nth(i).unwrap()
            }
            5..=6 => {
                let n = self.peers.len().min(5);
                self.r.pick(&self.peers[..n])
            }
            7 if self.r.chance(10.0) => self.me,
            _ => self.r.pick(&self.peers),
        }
    }

    fn id(&mut self) -> Id {
        self.r.pick(&self.ids)
    }

    fn id_of(&mut self, v: Vec<Id>) -> Id {
        if v.is_empty() || self.r.chance(35.0) {
            return self.id();
        }
        self.r.pick(&v)
    }

    fn round(&mut self) -> u16 {
        if self.r.chance(88.0) {
            return self.r.pick(&[0, 1, 2, 3, 4, 5, 6, 7, 8, 9, 10, 12, 14]);
        }
        self.r.pick(&[126, 127, 128, 16382, 16383, 16384, 65533, 65534, 65535, 65535])
    }

    fn rooms(&mut self, s: &Snap) -> Vec<(u64, u16)> {
        if let Some(room) = self.room {
            return self.peers.iter().map(|p| (*p, room)).collect();
        }
        if self.profile == Profile::Brink && self.r.chance(70.0) {
            return self.peers.iter().map(|p| (*p, 0)).collect();
        }
        if !self.r.chance(self.tight) {
            return vec![];
        }
        let room = |r: &mut Rng| r.pick(&[0, 0, 0, 0, 1, 1, 2, 3, 65535]);
        let n = self.peers.len();
        let mut v: Vec<(u64, u16)> = match self.r.below(5) {
            0 => self.peers.iter().map(|p| (*p, 0)).collect(),
            4 => {
                let same = self.r.pick(&[0, 1, 1, 2, 3]);
                self.peers.iter().map(|p| (*p, same)).collect()
            }
            1 => {
                let links: Vec<u64> = s.eager.iter().chain(&s.lazy).copied().collect();
                links.into_iter().map(|p| (p, room(&mut self.r))).collect()
            }
            2 => {
                let k = self.r.pick(&[1, 2, 4, n + 4]);
                (0..k).map(|_| (self.r.pick(&self.peers), room(&mut self.r))).collect()
            }
            _ => {
                let mut v = self.peers.clone();
                self.r.shuffle(&mut v);
                v.into_iter().map(|p| (p, room(&mut self.r))).collect()
            }
        };
        // A room that is more than any call sends, with a low byte of 0 too.
        for (peer, room) in &mut v {
            if *room == 65535 && *peer % 2 == 0 {
                *room = 256;
            }
        }
        if self.r.chance(25.0) {
            // More entries, before and behind: of the same peers, of strangers.
            for _ in 0..self.r.pick(&[1, 3, 40]) {
                let any = self.r.next();
                let p = if self.r.chance(80.0) { self.r.pick(&self.peers) } else { any };
                let entry = (p, room(&mut self.r));
                let at = self.r.index(v.len() + 1);
                v.insert(at, entry);
            }
        }
        v
    }

    fn tick(&mut self, s: &Snap) {
        let r = &mut self.r;
        let st = self.step;
        let now = i128::from(self.now);
        let d: i128 = match r.below(100) {
            0..=39 => 0,
            40..=66 => r.below(st).into(),
            67..=76 => r.below(4 * st).into(),
            77..=81 => -i128::from(r.below(3 * st)),
            82..=89 => {
                // Around an entry's expiry.
                let mut v = Vec::new();
                v.extend(s.rexp.iter().map(|e| e.0));
                v.extend(s.cexp.iter().map(|e| e.0));
                v.extend(s.gexp.iter().map(|e| e.0));
                if v.is_empty() {
                    1
                } else {
                    i128::from(r.pick(&v)) - now + r.pick(&[-1, 0, 0, 0, 1])
                }
            }
            90..=96 => {
                let c = [self.cfg[4], self.cfg[5], 1, 1000, self.cfg[4].saturating_sub(1)];
                r.pick(&c).into()
            }
            97..=98 => r.pick(&[30000, 90000, -20000]),
            _ => {
                let top = i128::from(TOP) - now;
                r.pick(&[-now, 1 << 40, top, top - 1, -(now / 2)])
            }
        };
        self.now = (now + d).clamp(0, TOP.into()) as u64;
    }

    fn event(&mut self, s: &Snap) -> Vec<u8> {
        if let Some(e) = self.plan.pop() {
            if self.profile != Profile::Fill && self.r.chance(20.0) {
                self.tick(s);
            }
            return e;
        }
        self.tick(s);
        let e = self.valid(s);
        if self.r.chance(self.bad) {
            return self.damaged(e, s);
        }
        if self.r.chance(self.respelled) {
            return self.respelled(e, s);
        }
        e
    }

    fn valid(&mut self, s: &Snap) -> Vec<u8> {
        let all: u64 = self.weights.iter().map(|w| w.1).sum();
        let mut x = self.r.below(all);
        let mut kind = "up";
        for (name, w) in &self.weights {
            if x < *w {
                kind = name;
                break;
            }
            x -= w;
        }
        let p = self.peer(s);
        match kind {
            "up" => wire::up(p),
            "down" => wire::down(p),
            "gossip" => self.gossip(s, p),
            "ihave" => self.ihave(s, p),
            "graft" => self.graft(s, p),
            "prune" => wire::recv(p, &wire::prune()),
            "broadcast" => {
                let k = self.r.index(self.contents.len());
                match self.r.chance(85.0) {
                    true => wire::broadcast(&self.contents[k]),
                    false => wire::retired(&self.contents[k]),
                }
            }
            "dispatch" => wire::DISPATCH.to_vec(),
            "announce" => wire::ANNOUNCE.to_vec(),
            "evict" => wire::EVICT.to_vec(),
            "sendgraft" => {
                let ids = s.missing.iter().map(|e| e.0).chain(s.timers.iter().copied()).collect();
                let id = self.id_of(ids);
                wire::send_graft(&id)
            }
            "pending" if !self.pending.is_empty() => {
                let i = self.r.index(self.pending.len());
                if self.r.chance(20.0) {
                    self.pending[i].clone()
                } else {
                    self.pending.swap_remove(i)
                }
            }
            "story" => self.story(),
            _ => wire::recv(p, &wire::prune()),
        }
    }

    fn gossip(&mut self, s: &Snap, p: u64) -> Vec<u8> {
        let known = |ids: Vec<Id>, w: &World| -> Vec<Id> {
            ids.into_iter().filter(|id| w.content_of.contains_key(id)).collect()
        };
        let v = match self.r.below(4) {
            0 => known(s.missing.iter().map(|e| e.0).collect(), self),
            1 => known(s.grafted.iter().map(|e| e.id).collect(), self),
            _ => vec![],
        };
        let k = if v.is_empty() {
            self.r.index(self.contents.len())
        } else {
            self.content_of[&self.r.pick(&v)]
        };
        let content = self.contents[k].clone();
        let mut id = self.ids[k];
        let mut from = p;
        let mut round = self.round();
        if let Some((_, a)) = s.missing.iter().find(|e| e.0 == id) {
            if self.r.chance(60.0) {
                // Around the threshold above the least announcer.
                let least = i64::from(a.iter().map(|e| e.1).min().unwrap());
                let r = least + self.cfg[3] as i64 - 1 + self.r.pick(&[-1, 0, 0, 1]);
                round = r.clamp(0, 65535) as u16;
            }
            if self.r.chance(30.0) {
                from = self.r.pick(a).0;
            }
        }
        if let Some(g) = s.grafted.iter().find(|g| g.id == id) {
            if !g.peers.is_empty() && self.r.chance(60.0) {
                let (q, near) = self.r.pick(&g.peers);
                if self.r.chance(70.0) {
                    from = q;
                }
                let near = g.first.map_or(near, |f| f.1);
                let r = i64::from(near) + self.r.pick(&[-1, 0, 0, 1]);
                round = r.clamp(0, 65535) as u16;
            }
        }
        if self.r.chance(3.0) {
            id = self.id();
        }
        let round = if self.r.chance(10.0) { None } else { Some(round) };
        wire::recv(from, &wire::gossip(&id, &content, round))
    }

    fn graft(&mut self, s: &Snap, p: u64) -> Vec<u8> {
        let id = self.id_of(s.cache.iter().map(|c| c.id).collect());
        let round = self.round();
        let id = if self.r.chance(15.0) { None } else { Some(&id) };
        wire::recv(p, &wire::graft(id, round))
    }

    fn ihave(&mut self, s: &Snap, p: u64) -> Vec<u8> {
        let most = self.m as usize / 34;
        let k = self.r.pick(&[0, 1, 1, 1, 1, 2, 3, 5, 10, most]);
        let few: Vec<Id> = (0..self.r.pick(&[1, 2, 5])).map(|_| self.id()).collect();
        let mut v = Vec::new();
        for _ in 0..k {
            let id = match self.r.below(4) {
                0 => self.r.pick(&few),
                1 => self.id_of(s.missing.iter().map(|e| e.0).collect()),
                2 => self.id_of(s.timers.clone()),
                _ => self.id(),
            };
            v.push((id, self.round()));
        }
        wire::recv(p, &wire::ihave(&v))
    }

    /// An announcement, a graft, a first copy from another peer, late replies.
    fn story(&mut self) -> Vec<u8> {
        let r = &mut self.r;
        let (a, b, c) = (r.pick(&self.peers), r.pick(&self.peers), r.pick(&self.peers));
        let k = r.index(self.contents.len());
        let id = self.ids[k];
        let body = self.contents[k].clone();
        let copy = |p: u64, round: Option<u16>| wire::recv(p, &wire::gossip(&id, &body, round));
        let mut v = Vec::new();
        for p in [a, b, c] {
            if r.chance(80.0) {
                v.push(wire::up(p));
            }
        }
        let ra = r.below(8) as u16;
        v.push(wire::recv(a, &wire::ihave(&[(id, ra)])));
        if r.chance(50.0) {
            v.push(wire::recv(c, &wire::ihave(&[(id, r.below(12) as u16)])));
        }
        for _ in 0..r.pick(&[0, 1, 1, 1, 2]) {
            v.push(wire::send_graft(&id));
        }
        if r.chance(25.0) {
            v.push(wire::recv(a, &wire::ihave(&[(id, r.below(12) as u16)])));
            v.push(wire::send_graft(&id));
        }
        if r.chance(10.0) {
            v.push(wire::down(r.pick(&[a, b, c])));
        }
        let first = r.pick(&[b, b, b, b, c, c, a]);
        let round = i64::from(ra) + r.pick(&[-1, 0, 0, 1, 6, 7, 8]);
        v.push(copy(first, Some(round.max(0) as u16)));
        if r.chance(15.0) {
            v.push(wire::down(r.pick(&[a, b, c])));
        }
        if r.chance(10.0) {
            v.push(wire::recv(r.pick(&[a, b, c]), &wire::prune()));
        }
        for _ in 0..r.pick(&[1, 1, 2, 3]) {
            let round = r.pick(&[Some(ra), Some(ra), Some(0), Some(3), None]);
            v.push(copy(r.pick(&[a, a, a, b, c]), round));
        }
        v.reverse();
        self.plan = v;
        self.plan.pop().unwrap()
    }

    fn damaged(&mut self, e: Vec<u8>, s: &Snap) -> Vec<u8> {
        let p = self.peer(s);
        let id = self.id();
        let r = &mut self.r;
        let i = r.index(e.len());
        let mut v = e.clone();
        match r.below(10) {
            0 => {
                v.truncate(r.index(e.len() + 1));
                v
            }
            1 => {
                let n = r.pick(&[1, 2, 40]);
                v.extend(r.bytes(n));
                v
            }
            2 => {
                let any = r.next() as u8;
                v[i] = r.pick(&[0, 1, 2, 3, 4, wire::QUIET, 127, 128, 255, any]);
                v
            }
            3 => {
                v[i] ^= 1 << r.below(8);
                v
            }
            4 => {
                // The peer, or a broadcast's length, not shortest or too wide.
                let bad: [&[u8]; 6] = [
                    &[0x80, 0],
                    &[0x81, 0x80, 0],
                    &[255, 255, 255, 255, 255, 255, 255, 255, 255, 2],
                    &[255, 255, 255, 255, 255, 255, 255, 255, 255, 255, 1],
                    &[128, 128, 128, 128, 128, 128, 128, 128, 128, 1],
                    &[128, 128, 128, 128, 128, 128, 128, 128, 128],
                ];
                [&e[..1], r.pick(&bad), &e[2.min(e.len())..]].concat()
            }
            5 => {
                // The last number.
                let bad: [&[u8]; 6] = [
                    &[0x80, 0],
                    &[255, 255, 4],
                    &[255, 255, 3],
                    &[255, 255, 0x83, 0],
                    &[128, 128, 128],
                    &[255, 255],
                ];
                [&e[..e.len() - 1], r.pick(&bad)].concat()
            }
            6 => {
                if r.chance(50.0) {
                    v.remove(i);
                } else {
                    v.insert(i, r.next() as u8);
                }
                v
            }
            7 => {
                let n = r.index(60);
                r.bytes(n)
            }
            8 => {
                // Received messages around M.
                let m = self.m as usize;
                let n = m - 33 - r.index(8);
                let body = vec![r.next() as u8; n];
                let round = r.pick(&[0, 127, 128, 16383, 16384, 65534, 65535]);
                let id = if r.chance(50.0) { identifier(&body) } else { id };
                wire::recv(p, &wire::gossip(&id, &body, Some(round)))
            }
            _ => match r.below(5) {
                0 => {
                    let n = self.m as usize / 33 + r.index(3) - 1;
                    wire::recv(p, &wire::ihave(&vec![(id, 0); n]))
                }
                1 => [vec![0, 2, 3], vec![255; 9], vec![1], r.bytes(40)].concat(),
                2 => vec![1, 128, 128, 128, 128, 128, 128, 128, 128, 128, 1, 5, 6],
                3 => vec![wire::QUIET + 1, 2],
                _ => vec![2, 4],
            },
        }
    }

    // The block

    /// A block near to this state, to be asked whether it is alike.
    fn likeness(&mut self, s: &Snap) -> Cmd {
        let (max, near) = likeness::near(&mut self.r, s, &self.max);
        Cmd::Alike { max, state: Box::new(near) }
    }

    /// Damage to a whole block.
    fn poke(&mut self, b: &[u8]) -> Cmd {
        let r = &mut self.r;
        let at = Layout::of(&self.max);
        let n = block::live(b).map(|x| x as usize);
        if r.chance(3.0) {
            let need = block::need(&self.max);
            let any = r.index(b.len());
            return Cmd::Cut(r.pick(&[0, 1, 2047, 2048, need - 1, need, any]));
        }
        if r.chance(4.0) {
            // One expiry row too many, and nothing else amiss: copies of the last one behind it.
            let (start, rows, limit, count) = r.pick(&[
                (at.received_rows, n[2], self.max[1] as usize, 2),
                (at.grafted_rows, n[7], self.max[4] as usize, 7),
            ]);
            let all = 2 * limit + 1;
            if rows > 0 && all - rows <= 40 {
                let last = &b[start + 40 * (rows - 1)..][..40];
                let copy = |i: usize| (0..40).map(move |k| (start + 40 * i + k, last[k]));
                let mut v: Vec<(usize, u8)> = (rows..all).flat_map(copy).collect();
                let word = (all as u64).to_le_bytes();
                v.extend((0..8).map(|k| (8 * (block::word::LIVE + count) + k, word[k])));
                return Cmd::Poke(v);
            }
        }
        if n[11] > 2 && r.chance(4.0) {
            // A note twice, and between the two one for the same peer whose identifier ends in the same bytes.
            let mut rows = [r.index(n[11]), r.index(n[11]), r.index(n[11])];
            rows.sort();
            let [i, j, k] = rows;
            if i < j && j < k {
                let note = b[at.dropped + 34 * i..][..34].to_vec();
                let number = b[at.dropped_numbers + i];
                let mut v = vec![(at.dropped_numbers + j, number), (at.dropped_numbers + k, number)];
                v.extend(note.iter().enumerate().map(|(x, y)| (at.dropped + 34 * k + x, *y)));
                v.extend(note.iter().enumerate().map(|(x, y)| (at.dropped + 34 * j + x, *y)));
                v.push((at.dropped + 34 * j, note[0] ^ 1));
                return Cmd::Poke(v);
            }
        }
        if let Some(k) = full_record(&b[at.dropped_numbers..][..n[11]]) {
            // One more for a peer that has 256.
            let rows: Vec<usize> = (0..n[11]).filter(|i| b[at.dropped_numbers + i] != k).collect();
            if !rows.is_empty() && r.chance(30.0) {
                return Cmd::Poke(vec![(at.dropped_numbers + r.pick(&rows), k)]);
            }
        }
        // Start, bytes of a row, rows.
        let tables = [
            (0, 8, block::word::END),
            (at.links, 16, n[0]),
            (at.received, 2, n[1]),
            (at.received_rows, 40, n[2]),
            (at.cached, 4, n[3]),
            (at.cached_rows, 48, n[4]),
            (at.contents, 1, n[5]),
            (at.grafted, 119, n[6]),
            (at.grafted_rows, 40, n[7]),
            (at.missing, 129, n[8]),
            (at.timers, 32, n[9]),
            (at.queue_numbers, 1, n[10]),
            (at.queue, 34, n[10]),
            (at.dropped_numbers, 1, n[11]),
            (at.dropped, 34, n[11]),
        ];
        let used: Vec<_> = tables.into_iter().filter(|t| t.2 > 0).collect();
        let (start, stride, rows) = if r.chance(30.0) { tables[0] } else { r.pick(&used) };
        if start == 0 && r.chance(50.0) {
            // A word of the header.
            let i = r.index(block::word::END);
            let old = block::header(b, i);
            let any = r.next();
            let new = r.pick(&[
                old.wrapping_add(1),
                old.wrapping_sub(1),
                old.wrapping_mul(2),
                0,
                1,
                u64::MAX,
                1 << 63,
                1 << 16,
                1 << 32,
                (1 << 40) + 1,
                any,
                any % 5000,
            ]);
            let v = new.to_le_bytes();
            return Cmd::Poke((0..8).map(|k| (8 * i + k, v[k])).collect());
        }
        if rows > 1 && r.chance(15.0) {
            // One row over another, or two exchanged.
            let (i, j) = (r.index(rows), r.index(rows));
            let row = |i: usize| b[start + i * stride..][..stride].to_vec();
            let mut v: Vec<(usize, u8)> =
                row(i).iter().enumerate().map(|(k, x)| (start + j * stride + k, *x)).collect();
            if r.chance(50.0) {
                let back = row(j);
                v.extend(back.iter().enumerate().map(|(k, x)| (start + i * stride + k, *x)));
            }
            return Cmd::Poke(v);
        }
        // In rows of peers: the flags, the count, the first numbers and rounds.
        let near: &[usize] = match stride {
            119 => &[0, 1, 2, 3, 13, 14, 22, 22, 23, 23, 24, 24, 25, 55, 57],
            129 => &[0, 31, 32, 32, 33, 33, 34, 34, 35, 65, 67],
            _ => &[],
        };
        let many = r.pick(&[1, 1, 1, 1, 2, 4]);
        let mut v = Vec::new();
        for _ in 0..many {
            let mut i = start + r.index(rows * stride);
            if !near.is_empty() && r.chance(80.0) {
                i = start + stride * r.index(rows) + r.pick(near);
            }
            let any = r.next() as u8;
            let old = b[i];
            let bit = old ^ (1 << r.below(8));
            let new = r.pick(&[bit, old.wrapping_add(1), old.wrapping_sub(1), 0, 255, any, 32, 33]);
            v.push((i, new));
        }
        Cmd::Poke(v)
    }

    /// A whole state that no list of calls need lead to.
    fn state(&mut self) -> Snap {
        let full = matches!(self.profile, Profile::Full | Profile::Ceilings);
        let record = self.profile == Profile::Record;
        let top = self.profile == Profile::Ceilings;
        let [n, rm, cm, bm, gm, sm, tm, qm, dm] = self.max.map(|x| x as usize);
        let r = &mut self.r;
        let fill = |r: &mut Rng, most: usize| -> usize {
            match r.below(if top { 2 } else { 4 }) {
                0 if !top => 0,
                1 => most,
                _ => r.index(most + 1),
            }
        };
        // Neighbours
        let mut peers = self.peers.clone();
        r.shuffle(&mut peers);
        let links = if full { 17 + r.index(15) } else { fill(r, n.min(peers.len())) };
        peers.truncate(links);
        peers.sort();
        let mut s = Snap { me: self.me, m: self.m, cfg: self.cfg, ..Snap::default() };
        for p in &peers {
            if r.chance(50.0) {
                s.eager.push(*p);
            } else {
                s.lazy.push(*p);
            }
        }
        s.init = self.profile != Profile::First && r.chance(60.0);
        // Times around now, few of them.
        let now = self.now;
        let mut times: Vec<u64> = (0..1 + r.index(6))
            .map(|_| (now + r.below(4 * self.step + 2)).saturating_sub(2 * self.step))
            .collect();
        times.extend([now, now + 1, now + self.cfg[4], now + self.cfg[5]]);
        if r.chance(5.0) {
            times.push(u64::MAX);
        }
        if full || record {
            times.iter_mut().for_each(|t| *t = t.saturating_add(1 << 41));
        }
        let some = |r: &mut Rng, ids: &[Id], k: usize| -> Vec<Id> {
            let mut v = ids.to_vec();
            r.shuffle(&mut v);
            v.truncate(k);
            v.sort();
            v.dedup();
            v
        };
        let stale =
            |r: &mut Rng, keys: Vec<(u64, Id)>, ids: &[Id], most: usize| -> Vec<(u64, Id)> {
                let mut v = keys;
                let all = most - v.len();
                let more = r.index(all + 1);
                for _ in 0..r.pick(&[0, more, more.min(3), all]) {
                    if !v.is_empty() && r.chance(30.0) {
                        let same = r.pick(&v);
                        v.push(same);
                    } else {
                        v.push((r.pick(&times), r.pick(ids)));
                    }
                }
                r.shuffle(&mut v);
                v.sort_by_key(|e| e.0);
                v
            };
        let k = fill(r, rm);
        s.received = some(r, &self.ids, k).into_iter().map(|id| (id, r.pick(&times))).collect();
        s.rexp = stale(r, s.received.iter().map(|e| (e.1, e.0)).collect(), &self.ids, 2 * rm);

        let k = if full || record { cm } else { fill(r, cm) };
        let mut left = bm;
        for id in some(r, &self.ids, k) {
            let content = match self.content_of.get(&id) {
                Some(k) if r.chance(97.0) => self.contents[*k].clone(),
                _ => {
                    let n = r.pick(&[0, 1, 5, 40]);
                    r.bytes(n)
                }
            };
            if content.len() > left {
                continue;
            }
            left -= content.len();
            let round = if r.chance(90.0) { r.below(12) as u16 } else { r.next() as u16 };
            s.cache.push(Cached { id, expires: r.pick(&times), round, content });
        }
        s.cexp = stale(r, s.cache.iter().map(|c| (c.expires, c.id)).collect(), &self.ids, 2 * cm);

        let hops = |r: &mut Rng| if r.chance(90.0) { r.below(12) as u16 } else { r.next() as u16 };
        let k = fill(r, gm);
        for id in some(r, &self.ids, k) {
            let mut g = Grafted { id, expires: r.pick(&times), ..Grafted::default() };
            if r.chance(60.0) {
                g.first = Some((r.pick(&self.peers), hops(r)));
            }
            if r.chance(30.0) {
                g.kept = Some(r.pick(&self.peers));
            }
            let most = r.pick(&[1, 2, 32]);
            for p in &peers {
                if g.peers.len() < most && r.chance(50.0) {
                    g.peers.push((*p, hops(r)));
                }
            }
            s.grafted.push(g);
        }
        s.gexp = stale(r, s.grafted.iter().map(|g| (g.expires, g.id)).collect(), &self.ids, 2 * gm);

        if links > 0 {
            let k = fill(r, sm);
            for id in some(r, &self.ids, k) {
                let mut v = peers.clone();
                r.shuffle(&mut v);
                let most = r.pick(&[1, 2, links]);
                let all = r.chance(30.0);
                v.truncate(if all { most } else { 1 + r.index(most) });
                s.missing.push((id, v.into_iter().map(|p| (p, hops(r))).collect()));
            }
        }
        let k = fill(r, tm);
        s.timers = some(r, &self.ids, k);

        // Queue and record
        let mut queue: Notes = Vec::new();
        let mut left = if full { r.pick(&[0, 100, 2000, qm]) } else { fill(r, qm) };
        for p in &peers {
            let k = r
                .pick(&[0, 1, 3, 13, 14, 15, 28, 29, 43, 200, if top { 600 } else { 2 }])
                .min(left);
            let k = if r.chance(20.0) { r.index(left + 1) } else { k };
            let few = some(r, &self.ids, 3);
            let v: Vec<(Id, u16)> = (0..k)
                .map(|_| {
                    let id = if r.chance(20.0) { r.pick(&few) } else { r.pick(&self.ids) };
                    (id, hops(r))
                })
                .collect();
            left -= k;
            if !v.is_empty() {
                queue.push((*p, v));
            }
        }
        s.queue = queue;
        let mut left = if record {
            dm
        } else if full {
            dm.min(r.pick(&[4096, 4096, 4095, 4090, 4000, 3000]))
        } else {
            fill(r, dm)
        };
        for p in &peers {
            let k = if full {
                r.pick(&[256, 256, 256, 255, 254, 250, 200])
            } else if record {
                r.pick(&[0, 63, 64, 64, 65, 128, 254, 255, 255, 256])
            } else {
                r.pick(&[0, 1, 2, 5, 63, 64, 65, 130, 256])
            };
            let mut v = self.ids.clone();
            if !full && (record || r.chance(40.0)) && !s.cache.is_empty() {
                v = s.cache.iter().map(|c| c.id).collect();
            }
            v.sort();
            v.dedup();
            r.shuffle(&mut v);
            let k = k.min(left).min(256).min(v.len());
            v.truncate(k);
            left -= k;
            if k > 0 {
                s.dropped.push((*p, v.into_iter().map(|id| (id, hops(r))).collect()));
            }
        }
        s.dispatch = !s.queue.is_empty() || r.chance(30.0);
        s.announce = !s.dropped.is_empty() || r.chance(30.0);
        s
    }
}
