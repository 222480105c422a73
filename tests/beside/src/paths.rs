//! Which paths the calls took, told from the state before, the event and the answer.
use std::{
    borrow::Cow,
    collections::{BTreeMap, BTreeSet},
};

use oracle::{
    snap::{Id, Notes, Snap},
    Answer, Seen,
};

use crate::{
    block, likeness,
    rewriting::{self, Rewriter},
    run::Pair,
    second::{self, Apart, BY_CALLS},
    states::{self, Keeper},
    wire::{self, Action, Field, Message, Spelled, Stop},
};

/// Every path that a run is meant to hit.
pub const ALL: &[&str] = &[
    "answer 0",
    "answer 5",
    "answer 6",
    "answer 7",
    "answer 8",
    "answer 9",
    "answer 10",
    "answer 11",
    "answer 12",
    "answer 13",
    "answer 14",
    "answer 23",
    "13 by neighbours",
    "13 by received",
    "13 by cached",
    "13 by content",
    "13 by grafted",
    "13 by missing",
    "13 by timers",
    "13 by queued",
    "13 by dropped",
    "13 by received rows",
    "13 by cached rows",
    "13 by grafted rows",
    "14 at one byte",
    "actions fill the output",
    "damaged and whole",
    "first event",
    "first event evicts received",
    "first event evicts cached",
    "first event evicts grafted",
    "gossip not valid",
    "gossip new Swarm from neighbour",
    "gossip new Swarm from stranger",
    "gossip new Swarm from panel itself",
    "gossip new Swarm while cached",
    "gossip new Swarm of content length 0",
    "gossip new Neighbors",
    "gossip new clears announcers",
    "gossip new clears timer",
    "gossip new sets first",
    "gossip new skips grafted",
    "gossip graft out, no optimise",
    "gossip queued for the panel itself",
    "optimise with Graft",
    "optimise without Graft",
    "optimise, sender is the best announcer",
    "optimise not, under threshold",
    "optimise not, no fewer hops",
    "optimise, both handed back",
    "round 127 forwarded",
    "round 16,383 forwarded",
    "round 65,534 forwarded",
    "duplicate from eager",
    "duplicate from lazy",
    "duplicate from stranger",
    "duplicate Neighbors",
    "duplicate of round 65,535",
    "late: first again",
    "late: kept again",
    "late: faster",
    "late not: no first",
    "late not: sender not grafted",
    "late not: more hops",
    "late not: Neighbors",
    "late not: first grafted",
    "late not: sender lazy",
    "late not: first not eager",
    "late not: first stranger",
    "push handed back, noted",
    "push handed back, noted already",
    "push handed back, schedules announce",
    "record full at 256",
    "record full at 4,096",
    "prune from eager",
    "prune from lazy",
    "prune from stranger",
    "graft without identifier",
    "graft cached, taken",
    "graft cached, handed back and noted",
    "graft cached, noted already",
    "graft not cached",
    "graft from lazy",
    "graft from stranger",
    "ihave empty",
    "ihave from stranger",
    "ihave received",
    "ihave new",
    "ihave known, other peer",
    "ihave known, same peer",
    "ihave repeated in message",
    "ihave of missing without timer",
    "ihave of timer without announcers",
    "ihave as many as fit",
    "sendgraft received",
    "sendgraft unknown",
    "sendgraft new entry",
    "sendgraft entry known, new peer",
    "sendgraft entry known, less round",
    "sendgraft entry known, no less round",
    "sendgraft last announcer",
    "sendgraft announcers left",
    "sendgraft handed back",
    "sendgraft to lazy",
    "dispatch empty",
    "dispatch one chunk",
    "dispatch many chunks",
    "dispatch full chunk exactly",
    "dispatch chunk handed back",
    "dispatch some chunks of a peer handed back",
    "dispatch handed back, not cached",
    "dispatch handed back, noted already",
    "dispatch handed back twice in a queue",
    "dispatch schedules announce between sends",
    "announce empty",
    "announce filters uncached",
    "announce moves 64 and leaves some",
    "announce onto a queue",
    "announce schedules dispatch",
    "announce leaves nothing",
    "evict first, twice",
    "evict nothing",
    "evict removes an entry",
    "evict pops a stale row only",
    "evict: equal times",
    "up new",
    "up eager",
    "up lazy",
    "up the panel itself",
    "up with 31 neighbours",
    "down stranger",
    "down announcer, others left",
    "down last announcer",
    "down with queue",
    "down with record",
    "down grafted",
    "broadcast Swarm new",
    "broadcast Swarm again",
    "broadcast Swarm to announced",
    "broadcast Swarm too large",
    "broadcast Swarm of largest size",
    "broadcast to eager panel itself",
    "room: second entry of a peer, the first counts",
    "room of a stranger",
    "room: more entries than links",
    "room for some of a peer's sends",
    "event kind: 8 at its last allowed byte",
    "peer: 8 at its last allowed byte",
    "peer: 8 since it is padded",
    "broadcast length: 8 at its last allowed byte",
    "broadcast length: 8 since it is padded",
    "broadcast byte: 8 at its last allowed byte",
    "timer kind: 8 at its last allowed byte",
    "message kind: padded",
    "message kind: of its greatest length",
    "message kind: 8 at its last allowed byte",
    "message kind: cut, unknown so far",
    "message kind: unknown at a later byte",
    "delivery kind: padded",
    "delivery kind: of its greatest length",
    "delivery kind: 8 at its last allowed byte",
    "delivery kind: cut, unknown so far",
    "delivery kind: unknown at a later byte",
    "length: padded",
    "length: of its greatest length",
    "length: 8 at its last allowed byte",
    "count: padded",
    "count: of its greatest length",
    "count: 8 at its last allowed byte",
    "delivery round: padded",
    "delivery round: of its greatest length",
    "delivery round: 8 at its last allowed byte",
    "Graft round: padded",
    "Graft round: of its greatest length",
    "Graft round: 8 at its last allowed byte",
    "IHave round: padded",
    "IHave round: of its greatest length",
    "IHave round: 8 at its last allowed byte",
    "presence byte: 8 at its last allowed byte",
    "M bytes by padding",
    "10 by padding alone",
    "creation 0",
    "creation 1",
    "creation 2",
    "creation 3",
    "creation 4",
];

/// Paths of what an eviction tells as forgotten. The sample is chosen by the others.
pub const FORGOTTEN: &[&str] = &[
    "evict tells none",
    "evict tells one",
    "evict tells several",
    "evict tells a key with the first of its two rows of one time",
    "evict tells in another order than the rows that the entries name",
    "first event tells one",
    "first event tells several",
    "first event tells, and is EvictCache",
    "first event tells what it caches anew",
    "14 by what was forgotten alone",
];

/// Paths of a broadcast with byte 1, where the same with byte 0 would be what stands behind 23, or is not asked since another number comes first.
pub const RETIRED: &[&str] = &[
    "byte 1: 5",
    "byte 1: 6",
    "byte 1: 8, the byte is padded",
    "byte 1: 9",
    "byte 1: 23, byte 0 is accepted",
    "byte 1: 23, byte 0 is 13",
    "byte 1: 23, byte 0 is 14",
    "byte 1: 23, byte 0 is the first event",
    "byte 1: 23, byte 0 is the first event and evicts",
    "byte 1: 23, byte 0 is too large",
    "byte 1: 23, some are quiet",
];

/// Paths of a quiet neighbour.
pub const QUIET: &[&str] = &[
    "up quiet: 7",
    "up quiet: 8",
    "up quiet: 9",
    "up quiet: kind 6 is 8",
    "up quiet: 13 by neighbours",
    "up quiet: stranger",
    "up quiet: eager",
    "up quiet: lazy",
    "up quiet: quiet already",
    "up quiet: the panel itself",
    "up quiet: before the first event",
    "up quiet: with queue",
    "up quiet: with record",
    "up quiet: announcer",
    "up quiet: grafted",
    "up: quiet so far",
    "up: down since it was quiet",
    "down: quiet",
    "down: quiet, with queue",
    "down: quiet, with record",
    "quiet: Graft cached, taken",
    "quiet: Graft cached, handed back and noted",
    "quiet: Graft cached, noted already",
    "quiet: Graft not cached",
    "quiet: Graft without identifier",
    "quiet: Prune",
    "quiet: duplicate",
    "quiet: IHave",
    "quiet: sendgraft",
    "quiet: sendgraft handed back",
    "quiet: optimise, the best announcer",
    "quiet: optimise, the best announcer again",
    "quiet: optimise, the sender",
    "quiet: optimise, both",
    "quiet: late, the grafted sender alone stands against",
    "quiet: late, first alone stands against",
    "quiet: late, first again",
    "quiet: new Swarm from it",
    "quiet: new Swarm from it, pushed to eager ones",
    "quiet: broadcast Swarm, all are quiet",
    "quiet: broadcast Swarm, the panel itself",
    "quiet: queued, eager ones sent to",
    "quiet: queued, grafted for it",
    "quiet: dispatch",
    "quiet: dispatch handed back and noted",
    "quiet: dispatch to the panel itself",
    "quiet: announce",
];

/// How often each name was told. A name is known by the place of its text, which is sooner compared than the text; the same text may have several places.
#[derive(Default)]
struct Hits(BTreeMap<(*const u8, usize), (&'static str, u64)>);

impl Hits {
    /// Answers whether the name is told for the first time.
    fn tell(&mut self, name: &'static str) -> bool {
        let (_, times) = self.0.entry((name.as_ptr(), name.len())).or_insert((name, 0));
        *times += 1;
        *times == 1
    }

    fn times(&self, name: &str) -> u64 {
        self.0.values().filter(|e| e.0 == name).map(|e| e.1).sum()
    }

    fn names(&self) -> BTreeSet<&'static str> {
        self.0.values().map(|e| e.0).collect()
    }
}

/// Paths with the number of calls that took them, and what made blocks not whole.
#[derive(Default)]
pub struct Paths {
    hits: Hits,
    /// Lists without and with events of kind 5, their calls, and those of kind 5 that were accepted.
    lists: [[u64; 2]; 2],
    told_quiet: u64,
    /// The neighbours of the list that went down while they were quiet.
    gone: BTreeSet<u64>,
    /// Those that an optimisation asked while they were quiet.
    asked: BTreeSet<u64>,
    faults: Hits,
    /// Calls of `plumtree_rewrite`.
    pub rewrites: u64,
    /// Calls of `plumtree_save` and `plumtree_return`.
    pub states: u64,
    /// Second panels that were alike, and the calls that they and the first went through.
    alike: (u64, u64),
    /// Second panels in another order.
    apart: Apart,
    last: &'static str,
}

fn find<'a>(notes: &'a Notes, peer: u64) -> &'a [(Id, u16)] {
    notes.iter().find(|e| e.0 == peer).map_or(&[], |e| &e.1)
}

fn has(notes: &Notes, peer: u64, id: &Id) -> bool {
    find(notes, peer).iter().any(|e| e.0 == *id)
}

struct Handed {
    peer: u64,
    back: bool,
    ids: Vec<Id>,
}

impl Paths {
    fn hit(&mut self, name: &'static str) {
        let is = |all: &[&str]| all.contains(&name);
        let known = || is(ALL) || is(FORGOTTEN) || is(RETIRED) || is(QUIET);
        assert!(!self.hits.tell(name) || known(), "{name}");
    }

    fn hit_if(&mut self, yes: bool, name: &'static str) {
        if yes {
            self.hit(name);
        }
    }

    /// A poke made the block not whole.
    pub fn fault(&mut self, why: &'static str) {
        self.faults.tell(why);
    }

    /// A path whose name is put together.
    fn hit_named(&mut self, name: String) {
        self.hit(ALL.iter().find(|n| **n == name).unwrap_or_else(|| panic!("{name}")));
    }

    /// A list begins.
    pub fn begins(&mut self) {
        self.gone.clear();
        self.asked.clear();
    }

    /// A list has ended after so many calls.
    pub fn ended(&mut self, quiet: bool, calls: u64) {
        let [lists, all] = &mut self.lists[usize::from(quiet)];
        *lists += 1;
        *all += calls;
    }

    /// How many lists there were without kind 5 and with it, and how many calls were answered 23.
    pub fn lists(&self) -> String {
        let [[lists, calls], [quiet, among]] = self.lists;
        let (told, retired) = (self.told_quiet, self.hits.times("answer 23"));
        format!("{calls} calls in {lists} lists without kind 5, {among} in {quiet} with it ({told} of kind 5 accepted); {retired} answered 23")
    }

    /// A creation with this answer.
    pub fn creation(&mut self, number: u64) {
        self.hit_named(format!("creation {number}"));
    }

    /// A question of *alike*.
    pub fn alike(&mut self, about: &'static str) {
        self.faults.tell(about);
    }

    /// Rewrites, and what they were about.
    pub fn rewritten(&mut self, r: &mut Rewriter) {
        self.rewrites += std::mem::take(&mut r.calls);
        for name in r.about.drain(..) {
            let first = self.faults.tell(name);
            assert!(!first || rewriting::ABOUT.contains(&name), "{name}");
        }
    }

    /// Savings and returns, and what they were about.
    pub fn kept(&mut self, k: &mut Keeper) {
        self.states += std::mem::take(&mut k.calls);
        for name in k.about.drain(..) {
            let first = self.faults.tell(name);
            assert!(!first || states::ABOUT.contains(&name), "{name}");
        }
    }

    /// What became of the second panel.
    pub fn seconds(&mut self, pair: &mut Pair) {
        if let Some(about) = pair.likeness.take() {
            self.alike(about);
            self.last = about;
        }
        let s = &mut pair.seconds;
        self.alike.0 += std::mem::take(&mut s.alike);
        self.alike.1 += std::mem::take(&mut s.calls);
        for (list, more) in std::mem::take(&mut s.apart) {
            let n = self.apart.entry(list).or_default();
            (0..3).for_each(|i| n[i] += more[i]);
        }
        for name in s.about.drain(..) {
            self.faults.tell(name);
            self.last = name;
        }
    }

    /// Two lists of calls of this kind led to what they should.
    pub fn by_calls(&self, kind: usize) -> Result<(), String> {
        match self.last == BY_CALLS[kind].0 {
            true => Ok(()),
            false => Err(format!("{}: {}", BY_CALLS[kind].0, self.last)),
        }
    }

    /// How many second panels there were, and what became of them.
    pub fn second_panels(&self) -> String {
        let (pairs, calls) = self.alike;
        let mut o = format!("second panels: {pairs} alike went through {calls} calls, 0 different");
        for (list, [all, chosen, followed]) in &self.apart {
            o += &format!(
                "\n    {list} in another order: {all}, told apart by chosen calls {chosen}, by those that followed {followed}"
            );
        }
        o
    }

    /// The link room of a call.
    pub fn rooms(&mut self, before: Option<&Snap>, rooms: &[(u64, u16)], answer: &Answer) {
        let Some(b) = before else { return };
        let sends: Vec<(u64, bool)> = wire::actions(&answer.actions)
            .iter()
            .filter_map(|a| match a {
                Action::Send { peer, back, .. } => Some((*peer, *back)),
                _ => None,
            })
            .collect();
        self.hit_if(!sends.is_empty() && rooms.len() > 34, "room: more entries than links");
        for (p, _) in &sends {
            let mine: Vec<u16> = rooms.iter().filter(|e| e.0 == *p).map(|e| e.1).collect();
            let other = mine.iter().any(|r| (*r == 0) != (mine[0] == 0));
            self.hit_if(other, "room: second entry of a peer, the first counts");
            let stranger = !b.eager.contains(p) && !b.lazy.contains(p);
            self.hit_if(stranger && !mine.is_empty(), "room of a stranger");
            let both = [true, false].map(|back| sends.contains(&(*p, back)));
            self.hit_if(both == [true, true], "room for some of a peer's sends");
        }
    }

    /// How an event is spelled. The reader of wire.rs must agree with the answer.
    pub fn spelled(&mut self, before: Option<&Snap>, event: &[u8], answer: &Answer) {
        let Some(b) = before.filter(|_| answer.number != 6) else {
            return;
        };
        let read = wire::reading(event);
        let told = Some(answer.number).filter(|n| matches!(n, 7..=9 | 23));
        assert_eq!(read.question, told, "{}", hex::encode(event));
        match (event.first(), told) {
            (Some(&wire::QUIET), Some(7)) => self.hit("up quiet: 7"),
            (Some(&wire::QUIET), Some(8)) => self.hit("up quiet: 8"),
            (Some(&wire::QUIET), Some(_)) => self.hit("up quiet: 9"),
            (Some(6), Some(8)) => self.hit("up quiet: kind 6 is 8"),
            _ => {}
        }
        match read.stop {
            None => self.padding(b.m as usize, event.len(), &read.message(), answer.number),
            Some(Stop::Long(f)) => {
                self.hit_named(format!("{}: 8 at its last allowed byte", f.name()))
            }
            Some(Stop::Padded(f)) => self.hit_named(format!("{}: 8 since it is padded", f.name())),
            Some(Stop::Cut(f, part)) if f.kinds().is_some_and(|all| part >= all) => {
                self.hit_named(format!("{}: cut, unknown so far", f.name()))
            }
            Some(Stop::Unknown(f, 2..)) => {
                self.hit_named(format!("{}: unknown at a later byte", f.name()))
            }
            _ => {}
        }
    }

    /// The numbers of a message, and how many bytes it has: up to the end of the event.
    fn padding(&mut self, m: usize, end: usize, numbers: &[Spelled], answer: u8) {
        let more: usize = numbers.iter().map(|n| n.long - n.shortest()).sum();
        if more == 0 {
            return;
        }
        let size = end - numbers[0].at;
        self.hit_if(answer == 10 && size - more <= m, "10 by padding alone");
        if answer != 0 {
            return;
        }
        self.hit_if(size == m, "M bytes by padding");
        for f in Field::INSIDE {
            let those = || numbers.iter().filter(|n| n.field == f && n.long > n.shortest());
            if those().next().is_some() {
                self.hit_named(format!("{}: padded", f.name()));
            }
            if those().any(|n| n.long == f.longest().0) {
                self.hit_named(format!("{}: of its greatest length", f.name()));
            }
        }
    }

    /// A broadcast with byte 1, behind its call: what was answered, and what the same with byte 0 would be.
    pub fn retired(
        &mut self,
        pair: &Pair,
        now: u64,
        rooms: &[(u64, u16)],
        event: &[u8],
        answer: &Answer,
    ) {
        if event.first() != Some(&1) {
            return;
        }
        let read = wire::reading(event);
        let whole = read.question == Some(23);
        match answer.number {
            5 => self.hit_if(whole, "byte 1: 5"),
            6 => self.hit_if(whole, "byte 1: 6"),
            8 => self.hit_if(event.ends_with(&[0x81, 0]), "byte 1: 8, the byte is padded"),
            9 => self.hit_if(read.retired(), "byte 1: 9"),
            _ => {}
        }
        if answer.number != 23 {
            return;
        }
        let mut swarm = event.to_vec();
        *swarm.last_mut().expect("a byte") = 0;
        let mut panel = pair.panel().copy();
        let Some(Seen::Broadcast { size, .. }) = panel.see(&swarm) else {
            panic!("no broadcast");
        };
        let s = pair.snap.as_deref().expect("a whole block");
        let a = panel.call(Some(&pair.limits), now, rooms, &swarm);
        self.hit(match a.number {
            0 => "byte 1: 23, byte 0 is accepted",
            13 => "byte 1: 23, byte 0 is 13",
            _ => "byte 1: 23, byte 0 is 14",
        });
        let due = |v: &[(u64, Id)]| v.iter().any(|e| e.0 <= now);
        let evicts = due(&s.rexp) || due(&s.cexp) || due(&s.gexp);
        self.hit_if(!s.init, "byte 1: 23, byte 0 is the first event");
        self.hit_if(!s.init && evicts, "byte 1: 23, byte 0 is the first event and evicts");
        self.hit_if(size as u64 > s.m, "byte 1: 23, byte 0 is too large");
        self.hit_if(!s.quiet.is_empty(), "byte 1: 23, some are quiet");
    }

    /// Takes in a call. `before` is none if the block was not whole, `seen` if the event isn't one.
    #[allow(clippy::too_many_arguments)]
    pub fn call(
        &mut self,
        before: Option<&Snap>,
        seen: Option<&Seen>,
        now: u64,
        answer: &Answer,
        out: usize,
        after: Option<&Snap>,
        damaged: bool,
    ) {
        self.hit(
            ALL[match answer.number {
                0 => 0,
                23 => 11,
                n => n as usize - 4,
            }],
        );
        if answer.number == 13 {
            for i in 0..12 {
                self.hit_if(
                    answer.over >> i & 1 == 1 && answer.over.count_ones() == 1,
                    ALL[12 + i],
                );
            }
        }
        let told = matches!(seen, Some(Seen::UpQuiet(_)));
        self.hit_if(told && answer.number == 13, "up quiet: 13 by neighbours");
        self.hit_if(answer.number == 14 && out + 1 == answer.need, "14 at one byte");
        self.hit_if(answer.number == 14 && answer.others <= out, "14 by what was forgotten alone");
        let (Some(b), Some(a), Some(seen)) = (before, after, seen) else {
            return;
        };
        if answer.number != 0 {
            return;
        }
        self.hit_if(damaged, "damaged and whole");
        self.hit_if(out > 0 && out == answer.need, "actions fill the output");
        let timed = !matches!(seen, Seen::Up(_) | Seen::Down(_) | Seen::UpQuiet(_));
        let first = timed && !b.init;
        let mut b = Cow::Borrowed(b);
        if first {
            self.hit("first event");
            let n = (b.received.len(), b.cache.len(), b.grafted.len());
            let b = b.to_mut();
            b.received.retain(|e| e.1 > now);
            b.cache.retain(|e| e.expires > now);
            b.grafted.retain(|e| e.expires > now);
            self.hit_if(b.received.len() < n.0, "first event evicts received");
            self.hit_if(b.cache.len() < n.1, "first event evicts cached");
            self.hit_if(b.grafted.len() < n.2, "first event evicts grafted");
        }
        self.forgotten(before.expect("a state"), a, seen, now, answer, first);
        self.event(&b, a, seen, now, answer, first);
        self.quiet(&b, a, seen, answer);
    }

    /// What was told as forgotten; `b` is the state before the call.
    fn forgotten(
        &mut self,
        b: &Snap,
        a: &Snap,
        seen: &Seen,
        now: u64,
        answer: &Answer,
        first: bool,
    ) {
        let told = &answer.forgotten;
        let several = told.len() > 1;
        if first {
            self.hit_if(told.len() == 1, "first event tells one");
            self.hit_if(several, "first event tells several");
            let evict = matches!(seen, Seen::Evict);
            self.hit_if(evict && !told.is_empty(), "first event tells, and is EvictCache");
            let anew = told.iter().any(|id| a.cache.iter().any(|c| c.id == *id));
            self.hit_if(anew, "first event tells what it caches anew");
        } else if matches!(seen, Seen::Evict) {
            self.hit_if(told.is_empty(), "evict tells none");
            self.hit_if(told.len() == 1, "evict tells one");
            self.hit_if(several, "evict tells several");
        }
        if told.is_empty() {
            return;
        }
        // The rows that are due and have their key's time; the first of a key takes it out, the last is the one that the entry names.
        let expires: BTreeMap<Id, u64> = b.cache.iter().map(|c| (c.id, c.expires)).collect();
        let due: Vec<Id> = b
            .cexp
            .iter()
            .filter(|(t, id)| *t <= now && expires.get(id) == Some(t))
            .map(|e| e.1)
            .collect();
        self.hit_if(
            due.len() > told.len(),
            "evict tells a key with the first of its two rows of one time",
        );
        let last = |i: usize| !due[i + 1..].contains(&due[i]);
        let by_last: Vec<Id> = (0..due.len()).filter(|i| last(*i)).map(|i| due[i]).collect();
        self.hit_if(
            by_last != *told,
            "evict tells in another order than the rows that the entries name",
        );
    }

    fn event(&mut self, b: &Snap, a: &Snap, seen: &Seen, now: u64, answer: &Answer, first: bool) {
        let acts = wire::actions(&answer.actions);
        let handed: Vec<Handed> = acts
            .iter()
            .filter_map(|x| match x {
                Action::Send { peer, back, message } => Some(Handed {
                    peer: *peer,
                    back: *back,
                    ids: match message {
                        Message::Gossip { id, round: Some(_), .. } => vec![*id],
                        Message::IHave(l) => l.iter().map(|e| e.0).collect(),
                        _ => vec![],
                    },
                }),
                _ => None,
            })
            .collect();
        self.records(a, b, &handed, matches!(seen, Seen::Dispatch));
        match seen {
            Seen::Gossip { peer, id, content, round, valid } => {
                if !valid {
                    return self.hit("gossip not valid");
                }
                if b.received.iter().any(|e| e.0 == *id) {
                    return self.duplicate(b, *peer, id, *round);
                }
                match round {
                    None => self.hit("gossip new Neighbors"),
                    Some(r) => self.new_swarm(b, a, *peer, id, content, *r, &acts),
                }
            }
            Seen::Prune(p) => self.hit(match (b.eager.contains(p), b.lazy.contains(p)) {
                (true, _) => "prune from eager",
                (_, true) => "prune from lazy",
                _ => "prune from stranger",
            }),
            Seen::Graft { peer, id, .. } => self.graft(b, *peer, id.as_ref(), &handed),
            Seen::IHave { peer, list } => self.ihave(b, *peer, list),
            Seen::Broadcast { content, size } => self.broadcast(b, content, *size),
            Seen::SendGraft(id) => self.send_graft(b, id, &handed),
            Seen::Dispatch => self.dispatch(b, &acts, &handed),
            Seen::Announce => self.announce(b, a),
            Seen::Evict => self.evict(b, a, now, first),
            Seen::Up(p) => {
                self.hit(match (b.eager.contains(p), b.lazy.contains(p)) {
                    (true, _) => "up eager",
                    (_, true) => "up lazy",
                    _ => "up new",
                });
                self.hit_if(*p == b.me, "up the panel itself");
                self.hit_if(b.eager.len() + b.lazy.len() == 31, "up with 31 neighbours");
            }
            Seen::Down(p) => self.down(b, a, *p),
            Seen::UpQuiet(p) => self.up_quiet(b, a, *p),
        }
    }

    fn up_quiet(&mut self, b: &Snap, a: &Snap, p: u64) {
        self.told_quiet += 1;
        self.hit(match (b.eager.contains(&p), b.lazy.contains(&p), b.quiet.contains(&p)) {
            (true, _, _) => "up quiet: eager",
            (_, _, true) => "up quiet: quiet already",
            (_, true, _) => "up quiet: lazy",
            _ => "up quiet: stranger",
        });
        self.hit_if(p == b.me, "up quiet: the panel itself");
        self.hit_if(!b.init && !a.init, "up quiet: before the first event");
        self.hit_if(!find(&a.queue, p).is_empty(), "up quiet: with queue");
        self.hit_if(!find(&a.dropped, p).is_empty(), "up quiet: with record");
        let mine = |v: &[(u64, u16)]| v.iter().any(|e| e.0 == p);
        self.hit_if(a.missing.iter().any(|e| mine(&e.1)), "up quiet: announcer");
        self.hit_if(a.grafted.iter().any(|g| mine(&g.peers)), "up quiet: grafted");
    }

    /// What became of quiet neighbours; `b` is the state before the call, behind a first event's eviction.
    fn quiet(&mut self, b: &Snap, a: &Snap, seen: &Seen, answer: &Answer) {
        if let Seen::Up(p) = seen {
            self.hit_if(b.quiet.contains(p), "up: quiet so far");
            let again = self.gone.remove(p) && a.eager.contains(p);
            self.hit_if(again, "up: down since it was quiet");
        }
        if b.quiet.is_empty() {
            return;
        }
        let quiet = |p: &u64| b.quiet.contains(p);
        let acts = wire::actions(&answer.actions);
        let sends: Vec<(u64, bool, &Message)> = acts
            .iter()
            .filter_map(|x| match x {
                Action::Send { peer, back, message } => Some((*peer, *back, message)),
                _ => None,
            })
            .collect();
        let pushed = sends.iter().any(|s| matches!(s.2, Message::Gossip { .. }));
        match seen {
            Seen::Down(p) if quiet(p) => {
                self.gone.insert(*p);
                self.hit("down: quiet");
                self.hit_if(!find(&b.queue, *p).is_empty(), "down: quiet, with queue");
                self.hit_if(!find(&b.dropped, *p).is_empty(), "down: quiet, with record");
            }
            Seen::Graft { peer, id, .. } if quiet(peer) => self.hit(match (id, sends.first()) {
                (None, _) => "quiet: Graft without identifier",
                (_, None) => "quiet: Graft not cached",
                (_, Some((_, false, _))) => "quiet: Graft cached, taken",
                (Some(id), _) if has(&b.dropped, *peer, id) => "quiet: Graft cached, noted already",
                _ => "quiet: Graft cached, handed back and noted",
            }),
            Seen::Prune(p) if quiet(p) => self.hit("quiet: Prune"),
            Seen::IHave { peer, .. } if quiet(peer) => self.hit("quiet: IHave"),
            Seen::SendGraft(_) => {
                let asked = sends.iter().find(|s| quiet(&s.0));
                self.hit_if(asked.is_some(), "quiet: sendgraft");
                self.hit_if(asked.is_some_and(|s| s.1), "quiet: sendgraft handed back");
            }
            Seen::Dispatch => {
                self.hit_if(sends.iter().any(|s| quiet(&s.0)), "quiet: dispatch");
                let mine = sends.iter().any(|s| quiet(&s.0) && s.0 == b.me);
                self.hit_if(mine, "quiet: dispatch to the panel itself");
                let more = |p: u64| find(&a.dropped, p).len() > find(&b.dropped, p).len();
                let noted = sends.iter().any(|s| quiet(&s.0) && s.1 && more(s.0));
                self.hit_if(noted, "quiet: dispatch handed back and noted");
            }
            Seen::Announce => {
                let moved = |p: &u64| find(&a.queue, *p).len() > find(&b.queue, *p).len();
                self.hit_if(b.quiet.iter().any(moved), "quiet: announce");
            }
            Seen::Broadcast { size, .. } if *size as u64 <= b.m => {
                let all = b.eager.is_empty() && b.lazy == b.quiet;
                self.hit_if(all, "quiet: broadcast Swarm, all are quiet");
                self.hit_if(quiet(&b.me), "quiet: broadcast Swarm, the panel itself");
                self.hit_if(pushed, "quiet: queued, eager ones sent to");
            }
            Seen::Gossip { peer, id, round, valid: true, .. } => {
                match b.received.iter().any(|e| e.0 == *id) {
                    true => self.quiet_duplicate(b, *peer, id, *round, &sends),
                    false => self.quiet_new(b, *peer, id, *round, &sends),
                }
            }
            _ => {}
        }
    }

    /// A late reply that would be one but for a mark: its other tests say yes.
    fn quiet_duplicate(
        &mut self,
        b: &Snap,
        p: u64,
        id: &Id,
        round: Option<u16>,
        sends: &[(u64, bool, &Message)],
    ) {
        let quiet = |p: &u64| b.quiet.contains(p);
        let pruned = sends.iter().any(|s| s.0 == p && matches!(s.2, Message::Prune));
        self.hit_if(quiet(&p) && pruned, "quiet: duplicate");
        let Some(g) = b.grafted.iter().find(|g| g.id == *id) else {
            return;
        };
        let Some((f, hops)) = g.first else {
            return;
        };
        let in_peers = |q: u64| g.peers.iter().any(|e| e.0 == q);
        if !in_peers(p) {
            return;
        }
        if f == p || g.kept == Some(p) {
            return self.hit_if(quiet(&p), "quiet: late, first again");
        }
        if in_peers(f) || !round.is_some_and(|r| r <= hops) {
            return;
        }
        let eager = |p: &u64| b.eager.contains(p);
        let alone = quiet(&p) && eager(&f);
        self.hit_if(alone && pruned, "quiet: late, the grafted sender alone stands against");
        let alone = quiet(&f) && eager(&p);
        self.hit_if(alone && pruned, "quiet: late, first alone stands against");
    }

    /// A new message.
    fn quiet_new(
        &mut self,
        b: &Snap,
        p: u64,
        id: &Id,
        round: Option<u16>,
        sends: &[(u64, bool, &Message)],
    ) {
        let quiet = |p: &u64| b.quiet.contains(p);
        if round.is_none() {
            return;
        }
        let pushed = sends.iter().any(|s| matches!(s.2, Message::Gossip { .. }));
        self.hit_if(quiet(&p), "quiet: new Swarm from it");
        self.hit_if(quiet(&p) && pushed, "quiet: new Swarm from it, pushed to eager ones");
        let queued: Vec<u64> = b.quiet.iter().copied().filter(|q| *q != p).collect();
        self.hit_if(!queued.is_empty() && pushed, "quiet: queued, eager ones sent to");
        if let Some(g) = b.grafted.iter().find(|g| g.id == *id) {
            let grafted = queued.iter().any(|q| g.peers.iter().any(|e| e.0 == *q));
            self.hit_if(grafted, "quiet: queued, grafted for it");
        }
        let sent = |is: fn(&Message) -> bool| sends.iter().find(|s| is(s.2)).map(|s| s.0);
        let graft = sent(|m| matches!(m, Message::Graft { id: None, .. }));
        let prune = sent(|m| matches!(m, Message::Prune));
        let best = graft.filter(quiet).is_some();
        self.hit_if(best, "quiet: optimise, the best announcer");
        let again = best && !self.asked.insert(graft.expect("a peer"));
        self.hit_if(again, "quiet: optimise, the best announcer again");
        self.hit_if(prune.filter(quiet).is_some(), "quiet: optimise, the sender");
        self.hit_if(best && graft == prune, "quiet: optimise, both");
    }

    /// What became of the identifiers handed back.
    fn records(&mut self, a: &Snap, b: &Snap, handed: &[Handed], dispatch: bool) {
        let cached = |id: &Id| a.cache.iter().any(|c| c.id == *id);
        for h in handed.iter().filter(|h| h.back) {
            for id in &h.ids {
                let (was, is) = (has(&b.dropped, h.peer, id), has(&a.dropped, h.peer, id));
                if was {
                    let name = if dispatch {
                        "dispatch handed back, noted already"
                    } else {
                        "push handed back, noted already"
                    };
                    self.hit(name);
                } else if is {
                    self.hit("push handed back, noted");
                } else if !cached(id) {
                    self.hit_if(dispatch, "dispatch handed back, not cached");
                } else if find(&a.dropped, h.peer).len() >= 256 {
                    self.hit("record full at 256");
                } else {
                    self.hit("record full at 4,096");
                }
            }
        }
        self.hit_if(!b.announce && a.announce, "push handed back, schedules announce");
    }

    fn duplicate(&mut self, b: &Snap, p: u64, id: &Id, round: Option<u16>) {
        let (eager, lazy) = (b.eager.contains(&p), b.lazy.contains(&p));
        if let Some(g) = b.grafted.iter().find(|g| g.id == *id) {
            let in_peers = |q: u64| g.peers.iter().any(|e| e.0 == q);
            match g.first {
                None => self.hit("late not: no first"),
                Some(_) if !in_peers(p) => self.hit("late not: sender not grafted"),
                Some((f, _)) if f == p => return self.hit("late: first again"),
                Some(_) if g.kept == Some(p) => return self.hit("late: kept again"),
                Some(_) if round.is_none() => self.hit("late not: Neighbors"),
                Some((_, r)) if round.unwrap() > r => self.hit("late not: more hops"),
                Some((f, _)) if in_peers(f) => self.hit("late not: first grafted"),
                Some(_) if !eager => self.hit("late not: sender lazy"),
                Some((f, _)) if b.lazy.contains(&f) => self.hit("late not: first not eager"),
                Some((f, _)) if !b.eager.contains(&f) => self.hit("late not: first stranger"),
                Some(_) => return self.hit("late: faster"),
            }
        }
        self.hit_if(round.is_none(), "duplicate Neighbors");
        self.hit_if(round == Some(65535), "duplicate of round 65,535");
        self.hit(match (eager, lazy) {
            (true, _) => "duplicate from eager",
            (_, true) => "duplicate from lazy",
            _ => "duplicate from stranger",
        });
    }

    #[allow(clippy::too_many_arguments)]
    fn new_swarm(
        &mut self,
        b: &Snap,
        a: &Snap,
        p: u64,
        id: &Id,
        content: &[u8],
        r: u16,
        acts: &[Action],
    ) {
        let neighbour = b.eager.contains(&p) || b.lazy.contains(&p);
        self.hit(match neighbour {
            true => "gossip new Swarm from neighbour",
            false => "gossip new Swarm from stranger",
        });
        self.hit_if(p == b.me, "gossip new Swarm from panel itself");
        self.hit_if(b.cache.iter().any(|c| c.id == *id), "gossip new Swarm while cached");
        self.hit_if(content.is_empty(), "gossip new Swarm of content length 0");
        self.hit_if(b.timers.contains(id), "gossip new clears timer");
        self.hit_if(p != b.me && b.lazy.contains(&b.me), "gossip queued for the panel itself");
        let _ = a;
        let sends: Vec<_> = acts
            .iter()
            .filter_map(|x| match x {
                Action::Send { peer, back, message } => Some((*peer, *back, message)),
                _ => None,
            })
            .collect();
        if sends.iter().any(|s| matches!(s.2, Message::Gossip { .. })) {
            self.hit_if(r == 127, "round 127 forwarded");
            self.hit_if(r == 16383, "round 16,383 forwarded");
            self.hit_if(r == 65534, "round 65,534 forwarded");
        }
        let mut out = false;
        if let Some(g) = b.grafted.iter().find(|g| g.id == *id) {
            self.hit("gossip new sets first");
            let skipped = g.peers.iter().any(|e| e.0 != p && e.0 != b.me && b.eager.contains(&e.0));
            self.hit_if(skipped, "gossip new skips grafted");
            out = g.peers.iter().any(|e| e.1 <= r) && !g.peers.iter().any(|e| e.0 == p);
        }
        let Some((_, v)) = b.missing.iter().find(|e| e.0 == *id) else {
            return;
        };
        self.hit("gossip new clears announcers");
        if !neighbour {
            return;
        }
        if out {
            return self.hit("gossip graft out, no optimise");
        }
        let (best, near) = *v.iter().min_by_key(|e| e.1).unwrap();
        if near > r {
            return self.hit("optimise not, no fewer hops");
        }
        if u64::from(r + 1 - near) < b.cfg[3] {
            return self.hit("optimise not, under threshold");
        }
        if b.eager.contains(&best) {
            return self.hit("optimise without Graft");
        }
        self.hit("optimise with Graft");
        self.hit_if(best == p, "optimise, sender is the best announcer");
        let back = |k: fn(&Message) -> bool| sends.iter().any(|s| s.1 && k(s.2));
        let both =
            back(|m| matches!(m, Message::Graft { .. })) && back(|m| matches!(m, Message::Prune));
        self.hit_if(both, "optimise, both handed back");
    }

    fn graft(&mut self, b: &Snap, p: u64, id: Option<&Id>, handed: &[Handed]) {
        if !b.eager.contains(&p) && !b.lazy.contains(&p) {
            return self.hit("graft from stranger");
        }
        self.hit_if(b.lazy.contains(&p), "graft from lazy");
        let Some(id) = id else {
            return self.hit("graft without identifier");
        };
        match handed.first() {
            None => self.hit("graft not cached"),
            Some(h) if !h.back => self.hit("graft cached, taken"),
            Some(_) if has(&b.dropped, p, id) => self.hit("graft cached, noted already"),
            Some(_) => self.hit("graft cached, handed back and noted"),
        }
    }

    fn ihave(&mut self, b: &Snap, p: u64, list: &[(Id, u16)]) {
        if !b.eager.contains(&p) && !b.lazy.contains(&p) {
            return self.hit("ihave from stranger");
        }
        self.hit_if(list.is_empty(), "ihave empty");
        self.hit_if(list.len() as u64 >= b.m / 34 - 1, "ihave as many as fit");
        for (i, (id, _)) in list.iter().enumerate() {
            if b.received.iter().any(|e| e.0 == *id) {
                self.hit("ihave received");
                continue;
            }
            if list[..i].iter().any(|e| e.0 == *id) {
                self.hit("ihave repeated in message");
                continue;
            }
            let timer = b.timers.contains(id);
            match b.missing.iter().find(|e| e.0 == *id) {
                None => {
                    self.hit("ihave new");
                    self.hit_if(timer, "ihave of timer without announcers");
                }
                Some((_, v)) => {
                    self.hit(match v.iter().any(|e| e.0 == p) {
                        true => "ihave known, same peer",
                        false => "ihave known, other peer",
                    });
                    self.hit_if(!timer, "ihave of missing without timer");
                }
            }
        }
    }

    fn send_graft(&mut self, b: &Snap, id: &Id, handed: &[Handed]) {
        if b.received.iter().any(|e| e.0 == *id) {
            return self.hit("sendgraft received");
        }
        let Some((_, v)) = b.missing.iter().find(|e| e.0 == *id) else {
            return self.hit("sendgraft unknown");
        };
        self.hit(match v.len() {
            1 => "sendgraft last announcer",
            _ => "sendgraft announcers left",
        });
        let (p, r) = v[0];
        self.hit_if(handed.iter().any(|h| h.back), "sendgraft handed back");
        self.hit_if(b.lazy.contains(&p), "sendgraft to lazy");
        match b.grafted.iter().find(|g| g.id == *id) {
            None => self.hit("sendgraft new entry"),
            Some(g) => match g.peers.iter().find(|e| e.0 == p) {
                None => self.hit("sendgraft entry known, new peer"),
                Some(e) if r < e.1 => self.hit("sendgraft entry known, less round"),
                Some(_) => self.hit("sendgraft entry known, no less round"),
            },
        }
    }

    fn dispatch(&mut self, b: &Snap, acts: &[Action], handed: &[Handed]) {
        self.hit_if(b.queue.is_empty(), "dispatch empty");
        let k = ((b.m - 6) / 35) as usize;
        for (p, l) in &b.queue {
            self.hit(if l.len() <= k { "dispatch one chunk" } else { "dispatch many chunks" });
            self.hit_if(l.len() % k == 0, "dispatch full chunk exactly");
            let mine: Vec<_> = handed.iter().filter(|h| h.peer == *p).collect();
            let back = mine.iter().filter(|h| h.back).count();
            self.hit_if(back > 0, "dispatch chunk handed back");
            self.hit_if(
                back > 0 && back < mine.len(),
                "dispatch some chunks of a peer handed back",
            );
            let mut ids: Vec<_> =
                mine.iter().filter(|h| h.back).flat_map(|h| h.ids.iter()).collect();
            let n = ids.len();
            ids.sort();
            ids.dedup();
            self.hit_if(ids.len() < n, "dispatch handed back twice in a queue");
        }
        let between = acts
            .windows(3)
            .any(|w| matches!(w, [Action::Send { .. }, Action::Schedule(_), Action::Send { .. }]));
        self.hit_if(between, "dispatch schedules announce between sends");
    }

    fn announce(&mut self, b: &Snap, a: &Snap) {
        self.hit_if(b.dropped.is_empty(), "announce empty");
        let cached = |id: &Id| b.cache.iter().any(|c| c.id == *id);
        let gone = b.dropped.iter().any(|(_, l)| l.iter().any(|e| !cached(&e.0)));
        self.hit_if(gone, "announce filters uncached");
        let left = !a.dropped.is_empty();
        self.hit_if(left, "announce moves 64 and leaves some");
        self.hit_if(!b.dropped.is_empty() && !left, "announce leaves nothing");
        let onto = b.queue.iter().any(|e| !find(&b.dropped, e.0).is_empty());
        self.hit_if(onto, "announce onto a queue");
        self.hit_if(!b.dispatch && a.dispatch, "announce schedules dispatch");
    }

    fn evict(&mut self, b: &Snap, a: &Snap, now: u64, first: bool) {
        if first {
            return self.hit("evict first, twice");
        }
        let due = |v: &[(u64, Id)]| v.iter().filter(|e| e.0 <= now).count();
        let rows = due(&b.rexp) + due(&b.cexp) + due(&b.gexp);
        let keys = b.received.len() + b.cache.len() + b.grafted.len();
        let left = a.received.len() + a.cache.len() + a.grafted.len();
        self.hit_if(rows == 0, "evict nothing");
        self.hit_if(left < keys, "evict removes an entry");
        self.hit_if(rows > keys - left, "evict pops a stale row only");
        let equal = |v: &[(u64, Id)]| v.windows(2).any(|w| w[0].0 == w[1].0 && w[0].0 == now);
        self.hit_if(equal(&b.cexp) || equal(&b.rexp), "evict: equal times");
    }

    fn down(&mut self, b: &Snap, a: &Snap, p: u64) {
        if !b.eager.contains(&p) && !b.lazy.contains(&p) {
            return self.hit("down stranger");
        }
        let mine = |v: &[(u64, u16)]| v.iter().any(|e| e.0 == p);
        let left = b.missing.iter().any(|e| mine(&e.1) && e.1.len() > 1);
        self.hit_if(left, "down announcer, others left");
        self.hit_if(a.missing.len() < b.missing.len(), "down last announcer");
        self.hit_if(!find(&b.queue, p).is_empty(), "down with queue");
        self.hit_if(!find(&b.dropped, p).is_empty(), "down with record");
        self.hit_if(b.grafted.iter().any(|g| mine(&g.peers)), "down grafted");
    }

    fn broadcast(&mut self, b: &Snap, content: &[u8], size: usize) {
        if size as u64 > b.m {
            return self.hit("broadcast Swarm too large");
        }
        self.hit_if(b.eager.contains(&b.me), "broadcast to eager panel itself");
        self.hit_if(size as u64 == b.m, "broadcast Swarm of largest size");
        let id = oracle::identifier(content);
        self.hit(match b.received.iter().any(|e| e.0 == id) {
            true => "broadcast Swarm again",
            false => "broadcast Swarm new",
        });
        let announced = b.missing.iter().any(|e| e.0 == id);
        self.hit_if(announced, "broadcast Swarm to announced");
    }

    /// The paths that calls took, without those of what was forgotten.
    pub fn names(&self) -> impl Iterator<Item = &'static str> + '_ {
        self.hits.names().into_iter().filter(|n| !FORGOTTEN.contains(n))
    }

    /// Every path, with the number of times it was taken.
    fn all(&self) -> Vec<(u64, String)> {
        let calls = ALL.iter().chain(FORGOTTEN).chain(RETIRED).chain(QUIET);
        let calls = calls.map(|k| (self.hits.times(k), k.to_string()));
        let faults = block::FAULTS.iter().map(|k| (self.faults.times(k), format!("not whole: {k}")));
        let alike = likeness::ABOUT.iter().map(|k| (self.faults.times(k), k.to_string()));
        let rewritten = rewriting::ABOUT.iter().map(|k| (self.faults.times(k), k.to_string()));
        let kept = states::ABOUT.iter().map(|k| (self.faults.times(k), k.to_string()));
        let seconds = second::ABOUT.iter().copied().chain(second::by_calls());
        let seconds = seconds.map(|k| (self.faults.times(k), k.to_string()));
        calls.chain(faults).chain(alike).chain(rewritten).chain(kept).chain(seconds).collect()
    }

    /// What was counted, to be added to that of other runs: lines of a kind, a number and a name, with tabs between.
    pub fn sums(&self) -> String {
        let mut o = String::new();
        let mut line = |kind: &str, n: u64, name: &str| o += &format!("{kind}\t{n}\t{name}\n");
        for (n, name) in self.all() {
            line("path", n, &name);
        }
        let [[lists, calls], [quiet, among]] = self.lists;
        line("total", calls + among, "calls");
        line("total", self.rewrites, "rewrites");
        line("total", self.states, "savings and returns");
        line("total", lists + quiet, "lists");
        line("total", calls, "calls in lists without kind 5");
        line("total", lists, "lists without kind 5");
        line("total", among, "calls in lists with kind 5");
        line("total", quiet, "lists with kind 5");
        line("total", self.told_quiet, "events of kind 5 accepted");
        line("total", self.alike.0, "second panels alike");
        line("total", self.alike.1, "calls of second panels alike");
        for (list, [all, chosen, followed]) in &self.apart {
            line("apart", *all, list);
            line("apart by chosen calls", *chosen, list);
            line("apart by those that followed", *followed, list);
        }
        o
    }

    /// How many paths no call took.
    pub fn never(&self) -> usize {
        self.all().iter().filter(|e| e.0 == 0).count()
    }

    /// A table of all paths, or with `brief` only those never taken.
    pub fn table(&self, brief: bool) -> String {
        let mut o = String::new();
        let all = self.all();
        for (n, name) in all.iter().filter(|e| e.0 > 0 && !brief) {
            o += &format!("{n:>12}  {name}\n");
        }
        o += &format!("paths hit: {} of {}\n", all.len() - self.never(), all.len());
        for (_, name) in all.iter().filter(|e| e.0 == 0) {
            o += &format!("       never  {name}\n");
        }
        o
    }
}
