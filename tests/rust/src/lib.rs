//! Runs the Rust of `plumtree.rs` and `util.rs`, unchanged: as a panel that is called (`Panel`), or
//! on a text script (`Oracle`, see README.md for the commands).
#![allow(dead_code)]

mod proto;
pub mod snap;

use std::collections::BTreeSet;

use bytes::Bytes;
use n0_future::time::{Duration, Instant};
use postcard::{put_number, De, Error};
use proto::{
    plumtree::{self, oracle, Config, InEvent, MessageId, Scope, State, Timer},
    topic::{self, IO},
};
pub use proto::plumtree::oracle::Seen;
use snap::Snap;

/// An event of the specification.
enum Ev {
    In(InEvent<u64>),
    Up(u64),
    Down(u64),
    /// Kind 5, which the Rust has not.
    UpQuiet(u64),
}

fn question(e: Error) -> u8 {
    match e {
        Error::End => 7,
        Error::Bad => 8,
        Error::Unsupported => unreachable!("a form outside the messages"),
    }
}

/// Reads an event; the error is the number of the first question (7, 8, 9, 23, 10) answered no. So the Rust gets no broadcast to its neighbours only.
fn read_event(bytes: &[u8], m: usize) -> Result<Ev, u8> {
    let mut de = De::new(bytes);
    let mut size = 0;
    let ev = read_kinds(&mut de, &mut size).map_err(question)?;
    if !de.rest.is_empty() {
        return Err(9);
    }
    if matches!(ev, Ev::In(InEvent::Broadcast(_, Scope::Neighbors))) {
        return Err(23);
    }
    if size > m {
        return Err(10);
    }
    Ok(ev)
}

/// Reads an event's fields: a received message in plain Postcard, all else shortest. `size` becomes
/// the number of the message's bytes as received.
fn read_kinds(de: &mut De<'_>, size: &mut usize) -> Result<Ev, Error> {
    Ok(match de.byte()? {
        0 => {
            let peer = de.number(64)?;
            let before = de.rest.len();
            let message = de.read_plain::<plumtree::Message>()?;
            *size = before - de.rest.len();
            Ev::In(InEvent::RecvMessage(peer, message))
        }
        1 => {
            let len = de.number(64)?;
            let content = Bytes::copy_from_slice(de.take(len)?);
            let scope = de.read::<Scope>()?;
            Ev::In(InEvent::Broadcast(content, scope))
        }
        2 => Ev::In(InEvent::TimerExpired(match de.byte()? {
            0 => Timer::SendGraft(de.read::<MessageId>()?),
            1 => Timer::DispatchLazyPush,
            2 => Timer::EvictCache,
            3 => Timer::AnnounceDropped,
            _ => return Err(Error::Bad),
        })),
        3 => Ev::Up(de.number(64)?),
        4 => Ev::Down(de.number(64)?),
        5 => Ev::UpQuiet(de.number(64)?),
        _ => return Err(Error::Bad),
    })
}

/// The stand-in of `IO`: link room decides what is taken; actions go to bytes.
struct Io<'a> {
    rooms: &'a [(u64, u16)],
    sent: Vec<(u64, u64)>,
    out: Vec<u8>,
}

impl IO<u64> for Io<'_> {
    fn send(
        &mut self,
        peer: u64,
        message: impl Into<topic::Message<u64>>,
    ) -> Option<topic::Message<u64>> {
        let message = message.into();
        let k = match self.sent.iter_mut().find(|(p, _)| *p == peer) {
            Some((_, k)) => {
                *k += 1;
                *k
            }
            None => {
                self.sent.push((peer, 1));
                1
            }
        };
        let room = self.rooms.iter().find(|(p, _)| *p == peer);
        let taken = room.is_none_or(|(_, room)| k <= u64::from(*room));
        self.out.push(1);
        put_number(&mut self.out, peer);
        self.out.push(!taken as u8);
        let topic::Message::Gossip(inner) = &message else {
            unreachable!("no membership layer")
        };
        self.out.extend(postcard::to_vec(inner).unwrap());
        if taken {
            None
        } else {
            Some(message)
        }
    }

    fn emit(&mut self, event: topic::Event<u64>) {
        let topic::Event::Received(e) = event else {
            unreachable!("no membership layer")
        };
        self.out.push(3);
        put_number(&mut self.out, e.delivered_from);
        put_number(&mut self.out, e.content.len() as u64);
        self.out.extend_from_slice(&e.content);
        self.out.extend(postcard::to_vec(&e.scope).unwrap());
    }

    fn schedule(&mut self, delay: Duration, timer: impl Into<topic::Timer<u64>>) {
        let topic::Timer::Gossip(timer) = timer.into() else {
            unreachable!("no membership layer")
        };
        self.out.push(2);
        put_number(&mut self.out, delay.as_millis() as u64);
        match timer {
            Timer::SendGraft(id) => {
                self.out.push(0);
                self.out.extend_from_slice(id.as_bytes());
            }
            Timer::DispatchLazyPush => self.out.push(1),
            Timer::EvictCache => self.out.push(2),
            Timer::AnnounceDropped => self.out.push(3),
        }
    }
}

/// Limits in the order of the ceilings, and the output's space.
#[derive(Clone, Copy, Debug, PartialEq, Eq)]
pub struct Limits {
    pub max: [u64; 9],
    pub out: usize,
}

impl Limits {
    /// Which of the twelve sizes are over their limits, a bit each, in the order of `sizes`.
    fn over(&self, s: &State<u64>) -> u16 {
        let [_, r, c, _, g, ..] = self.max;
        let n = oracle::sizes(s);
        let max = |i: usize| match i {
            9 => 2 * r,
            10 => 2 * c,
            11 => 2 * g,
            _ => self.max[i],
        };
        (0..12).filter(|&i| n[i] > max(i)).map(|i| 1 << i).sum()
    }
}

/// What an event call answers: the number, the Rust's actions (none if refused), the identifiers that its evictions removed from the message
/// cache in order, which actions 4 tell (none if refused), and what stands behind a 13 or 14: the sizes over their limits, the bytes that all
/// these actions need, and that those but the actions 4 need.
#[derive(Clone, Debug, Default, PartialEq, Eq)]
pub struct Answer {
    pub number: u8,
    pub actions: Vec<u8>,
    pub forgotten: Vec<snap::Id>,
    pub over: u16,
    pub need: usize,
    pub others: usize,
}

/// An action 4 has so many bytes.
pub const FORGOTTEN: usize = 33;

impl Answer {
    /// All action bytes: an eviction's actions 4 stand before its schedule, and nothing stands before either.
    pub fn told(&self) -> Vec<u8> {
        let mut out = Vec::new();
        for id in &self.forgotten {
            out.push(4);
            out.extend(id);
        }
        out.extend(&self.actions);
        out
    }
}

fn refused(number: u8) -> Answer {
    Answer { number, ..Answer::default() }
}

/// Runs one event.
fn call(
    slot: &mut Panel,
    limits: Option<&Limits>,
    now: u64,
    rooms: &[(u64, u16)],
    bytes: &[u8],
) -> Answer {
    if now > 1 << 62 {
        return refused(6);
    }
    let ev = match read_event(bytes, oracle::max_size(&slot.state)) {
        Ok(ev) => ev,
        Err(no) => return refused(no),
    };
    if let Ev::In(InEvent::RecvMessage(_, m)) = &ev {
        let s = &slot.state.stats;
        let count = if oracle::is_gossip(m) {
            s.payload_messages_received
        } else {
            s.control_messages_received
        };
        if count == u64::MAX {
            return refused(11);
        }
        if oracle::overflows(&slot.state, Instant(now), m) {
            return refused(12);
        }
    }
    let saved = limits.map(|_| slot.copy());
    let forgotten = match &ev {
        Ev::In(e) => oracle::forgotten(&slot.state, Instant(now), e),
        Ev::Up(_) | Ev::Down(_) | Ev::UpQuiet(_) => Vec::new(),
    };
    let mut io = Io { rooms, sent: Vec::new(), out: Vec::new() };
    handle(slot, ev, now, &mut io);
    let need = FORGOTTEN * forgotten.len() + io.out.len();
    let mut answer = Answer { need, others: io.out.len(), ..Answer::default() };
    if let (Some(l), Some(saved)) = (limits, saved) {
        answer.over = l.over(&slot.state);
        if answer.over != 0 {
            answer.number = 13;
        } else if need > l.out {
            answer.number = 14;
        }
        if answer.number != 0 {
            *slot = saved;
            return answer;
        }
    }
    (answer.actions, answer.forgotten) = (io.out, forgotten);
    answer
}

/// The Rust's step. Quiet neighbours that it made eager are put back to lazy; nothing in one of its steps reads the eager set behind an `add_eager`, so
/// that is as if it had not made them eager. Kind 5 is the Rust's neighbour up.
fn handle(slot: &mut Panel, ev: Ev, now: u64, io: &mut Io<'_>) {
    let (state, quiet) = (&mut slot.state, &mut slot.quiet);
    match ev {
        Ev::In(e) => state.handle(e, Instant(now), io),
        Ev::Up(p) => {
            quiet.remove(&p);
            oracle::up(state, p);
        }
        Ev::Down(p) => {
            quiet.remove(&p);
            oracle::down(state, p);
        }
        Ev::UpQuiet(p) => {
            quiet.insert(p);
            oracle::up(state, p);
        }
    }
    oracle::put_back(state, quiet);
}

/// A panel run by the Rust, and its quiet neighbours, which the Rust does not know of.
pub struct Panel {
    state: State<u64>,
    /// Told by kind 5, and since then neither by kind 3 nor down.
    quiet: BTreeSet<u64>,
}

/// An event read from its bytes, to be given to `Panel::handle`.
pub struct Ready(Ev);

impl Panel {
    /// The state of `State::new`. The settings: own peer number, M, then the seven of `Config` in
    /// their order.
    pub fn new(me: u64, m: u64, cfg: [u64; 7]) -> Panel {
        Panel { state: State::new(me, config(cfg), m as usize), quiet: BTreeSet::new() }
    }

    /// The state that a `dump` line tells, counts zero.
    pub fn load(dump: &str) -> Option<Panel> {
        Panel::of(&Snap::read(dump)?)
    }

    /// The state of these values, counts zero.
    pub fn of(snap: &Snap) -> Option<Panel> {
        let (state, quiet) = oracle::unsnap(snap)?;
        Some(Panel { state, quiet })
    }

    pub fn snap(&self) -> Snap {
        oracle::snap(&self.state, &self.quiet)
    }

    pub fn copy(&self) -> Panel {
        Panel { state: oracle::clone(&self.state), quiet: self.quiet.clone() }
    }

    pub fn counts(&self) -> [u64; 3] {
        let s = &self.state.stats;
        [s.payload_messages_received, s.control_messages_received, s.max_last_delivery_hop.into()]
    }

    pub fn set_counts(&mut self, [p, c, h]: [u64; 3]) {
        let s = &mut self.state.stats;
        s.payload_messages_received = p;
        s.control_messages_received = c;
        s.max_last_delivery_hop = h as u16;
    }

    /// N R C B G S T Q D, then expiry entries of received, cached, grafted.
    pub fn sizes(&self) -> [u64; 12] {
        oracle::sizes(&self.state)
    }

    /// An event call: questions 6 to 14 (13 and 14 with limits only) and 23, then `handle`.
    pub fn call(
        &mut self,
        limits: Option<&Limits>,
        now: u64,
        rooms: &[(u64, u16)],
        event: &[u8],
    ) -> Answer {
        call(self, limits, now, rooms, event)
    }

    /// Reads an event for `handle`.
    pub fn ready(&self, event: &[u8]) -> Option<Ready> {
        read_event(event, oracle::max_size(&self.state)).ok().map(Ready)
    }

    /// The Rust's step alone; the actions go to `out`.
    pub fn handle(&mut self, ev: Ready, now: u64, rooms: &[(u64, u16)], out: &mut Vec<u8>) {
        let mut io = Io { rooms, sent: Vec::new(), out: std::mem::take(out) };
        handle(self, ev.0, now, &mut io);
        *out = io.out;
    }

    /// What an event is about; none if it is answered with 7 to 10 or 23.
    pub fn see(&self, event: &[u8]) -> Option<Seen> {
        Some(match read_event(event, oracle::max_size(&self.state)).ok()? {
            Ev::In(e) => oracle::see(e),
            Ev::Up(p) => Seen::Up(p),
            Ev::Down(p) => Seen::Down(p),
            Ev::UpQuiet(p) => Seen::UpQuiet(p),
        })
    }
}

/// A message alone, read in plain Postcard. Two are equal where the Rust's values are.
#[derive(Clone, Debug, PartialEq, Eq)]
pub struct Message(plumtree::Message);

impl Message {
    /// Reads a message; the error is the number of the first question (7 to 9) answered no.
    pub fn read(bytes: &[u8]) -> Result<Message, u8> {
        let mut de = De::new(bytes);
        let message = de.read_plain().map_err(question)?;
        if !de.rest.is_empty() {
            return Err(9);
        }
        Ok(Message(message))
    }

    /// As the Rust's serde writes it.
    pub fn to_bytes(&self) -> Vec<u8> {
        postcard::to_vec(&self.0).unwrap()
    }
}

/// The message in its shortest form; the error is the number of the first question (7 to 9, 14) answered no.
fn rewrite(message: &[u8], room: usize) -> Result<Vec<u8>, u8> {
    let form = Message::read(message)?.to_bytes();
    if form.len() > room {
        return Err(14);
    }
    Ok(form)
}

/// The identifier of a content.
pub fn identifier(content: &[u8]) -> snap::Id {
    *MessageId::from_content(content).as_bytes()
}

fn config(cfg: [u64; 7]) -> Config {
    let ms = Duration::from_millis;
    Config {
        graft_timeout_1: ms(cfg[0]),
        graft_timeout_2: ms(cfg[1]),
        dispatch_timeout: ms(cfg[2]),
        optimization_threshold: cfg[3] as u16,
        message_cache_retention: ms(cfg[4]),
        message_id_retention: ms(cfg[5]),
        cache_evict_interval: ms(cfg[6]),
    }
}

/// What `panelrun` writes for this input.
fn panel(bytes: &[u8]) -> Vec<u8> {
    let state = State::new(1, Config::default(), 4094);
    let mut panel = Panel { state, quiet: BTreeSet::new() };
    let limits = Limits { max: [8, 64, 32, 8192, 16, 16, 16, 64, 64], out: 40960 };
    let mut de = De::new(bytes);
    let mut out = Vec::new();
    while !de.rest.is_empty() {
        let record = (|| {
            let now = de.number(64)?;
            let len = de.number(64)?;
            if len > 16384 {
                return Err(Error::Bad);
            }
            Ok((now, de.take(len)?))
        })();
        let Ok((now, event)) = record else {
            out.extend([7, 0]);
            break;
        };
        let answer = call(&mut panel, Some(&limits), now, &[], event);
        let actions = answer.told();
        out.push(answer.number);
        put_number(&mut out, actions.len() as u64);
        out.extend(actions);
    }
    out
}

fn hex_or_dash(b: &[u8]) -> String {
    if b.is_empty() {
        "-".into()
    } else {
        hex::encode(b)
    }
}

fn unhex(s: &str) -> Option<Vec<u8>> {
    if s == "-" {
        Some(vec![])
    } else {
        hex::decode(s).ok()
    }
}

fn rooms(s: &str) -> Option<Vec<(u64, u16)>> {
    if s == "-" {
        return Some(vec![]);
    }
    s.split(',')
        .map(|e| {
            let (p, r) = e.split_once(':')?;
            Some((p.parse().ok()?, r.parse().ok()?))
        })
        .collect()
}

/// The panel that a script's commands go to.
#[derive(Default)]
pub struct Oracle {
    panel: Option<Panel>,
    limits: Option<Limits>,
}

impl Oracle {
    /// The answer to a command; `None` if the command is not understood.
    pub fn run(&mut self, words: &[&str]) -> Option<String> {
        let nums = |from: usize| -> Option<Vec<u64>> {
            words[from..].iter().map(|w| w.parse().ok()).collect()
        };
        Some(match words[0] {
            "new" => {
                let v = nums(1)?;
                let [me, m, gt1, gt2, dispatch, thresh, cacheret, idret, evict] = v[..] else {
                    return None;
                };
                if thresh > u16::MAX.into() {
                    return None;
                }
                let cfg = [gt1, gt2, dispatch, thresh, cacheret, idret, evict];
                let durations = [gt1, gt2, dispatch, cacheret, idret, evict];
                self.panel = None;
                self.limits = None;
                if !(510..=4094).contains(&m) {
                    return Some("bad 1".into());
                }
                if durations.iter().any(|d| *d > 1 << 40) {
                    return Some("bad 2".into());
                }
                self.panel = Some(Panel::new(me, m, cfg));
                "ok".into()
            }
            "limits" => {
                if words[1..] == ["-"] {
                    self.limits = None;
                    return Some("ok".into());
                }
                let v = nums(1)?;
                if v.len() != 10 {
                    return None;
                }
                let ceil = [32, 2048, 512, 1048576, 512, 512, 512, 8192, 4096];
                if (0..9).any(|i| v[i] < 1 || v[i] > ceil[i]) {
                    return Some("bad 3".into());
                }
                self.limits = Some(Limits { max: v[..9].try_into().ok()?, out: v[9] as usize });
                "ok".into()
            }
            "stats" => {
                let counts: [u64; 3] = nums(1)?.try_into().ok()?;
                u16::try_from(counts[2]).ok()?;
                self.panel.as_mut()?.set_counts(counts);
                "ok".into()
            }
            "ev" => {
                let [_, now, room, event] = words else { return None };
                let now = now.parse().ok()?;
                let room = rooms(room)?;
                let event = unhex(event)?;
                let panel = self.panel.as_mut()?;
                let answer = panel.call(self.limits.as_ref(), now, &room, &event);
                if answer.number != 0 {
                    return Some(format!("bad {}", answer.number));
                }
                let [payload, control, hops] = panel.counts();
                format!("ok {} {payload} {control} {hops}", hex_or_dash(&answer.actions))
            }
            "load" => {
                self.panel = Some(Panel::load(&words[1..].join(" "))?);
                "ok".into()
            }
            "dump" => self.panel.as_ref()?.snap().text(),
            "sizes" => {
                let n = self.panel.as_ref()?.sizes();
                n.map(|x| x.to_string()).join(" ")
            }
            "blake" => MessageId::from_content(&unhex(words.get(1)?)?).to_string(),
            "size" => {
                let [_, len, scope] = words else { return None };
                let scope = match *scope {
                    "S" => Scope::Swarm,
                    "N" => Scope::Neighbors,
                    _ => return None,
                };
                plumtree::max_gossip_size(len.parse().ok()?, scope).to_string()
            }
            "rewrite" => {
                let [_, message, room] = words else { return None };
                match rewrite(&unhex(message)?, room.parse().ok()?) {
                    Ok(form) => format!("ok {}", hex::encode(form)),
                    Err(no) => format!("bad {no}"),
                }
            }
            "panel" => hex_or_dash(&panel(&unhex(words.get(1)?)?)),
            _ => return None,
        })
    }
}
