//! Events written, events and actions read, in the specification's encoding.
use oracle::snap::Id;

pub fn number(out: &mut Vec<u8>, mut v: u64) {
    while v >= 128 {
        out.push((v % 128) as u8 | 128);
        v /= 128;
    }
    out.push(v as u8);
}

fn num(v: u64) -> Vec<u8> {
    let mut out = Vec::new();
    number(&mut out, v);
    out
}

/// A number in so many bytes, or in its shortest form if that has more.
pub fn spelling(v: u64, long: usize) -> Vec<u8> {
    let mut out = num(v);
    while out.len() < long {
        *out.last_mut().unwrap() |= 128;
        out.push(0);
    }
    out
}

/// `round` none is Neighbors.
pub fn gossip(id: &Id, content: &[u8], round: Option<u16>) -> Vec<u8> {
    let mut o = vec![0];
    o.extend(id);
    number(&mut o, content.len() as u64);
    o.extend(content);
    match round {
        Some(r) => {
            o.push(0);
            number(&mut o, r.into());
        }
        None => o.push(1),
    }
    o
}

pub fn prune() -> Vec<u8> {
    vec![1]
}

pub fn graft(id: Option<&Id>, round: u16) -> Vec<u8> {
    let mut o = vec![2, id.is_some() as u8];
    if let Some(id) = id {
        o.extend(id);
    }
    number(&mut o, round.into());
    o
}

pub fn ihave(list: &[(Id, u16)]) -> Vec<u8> {
    let mut o = vec![3];
    number(&mut o, list.len() as u64);
    for (id, r) in list {
        o.extend(id);
        number(&mut o, (*r).into());
    }
    o
}

/// A message in its shortest form.
pub fn message_bytes(m: &Message) -> Vec<u8> {
    match m {
        Message::Gossip { id, content, round } => gossip(id, content, *round),
        Message::Prune => prune(),
        Message::Graft { id, round } => graft(id.as_ref(), *round),
        Message::IHave(list) => ihave(list),
    }
}

pub fn recv(peer: u64, message: &[u8]) -> Vec<u8> {
    let mut o = vec![0];
    number(&mut o, peer);
    o.extend(message);
    o
}

pub fn broadcast(content: &[u8]) -> Vec<u8> {
    let mut o = vec![1];
    number(&mut o, content.len() as u64);
    o.extend(content);
    o.push(0);
    o
}

/// A broadcast with byte 1, to neighbours only: 23.
pub fn retired(content: &[u8]) -> Vec<u8> {
    let mut o = broadcast(content);
    *o.last_mut().unwrap() = 1;
    o
}

pub fn send_graft(id: &Id) -> Vec<u8> {
    let mut o = vec![2, 0];
    o.extend(id);
    o
}

pub const DISPATCH: [u8; 2] = [2, 1];
pub const EVICT: [u8; 2] = [2, 2];
pub const ANNOUNCE: [u8; 2] = [2, 3];

pub fn up(peer: u64) -> Vec<u8> {
    [vec![3], num(peer)].concat()
}

pub fn down(peer: u64) -> Vec<u8> {
    [vec![4], num(peer)].concat()
}

/// Kind 5: up as quiet.
pub const QUIET: u8 = 5;

pub fn up_quiet(peer: u64) -> Vec<u8> {
    [vec![QUIET], num(peer)].concat()
}

#[derive(Clone, Debug, PartialEq)]
pub enum Message {
    Gossip { id: Id, content: Vec<u8>, round: Option<u16> },
    Prune,
    Graft { id: Option<Id>, round: u16 },
    IHave(Vec<(Id, u16)>),
}

#[derive(Clone, Debug)]
pub enum Timer {
    SendGraft(Id),
    Dispatch,
    Evict,
    Announce,
}

#[derive(Clone, Debug)]
pub enum Action {
    Send { peer: u64, back: bool, message: Message },
    Schedule(Timer),
    Emit,
    Forgotten(Id),
}

/// A number by where it stands, a byte too. Those of a message may be padded, but for the byte before
/// a Graft's identifier.
#[derive(Clone, Copy, PartialEq, Eq, Debug)]
pub enum Field {
    EventKind,
    Peer,
    BroadcastLength,
    BroadcastByte,
    TimerKind,
    /// In actions only.
    ActionKind,
    Delay,
    MessageKind,
    DeliveryKind,
    Length,
    Count,
    DeliveryRound,
    GraftRound,
    EntryRound,
    Presence,
}

impl Field {
    /// Those of a message.
    pub const INSIDE: [Field; 8] = [
        Field::MessageKind,
        Field::DeliveryKind,
        Field::Length,
        Field::Count,
        Field::DeliveryRound,
        Field::GraftRound,
        Field::EntryRound,
        Field::Presence,
    ];

    pub fn name(self) -> &'static str {
        match self {
            Field::EventKind => "event kind",
            Field::Peer => "peer",
            Field::BroadcastLength => "broadcast length",
            Field::BroadcastByte => "broadcast byte",
            Field::TimerKind => "timer kind",
            Field::ActionKind => "action kind",
            Field::Delay => "delay",
            Field::MessageKind => "message kind",
            Field::DeliveryKind => "delivery kind",
            Field::Length => "length",
            Field::Count => "count",
            Field::DeliveryRound => "delivery round",
            Field::GraftRound => "Graft round",
            Field::EntryRound => "IHave round",
            Field::Presence => "presence byte",
        }
    }

    /// The greatest length in bytes, and the largest last byte of a number of that length.
    pub fn longest(self) -> (usize, u8) {
        match self {
            Field::EventKind => (1, QUIET),
            Field::ActionKind => (1, 4),
            Field::TimerKind => (1, 3),
            Field::Peer | Field::Delay | Field::BroadcastLength => (10, 1),
            Field::Length | Field::Count => (10, 1),
            Field::MessageKind | Field::DeliveryKind => (5, 15),
            Field::DeliveryRound | Field::GraftRound | Field::EntryRound => (3, 3),
            Field::Presence | Field::BroadcastByte => (1, 1),
        }
    }

    /// How many kinds there are, where it is one.
    pub fn kinds(self) -> Option<u64> {
        match self {
            Field::MessageKind => Some(4),
            Field::DeliveryKind => Some(2),
            _ => None,
        }
    }
}

/// A number as it stands in an event or a message.
#[derive(Clone, Copy, Debug)]
pub struct Spelled {
    pub field: Field,
    pub at: usize,
    pub long: usize,
    pub value: u64,
}

impl Spelled {
    /// The length of its shortest form.
    pub fn shortest(&self) -> usize {
        let bits = u64::BITS - self.value.leading_zeros();
        bits.max(1).div_ceil(7) as usize
    }

    /// The bytes with others in the number's place.
    pub fn replaced(&self, all: &[u8], bytes: &[u8]) -> Vec<u8> {
        [&all[..self.at], bytes, &all[self.at + self.long..]].concat()
    }
}

/// Why an event or a message is not read to its end.
#[derive(Clone, Copy, PartialEq, Debug)]
pub enum Stop {
    /// The bytes end outside of a number.
    End,
    /// They end inside one, whose groups so far make this.
    Cut(Field, u64),
    /// A number's last allowed byte goes on or is too large.
    Long(Field),
    /// A number outside of a message is not shortest.
    Padded(Field),
    /// A kind that there is none of, of so many bytes.
    Unknown(Field, usize),
}

impl Stop {
    /// The question that is answered no.
    pub fn question(self) -> u8 {
        match self {
            Stop::End | Stop::Cut(..) => 7,
            Stop::Long(_) | Stop::Padded(_) | Stop::Unknown(..) => 8,
        }
    }
}

type Got<T> = Result<T, Stop>;

struct Reader<'a> {
    bytes: &'a [u8],
    at: usize,
    numbers: Vec<Spelled>,
    /// Where the last message begins.
    message: usize,
}

impl<'a> Reader<'a> {
    fn new(bytes: &'a [u8]) -> Reader<'a> {
        Reader { bytes, at: 0, numbers: Vec::new(), message: 0 }
    }
    fn byte(&mut self) -> Got<u8> {
        let b = *self.bytes.get(self.at).ok_or(Stop::End)?;
        self.at += 1;
        Ok(b)
    }
    /// A number up to its greatest length, padded only inside a message.
    fn number(&mut self, field: Field) -> Got<u64> {
        let (most, top) = field.longest();
        let at = self.at;
        let mut value = 0;
        for i in 0..most {
            let b = self.byte().map_err(|_| Stop::Cut(field, value))?;
            if i + 1 == most && b > top {
                break;
            }
            value |= u64::from(b & 127) << (7 * i);
            if b == 0 && i > 0 && !Field::INSIDE.contains(&field) {
                return Err(Stop::Padded(field));
            }
            if b < 128 {
                self.numbers.push(Spelled { field, at, long: i + 1, value });
                return Ok(value);
            }
        }
        Err(Stop::Long(field))
    }
    /// A kind, judged at its last byte.
    fn kind(&mut self, field: Field) -> Got<u64> {
        let at = self.at;
        let k = self.number(field)?;
        if field.kinds().is_some_and(|all| k >= all) {
            return Err(Stop::Unknown(field, self.at - at));
        }
        Ok(k)
    }
    fn take(&mut self, n: usize) -> Got<&'a [u8]> {
        let v = self.bytes[self.at..].get(..n).ok_or(Stop::End)?;
        self.at += n;
        Ok(v)
    }
    fn id(&mut self) -> Got<Id> {
        Ok(self.take(32)?.try_into().unwrap())
    }
    fn content(&mut self, length: Field) -> Got<Vec<u8>> {
        let n = self.number(length)?;
        Ok(self.take(n as usize)?.to_vec())
    }
    fn delivery(&mut self) -> Got<Option<u16>> {
        Ok(match self.kind(Field::DeliveryKind)? {
            0 => Some(self.number(Field::DeliveryRound)? as u16),
            _ => None,
        })
    }
    fn entry(&mut self) -> Got<(Id, u16)> {
        Ok((self.id()?, self.number(Field::EntryRound)? as u16))
    }
    fn message(&mut self) -> Got<Message> {
        self.message = self.at;
        Ok(match self.kind(Field::MessageKind)? {
            0 => Message::Gossip {
                id: self.id()?,
                content: self.content(Field::Length)?,
                round: self.delivery()?,
            },
            1 => Message::Prune,
            2 => {
                let there = self.number(Field::Presence)? == 1;
                let id = if there { Some(self.id()?) } else { None };
                Message::Graft { id, round: self.number(Field::GraftRound)? as u16 }
            }
            _ => {
                let n = self.number(Field::Count)?;
                Message::IHave((0..n).map(|_| self.entry()).collect::<Got<_>>()?)
            }
        })
    }
    fn timer(&mut self) -> Got<Timer> {
        Ok(match self.number(Field::TimerKind)? {
            0 => Timer::SendGraft(self.id()?),
            1 => Timer::Dispatch,
            2 => Timer::Evict,
            _ => Timer::Announce,
        })
    }
    fn action(&mut self) -> Got<Action> {
        Ok(match self.number(Field::ActionKind)? {
            1 => Action::Send {
                peer: self.number(Field::Peer)?,
                back: self.byte()? == 1,
                message: self.message()?,
            },
            2 => {
                self.number(Field::Delay)?;
                Action::Schedule(self.timer()?)
            }
            3 => {
                self.number(Field::Peer)?;
                self.content(Field::Length)?;
                self.delivery()?;
                Action::Emit
            }
            4 => Action::Forgotten(self.id()?),
            _ => return Err(Stop::Unknown(Field::ActionKind, 1)),
        })
    }
    fn event(&mut self) -> Got<()> {
        match self.number(Field::EventKind)? {
            0 => {
                self.number(Field::Peer)?;
                self.message()?;
            }
            1 => {
                self.content(Field::BroadcastLength)?;
                self.number(Field::BroadcastByte)?;
            }
            2 => {
                self.timer()?;
            }
            _ => {
                self.number(Field::Peer)?;
            }
        }
        Ok(())
    }
}

/// The actions that the Rust's side wrote.
pub fn actions(bytes: &[u8]) -> Vec<Action> {
    let mut r = Reader::new(bytes);
    let mut v = Vec::new();
    while r.at < bytes.len() {
        v.push(r.action().expect("an action"));
    }
    v
}

/// What the library wrote, with the actions 4 struck out.
#[derive(Default)]
pub struct Struck {
    /// The bytes of the other actions.
    pub others: Vec<u8>,
    /// The identifiers of those that are struck, in order.
    pub forgotten: Vec<Id>,
    /// Whether none of the others stands before them: an eviction's schedule is the first.
    pub first: bool,
}

/// None where the bytes are not actions.
pub fn struck(bytes: &[u8]) -> Option<Struck> {
    let mut r = Reader::new(bytes);
    let mut s = Struck { first: true, ..Struck::default() };
    while r.at < bytes.len() {
        let at = r.at;
        match r.action().ok()? {
            Action::Forgotten(id) => {
                s.first &= s.others.is_empty();
                s.forgotten.push(id);
            }
            _ => s.others.extend(&bytes[at..r.at]),
        }
    }
    Some(s)
}

/// The bytes of the messages that the actions send.
pub fn sent(actions: &[u8]) -> Vec<&[u8]> {
    let mut r = Reader::new(actions);
    let mut v = Vec::new();
    while r.at < actions.len() {
        if let Action::Send { .. } = r.action().expect("an action") {
            v.push(&actions[r.message..r.at]);
        }
    }
    v
}

/// What follows the peer of a received message, whatever it is.
pub fn received(event: &[u8]) -> Option<&[u8]> {
    let mut r = Reader::new(event);
    if r.number(Field::EventKind) != Ok(0) || r.number(Field::Peer).is_err() {
        return None;
    }
    Some(&event[r.at..])
}

/// An event or a message as it is spelled.
pub struct Reading {
    /// Its numbers, up to where reading stops.
    pub numbers: Vec<Spelled>,
    /// The first of questions 7, 8, 9 and 23 that is answered no, and why reading stops, if it does.
    pub question: Option<u8>,
    pub stop: Option<Stop>,
}

impl Reading {
    /// Whether it is a broadcast with byte 1, whatever follows.
    pub fn retired(&self) -> bool {
        self.numbers.last().is_some_and(|n| n.field == Field::BroadcastByte && n.value == 1)
    }

    /// The numbers of its message.
    pub fn message(&self) -> Vec<Spelled> {
        let inside = |n: &&Spelled| Field::INSIDE.contains(&n.field);
        self.numbers.iter().filter(inside).copied().collect()
    }
}

impl Reader<'_> {
    fn told(self, stop: Option<Stop>) -> Reading {
        let left = Some(9).filter(|_| self.at < self.bytes.len());
        Reading { question: stop.map(Stop::question).or(left), numbers: self.numbers, stop }
    }
}

pub fn reading(event: &[u8]) -> Reading {
    let mut r = Reader::new(event);
    let stop = r.event().err();
    let read = r.told(stop);
    let question = read.question.or(Some(23).filter(|_| read.retired()));
    Reading { question, ..read }
}

/// A message alone: what it is, if it is one, and how it is spelled.
pub fn message(bytes: &[u8]) -> (Option<Message>, Reading) {
    let mut r = Reader::new(bytes);
    let found = r.message();
    let read = r.told(found.as_ref().err().copied());
    (found.ok().filter(|_| read.question.is_none()), read)
}
