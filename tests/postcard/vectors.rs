//! Makes the events that `crates/postcard_vectors` replays, and what each holds.
//!
//! `types.rs` has the message types of `plumtree.rs` with their serde derives (make_vectors.py takes them out). Events are written by `Serialize` and read by
//! `Deserialize`, so the kinds and the order of the fields are the Rust's; `postcard` is the stand-in, which reads plain Postcard inside a received
//! message and shortest numbers elsewhere. A message is rewritten by reading it so and writing it by `Serialize`.
//! Writes the two files named on the command line: an event to a line, and what it holds to a line, with the message that it brings rewritten.
use bytes::Bytes;
use postcard::{put_number, to_vec, De, Error};
use serde::{Deserialize, Serialize};
use std::collections::{BTreeMap, HashSet};
use std::fmt::Write;

include!("types.rs");

#[derive(Clone, PartialEq)]
enum Event {
    Received(u64, Message),
    Broadcast(Bytes, Scope),
    Fired(Timer),
    Up(u64),
    Down(u64),
    UpQuiet(u64),
}

fn question(e: Error) -> u8 {
    match e {
        Error::End => 7,
        Error::Bad => 8,
        Error::Unsupported => unreachable!("a form outside the messages"),
    }
}

/// The event and the size of its message, or the number of the question that is answered no.
fn read(bytes: &[u8]) -> Result<(Event, usize), u8> {
    let mut de = De::new(bytes);
    let got = read_kinds(&mut de).map_err(question)?;
    if !de.rest.is_empty() {
        return Err(9);
    }
    // Neighbours-only broadcasts are retired.
    match got {
        (Event::Broadcast(_, Scope::Neighbors), _) => Err(23),
        _ => Ok(got),
    }
}

fn read_kinds(de: &mut De<'_>) -> Result<(Event, usize), Error> {
    let event = match de.byte()? {
        0 => {
            let peer = de.number(64)?;
            let before = de.rest.len();
            let message = de.read_plain()?;
            return Ok((Event::Received(peer, message), before - de.rest.len()));
        }
        1 => Event::Broadcast(de.read()?, de.read()?),
        2 => Event::Fired(match de.byte()? {
            0 => Timer::SendGraft(de.read()?),
            1 => Timer::DispatchLazyPush,
            2 => Timer::EvictCache,
            3 => Timer::AnnounceDropped,
            _ => return Err(Error::Bad),
        }),
        3 => Event::Up(de.number(64)?),
        4 => Event::Down(de.number(64)?),
        5 => Event::UpQuiet(de.number(64)?),
        _ => return Err(Error::Bad),
    };
    Ok((event, 0))
}

/// The bytes of a received message: those behind the event's kind and peer, where these are read.
fn message_part(event: &[u8]) -> Option<&[u8]> {
    let mut de = De::new(event);
    if de.byte().ok()? != 0 {
        return None;
    }
    de.number(64).ok()?;
    Some(de.rest)
}

/// The bytes of a message in their shortest form, or the number of the question that is answered no.
fn rewrite(message: &[u8]) -> Result<Vec<u8>, u8> {
    let mut de = De::new(message);
    let read: Message = de.read_plain().map_err(question)?;
    if !de.rest.is_empty() {
        return Err(9);
    }
    let shortest = to_vec(&read).unwrap();
    assert!(shortest.len() <= message.len());
    Ok(shortest)
}

fn write(event: &Event) -> Vec<u8> {
    let mut out = Vec::new();
    let mut put = |kind: u8, fields: &[Vec<u8>]| {
        out.push(kind);
        fields.iter().for_each(|f| out.extend_from_slice(f));
    };
    match event {
        Event::Received(peer, m) => put(0, &[to_vec(peer).unwrap(), to_vec(m).unwrap()]),
        Event::Broadcast(content, scope) => put(1, &[to_vec(content).unwrap(), to_vec(scope).unwrap()]),
        Event::Fired(Timer::SendGraft(id)) => put(2, &[vec![0], to_vec(id).unwrap()]),
        Event::Fired(Timer::DispatchLazyPush) => put(2, &[vec![1]]),
        Event::Fired(Timer::EvictCache) => put(2, &[vec![2]]),
        Event::Fired(Timer::AnnounceDropped) => put(2, &[vec![3]]),
        Event::Up(peer) => put(3, &[to_vec(peer).unwrap()]),
        Event::Down(peer) => put(4, &[to_vec(peer).unwrap()]),
        Event::UpQuiet(peer) => put(5, &[to_vec(peer).unwrap()]),
    }
    out
}

fn hex(bytes: &[u8]) -> String {
    if bytes.is_empty() {
        return "-".into();
    }
    bytes.iter().map(|b| format!("{b:02x}")).collect()
}

/// What an event holds, as `crates/postcard_vectors` writes it.
fn words(event: &Event, size: usize) -> String {
    match event {
        Event::Received(peer, m) => format!("Received {peer} {size} {}", message_words(m)),
        Event::Broadcast(content, scope) => {
            assert!(*scope == Scope::Swarm);
            format!("Broadcast {} Swarm", hex(content))
        }
        Event::Fired(Timer::SendGraft(id)) => format!("SendGraft {}", hex(&id.0)),
        Event::Fired(Timer::DispatchLazyPush) => "DispatchLazyPush".into(),
        Event::Fired(Timer::EvictCache) => "EvictCache".into(),
        Event::Fired(Timer::AnnounceDropped) => "AnnounceDropped".into(),
        Event::Up(peer) => format!("Up {peer}"),
        Event::Down(peer) => format!("Down {peer}"),
        Event::UpQuiet(peer) => format!("Up {peer} quiet"),
    }
}

fn message_words(m: &Message) -> String {
    match m {
        Message::Gossip(g) => {
            let head = format!("Gossip {} {}", hex(&g.id.0), hex(&g.content));
            match g.scope {
                DeliveryScope::Swarm(r) => format!("{head} Swarm {}", r.0),
                DeliveryScope::Neighbors => format!("{head} Neighbors"),
            }
        }
        Message::Prune => "Prune".into(),
        Message::Graft(g) => format!("Graft {} {}", g.id.map_or("-".into(), |id| hex(&id.0)), g.round.0),
        Message::IHave(list) => list.iter().fold("IHave".into(), |mut s, h| {
            write!(s, " {} {}", hex(&h.id.0), h.round.0).unwrap();
            s
        }),
    }
}

/// The two files, each event once, and how many cases there are of each answer, 0 where the event is read.
#[derive(Default)]
struct Cases {
    seen: HashSet<Vec<u8>>,
    events: String,
    answers: String,
    counts: BTreeMap<u8, usize>,
}

impl Cases {
    fn add(&mut self, bytes: &[u8]) -> Result<Event, u8> {
        assert!(bytes.len() <= 4_096);
        let answer = read(bytes);
        if self.seen.insert(bytes.to_vec()) {
            let spelt: String = bytes.iter().map(|b| format!("{b:02x}")).collect();
            writeln!(self.events, "{:04x} {spelt}", bytes.len()).unwrap();
            let mut line = match &answer {
                Ok((event, size)) => words(event, *size),
                Err(n) => n.to_string(),
            };
            if let Some(message) = message_part(bytes) {
                let rewritten = rewrite(message);
                assert_eq!(rewritten.as_ref().err(), answer.as_ref().err());
                write!(line, "; {}", rewritten.map_or_else(|n| n.to_string(), |shortest| hex(&shortest))).unwrap();
            }
            writeln!(self.answers, "{line}").unwrap();
            *self.counts.entry(answer.as_ref().err().copied().unwrap_or(0)).or_default() += 1;
        }
        answer.map(|(event, _)| event)
    }

    /// A case whose answer is known beforehand.
    fn refuse(&mut self, bytes: &[u8], n: u8) {
        assert!(self.add(bytes).err() == Some(n), "{} is not {n}", hex(bytes));
    }

    fn read_as(&mut self, bytes: &[u8], event: &Event) {
        assert!(self.add(bytes).ok().as_ref() == Some(event), "{}", hex(bytes));
    }

    /// An event as it is written: it is read, but for a broadcast to neighbours only.
    fn written(&mut self, event: &Event) {
        let bytes = write(event);
        match event {
            Event::Broadcast(_, Scope::Neighbors) => self.refuse(&bytes, 23),
            _ => self.read_as(&bytes, event),
        }
    }
}

/// The fields of an event, as the specification names them.
#[derive(Clone)]
enum Field {
    /// A kind byte, and how many kinds there are.
    Kind(u8, u8),
    /// An identifier or a content.
    Bytes(Vec<u8>),
    /// A number in its shortest form, and its width.
    Number(u64, u32),
    /// A number of a message, which may be padded, and its width.
    Padded(u64, u32),
    /// A message's or delivery's kind, which may be padded, and how many kinds there are.
    PaddedKind(u64, u64),
}

/// The bits of a message's or delivery's kind.
const KIND_BITS: u32 = 32;

fn number(v: u64) -> Vec<u8> {
    let mut out = Vec::new();
    put_number(&mut out, v);
    out
}

/// The number in so many bytes.
fn padded(v: u64, length: usize) -> Vec<u8> {
    let mut out = number(v);
    if out.len() < length {
        *out.last_mut().unwrap() |= 0x80;
        out.resize(length - 1, 0x80);
        out.push(0);
    }
    out
}

/// The greatest length of a number of so many bits.
fn greatest(bits: u32) -> usize {
    (bits as usize).div_ceil(7)
}

fn spelt(f: &Field) -> Vec<u8> {
    match f {
        Field::Kind(k, _) => vec![*k],
        Field::Bytes(b) => b.clone(),
        Field::Number(v, _) | Field::Padded(v, _) | Field::PaddedKind(v, _) => number(*v),
    }
}

/// Spellings of a number that are cut or too wide, with the answer.
fn bad_numbers(bits: u32) -> Vec<(Vec<u8>, u8)> {
    let last = greatest(bits);
    let top = 1u8 << (bits as usize - 7 * (last - 1));
    let mut all = Vec::new();
    for k in 1..last {
        all.push((vec![0x80; k], 7));
        all.push((vec![0xff; k], 7));
    }
    for end in [top, 0x7f, 0x80, 0x80 + top - 1, 0xff] {
        all.push(([vec![0xff; last - 1], vec![end]].concat(), 8));
    }
    all
}

/// Padded spellings where the number must be shortest.
fn not_shortest(bits: u32) -> Vec<(Vec<u8>, u8)> {
    (2..=greatest(bits)).map(|length| (padded(0, length), 8)).collect()
}

/// A number of a message with a byte over its greatest length.
fn one_over(v: u64, bits: u32) -> Vec<(Vec<u8>, u8)> {
    vec![(padded(v, greatest(bits) + 1), 8)]
}

/// Kinds that are not known, of each length; each is judged at its last byte.
fn unknown_kinds(kinds: u64) -> Vec<(Vec<u8>, u8)> {
    let mut all = Vec::new();
    for length in 1..=greatest(KIND_BITS) {
        for unknown in [kinds, 0x7f] {
            all.push((padded(unknown, length), 8));
        }
    }
    for unknown in [0x80, 1 << 28, (1 << 28) + 1, (1 << KIND_BITS) - 1] {
        all.push((number(unknown), 8));
    }
    all.push((vec![0x80 | kinds as u8], 7));
    all
}

/// Spellings of a field that are refused, with the answer.
fn refused(f: &Field) -> Vec<(Vec<u8>, u8)> {
    match f {
        Field::Kind(_, kinds) => [*kinds, 0x7f, 0x80, 0xff].map(|byte| (vec![byte], 8)).to_vec(),
        Field::Bytes(_) => vec![],
        Field::Number(_, bits) => [bad_numbers(*bits), not_shortest(*bits)].concat(),
        Field::Padded(v, bits) => [bad_numbers(*bits), one_over(*v, *bits)].concat(),
        Field::PaddedKind(v, kinds) => [bad_numbers(KIND_BITS), one_over(*v, KIND_BITS), unknown_kinds(*kinds)].concat(),
    }
}

/// Padded spellings of a field that are read: each length up to the greatest.
fn read_padded(f: &Field) -> Vec<Vec<u8>> {
    let (v, bits) = match f {
        Field::Padded(v, bits) => (*v, *bits),
        Field::PaddedKind(v, _) => (*v, KIND_BITS),
        _ => return vec![],
    };
    (number(v).len() + 1..=greatest(bits)).map(|length| padded(v, length)).collect()
}

/// Each refusal at each field of an event, and each length in which a number of a message is read.
fn refusals(cases: &mut Cases, fields: &[Field]) {
    let whole: Vec<u8> = fields.iter().flat_map(spelt).collect();
    let event = cases.add(&whole);
    assert!(matches!(event, Ok(_) | Err(23)), "{}", hex(&whole));
    for cut in 0..whole.len() {
        cases.refuse(&whole[..cut], 7);
    }
    cases.refuse(&[&whole[..], &[0]].concat(), 9);
    cases.refuse(&[&whole[..], &[0x80, 0]].concat(), 9);
    for (i, f) in fields.iter().enumerate() {
        let before: Vec<u8> = fields[..i].iter().flat_map(spelt).collect();
        let after: Vec<u8> = fields[i + 1..].iter().flat_map(spelt).collect();
        for (bad, n) in refused(f) {
            cases.refuse(&[before.clone(), bad.clone()].concat(), n);
            if n == 8 {
                cases.refuse(&[before.clone(), bad, after.clone()].concat(), n);
            }
        }
        for good in read_padded(f) {
            let read = event.as_ref().expect("an event with a message is read");
            cases.read_as(&[before.clone(), good, after.clone()].concat(), read);
        }
    }
}

/// An event of each kind, field by field.
fn shapes() -> Vec<Vec<Field>> {
    use Field::*;
    let id = |first: u8| Bytes((0..32).map(|i| first.wrapping_add(i)).collect());
    let content = || Bytes(vec![7, 8, 9]);
    let received = |message: &[Field]| [&[Kind(0, 6), Number(300, 64)], message].concat();
    let gossip = |delivery: &[Field]| received(&[&[PaddedKind(0, 4), id(16), Padded(3, 64), content()], delivery].concat());
    let broadcast = |scope: u8| vec![Kind(1, 6), Number(3, 64), content(), Kind(scope, 2)];
    vec![
        gossip(&[PaddedKind(0, 2), Padded(20_000, 16)]),
        gossip(&[PaddedKind(0, 2), Padded(0, 16)]),
        gossip(&[PaddedKind(1, 2)]),
        received(&[PaddedKind(1, 4)]),
        received(&[PaddedKind(2, 4), Kind(0, 2), Padded(128, 16)]),
        received(&[PaddedKind(2, 4), Kind(0, 2), Padded(0, 16)]),
        received(&[PaddedKind(2, 4), Kind(1, 2), id(48), Padded(65_535, 16)]),
        received(&[PaddedKind(3, 4), Padded(2, 64), id(80), Padded(1, 16), id(112), Padded(16_384, 16)]),
        received(&[PaddedKind(3, 4), Padded(0, 64)]),
        broadcast(0),
        broadcast(1),
        vec![Kind(2, 6), Kind(0, 4), id(144)],
        vec![Kind(2, 6), Kind(1, 4)],
        vec![Kind(2, 6), Kind(2, 4)],
        vec![Kind(2, 6), Kind(3, 4)],
        vec![Kind(3, 6), Number(1 << 40, 64)],
        vec![Kind(4, 6), Number(127, 64)],
        vec![Kind(5, 6), Number(1 << 63, 64)],
    ]
}

/// The fields of a message.
fn fields_of(message: &Message) -> Vec<Field> {
    use Field::*;
    let id = |id: &MessageId| Bytes(id.0.to_vec());
    let round = |r: Round| Padded(r.0.into(), 16);
    match message {
        Message::Gossip(g) => {
            let mut fields = vec![PaddedKind(0, 4), id(&g.id), Padded(g.content.len() as u64, 64), Bytes(g.content.to_vec())];
            match g.scope {
                DeliveryScope::Swarm(r) => fields.extend([PaddedKind(0, 2), round(r)]),
                DeliveryScope::Neighbors => fields.push(PaddedKind(1, 2)),
            }
            fields
        }
        Message::Prune => vec![PaddedKind(1, 4)],
        Message::Graft(Graft { id: None, round: r }) => vec![PaddedKind(2, 4), Kind(0, 2), round(*r)],
        Message::Graft(Graft { id: Some(wanted), round: r }) => vec![PaddedKind(2, 4), Kind(1, 2), id(wanted), round(*r)],
        Message::IHave(list) => {
            let mut fields = vec![PaddedKind(3, 4), Padded(list.len() as u64, 64)];
            list.iter().for_each(|h| fields.extend([id(&h.id), round(h.round)]));
            fields
        }
    }
}

/// Numbers at the edges of each count of groups: peers, and rounds.
fn edges(cases: &mut Cases) {
    for k in 0..10 {
        let low = 1u64.checked_shl(7 * k).unwrap();
        for v in [low - 1, low, low + 1] {
            cases.written(&Event::Up(v));
            cases.written(&Event::Down(v));
            cases.written(&Event::UpQuiet(v));
        }
    }
    for v in [u64::MAX - 1, u64::MAX, 1 << 63, (1 << 63) - 1] {
        cases.written(&Event::Up(v));
        cases.written(&Event::UpQuiet(v));
        cases.written(&Event::Received(v, Message::Prune));
    }
    for r in [0, 1, 126, 127, 128, 129, 255, 256, 16_383, 16_384, 32_767, 32_768, 65_534, 65_535] {
        cases.written(&Event::Received(1, Message::Graft(Graft { id: None, round: Round(r) })));
    }
}

fn gossip(len: usize, scope: DeliveryScope) -> Message {
    let content: Vec<u8> = (0..len).map(|i| (i % 251) as u8).collect();
    Message::Gossip(Gossip { id: MessageId([9; 32]), content: content.into(), scope })
}

fn announcements(n: usize, round: u16) -> Message {
    Message::IHave((0..n).map(|i| IHave { id: MessageId([i as u8; 32]), round: Round(round) }).collect())
}

/// The worked calls of the specification that speak of bytes read: sizes, rounds, and the events of panelrun's example.
fn worked(cases: &mut Cases) {
    let top = DeliveryScope::Swarm(Round(65_535));
    for (len, scope, size) in [(0, top, 38), (127, top, 165), (128, top, 167), (0, DeliveryScope::Neighbors, 35), (471, top, 510), (472, top, 511)] {
        let message = gossip(len, scope);
        assert_eq!(to_vec(&message).unwrap().len(), size);
        cases.written(&Event::Received(2, message));
    }
    for n in [14, 116] {
        cases.written(&Event::Received(2, announcements(n, 65_535)));
    }
    for (event, bytes) in [
        (Event::Up(2), &[3, 2][..]),
        (Event::UpQuiet(2), &[5, 2]),
        (Event::Fired(Timer::DispatchLazyPush), &[2, 1]),
        (Event::Received(5, Message::Prune), &[0, 5, 1]),
        (Event::Received(2, Message::Graft(Graft { id: None, round: Round(127) })), &[0, 2, 2, 0, 0x7f]),
        (Event::Received(2, Message::Graft(Graft { id: None, round: Round(128) })), &[0, 2, 2, 0, 0x80, 1]),
        (Event::Received(2, Message::Graft(Graft { id: None, round: Round(65_535) })), &[0, 2, 2, 0, 0xff, 0xff, 3]),
    ] {
        assert_eq!(write(&event), bytes);
        cases.written(&event);
    }
}

/// Lengths and counts that the bytes do not hold.
fn too_long(cases: &mut Cases) {
    let id = [1u8; 32];
    let whole = [&id[..], &[5]].concat();
    let wrong = [&id[..], &[0x80, 0x80, 0x80]].concat();
    let longer = [&id[..], &[0x80, 0]].concat();
    for count in [1, 2, 3, 127, 128, 1 << 32, 1 << 63, u64::MAX - 1, u64::MAX] {
        let head = [vec![0, 2, 3], number(count)].concat();
        // no announcement, or the first cut
        cases.refuse(&head, 7);
        cases.refuse(&[&head[..], &id[..31]].concat(), 7);
        cases.refuse(&[&head[..], &id, &[0xff, 0xff]].concat(), 7);
        // a fault in the first, and in the second, comes before the end of the bytes
        cases.refuse(&[&head[..], &wrong].concat(), 8);
        cases.refuse(&[&head[..], &id, &[0xff, 0xff, 4]].concat(), 8);
        if count > 1 {
            cases.refuse(&[&head[..], &whole, &wrong].concat(), 8);
            cases.refuse(&[&head[..], &whole].concat(), 7);
            cases.refuse(&[&head[..], &longer].concat(), 7);
        }
        if count > 2 {
            cases.refuse(&[&head[..], &whole, &longer].concat(), 7);
        }
    }
    for len in [1, 2, 3, 127, 128, 1 << 32, 1 << 63, u64::MAX - 1, u64::MAX] {
        let short: Vec<u8> = vec![4; len.min(200) as usize - 1];
        cases.refuse(&[vec![1], number(len), short.clone()].concat(), 7);
        cases.refuse(&[vec![0, 2, 0], id.to_vec(), number(len), short].concat(), 7);
    }
    cases.written(&Event::Received(2, Message::IHave(vec![])));
    cases.written(&Event::Broadcast(Bytes::new(), Scope::Neighbors));
}

/// Numbers from a seed (xorshift64*).
struct Random(u64);

impl Random {
    fn next(&mut self) -> u64 {
        self.0 ^= self.0 >> 12;
        self.0 ^= self.0 << 25;
        self.0 ^= self.0 >> 27;
        self.0.wrapping_mul(0x2545_f491_4f6c_dd1d) >> 8
    }
    fn below(&mut self, n: u64) -> u64 {
        self.next() % n
    }
    /// Of any number of groups, edges among them.
    fn wide(&mut self, bits: u64) -> u64 {
        let width = self.below(bits + 1);
        let v = (self.next() << 32 ^ self.next()) & (((1u128 << width) - 1) as u64);
        if self.below(4) == 0 {
            ((1u128 << width) - 1) as u64
        } else {
            v
        }
    }
    fn round(&mut self) -> Round {
        Round(self.wide(16) as u16)
    }
    fn bytes(&mut self, n: u64) -> Vec<u8> {
        (0..n).map(|_| self.next() as u8).collect()
    }
    fn id(&mut self) -> MessageId {
        MessageId(self.bytes(32).try_into().unwrap())
    }
    fn content(&mut self) -> Bytes {
        let n = match self.below(20) {
            0 => self.below(300),
            1 => 127 + self.below(3),
            _ => self.below(16),
        };
        self.bytes(n).into()
    }
    fn message(&mut self) -> Message {
        match self.below(8) {
            0..=2 => {
                let scope = if self.below(3) == 0 { DeliveryScope::Neighbors } else { DeliveryScope::Swarm(self.round()) };
                Message::Gossip(Gossip { id: self.id(), content: self.content(), scope })
            }
            3 => Message::Prune,
            4 => Message::Graft(Graft { id: None, round: self.round() }),
            5 => Message::Graft(Graft { id: Some(self.id()), round: self.round() }),
            _ => {
                let n = self.below(5);
                Message::IHave((0..n).map(|_| IHave { id: self.id(), round: self.round() }).collect())
            }
        }
    }
    fn event(&mut self) -> Event {
        match self.below(10) {
            0..=6 => Event::Received(self.wide(64), self.message()),
            7 => Event::Broadcast(self.content(), if self.below(2) == 0 { Scope::Swarm } else { Scope::Neighbors }),
            8 => Event::Fired(Timer::SendGraft(self.id())),
            _ => match self.below(3) {
                0 => Event::Up(self.wide(64)),
                1 => Event::Down(self.wide(64)),
                _ => Event::UpQuiet(self.wide(64)),
            },
        }
    }
    /// The bytes of a field; a number that may be padded is, to any length up to its greatest.
    fn spelt(&mut self, f: &Field) -> Vec<u8> {
        match f {
            Field::Padded(v, bits) => padded(*v, 1 + self.below(greatest(*bits) as u64) as usize),
            Field::PaddedKind(v, _) => padded(*v, 1 + self.below(greatest(KIND_BITS) as u64) as usize),
            _ => spelt(f),
        }
    }
    /// The bytes with something wrong: a byte changed, taken out or put in, a cut, or more at the end.
    fn damage(&mut self, bytes: &mut Vec<u8>) {
        let i = self.below(bytes.len() as u64) as usize;
        match self.below(6) {
            0 => bytes[i] = self.next() as u8,
            1 => bytes[i] ^= 0x80,
            2 => drop(bytes.remove(i)),
            3 => bytes.insert(i, self.next() as u8),
            4 => bytes.truncate(i),
            _ => bytes.push(self.next() as u8),
        }
    }
}

/// A message with each number in a random length.
fn pad(cases: &mut Cases, random: &mut Random, peer: u64, message: &Message) {
    let fields = fields_of(message);
    assert!(fields.iter().flat_map(spelt).eq(to_vec(message).unwrap()));
    let bytes: Vec<u8> = fields.iter().flat_map(|f| random.spelt(f)).collect();
    cases.read_as(&[vec![0], number(peer), bytes].concat(), &Event::Received(peer, message.clone()));
}

/// Messages that differ in the order of their entries, in how often one stands there, or in a round; and long ones. Each in several spellings.
fn spellings(cases: &mut Cases, random: &mut Random) {
    let entry = |id: u8, round: u16| IHave { id: MessageId([id; 32]), round: Round(round) };
    let lists = [vec![entry(8, 5), entry(9, 6)], vec![entry(9, 6), entry(8, 5)], vec![entry(8, 5), entry(8, 5)], vec![entry(8, 5), entry(9, 6), entry(8, 5)]];
    let mut messages: Vec<Message> = lists.into_iter().map(Message::IHave).collect();
    for round in [0, 127, 128] {
        messages.push(Message::Graft(Graft { id: None, round: Round(round) }));
        messages.push(gossip(3, DeliveryScope::Swarm(Round(round))));
    }
    messages.extend([gossip(300, DeliveryScope::Neighbors), gossip(4_000, DeliveryScope::Swarm(Round(300))), announcements(110, 300)]);
    for message in &messages {
        for _ in 0..6 {
            pad(cases, random, 2, message);
        }
    }
}

fn main() {
    let args: Vec<String> = std::env::args().collect();
    let mut cases = Cases::default();
    worked(&mut cases);
    edges(&mut cases);
    too_long(&mut cases);
    shapes().iter().for_each(|s| refusals(&mut cases, s));
    let chosen: usize = cases.counts.values().sum();
    let mut random = Random(0x9e37_79b9_7f4a_7c15);
    for _ in 0..2_400 {
        let event = random.event();
        if random.below(5) < 3 {
            cases.written(&event);
        } else {
            let mut bytes = write(&event);
            random.damage(&mut bytes);
            let _ = cases.add(&bytes);
        }
    }
    for _ in 0..300 {
        let (peer, message) = (random.wide(64), random.message());
        pad(&mut cases, &mut random, peer, &message);
    }
    spellings(&mut cases, &mut random);
    std::fs::write(&args[1], &cases.events).unwrap();
    std::fs::write(&args[2], &cases.answers).unwrap();
    let [read, seven, eight, nine, retired] = [0, 7, 8, 9, 23].map(|n| cases.counts[&n]);
    println!("{chosen} chosen, others random: {read} read, {seven} of 7, {eight} of 8, {nine} of 9, {retired} of 23");
}
