//! The readers and writers of this crate beside the library's: they agree on every event of at most two bytes, on events that were damaged, and on
//! each number of a message in each of its lengths. `rewrite` and [`Message::read`] with [`Message::to_bytes`] agree on the messages of these events
//! and of those that are stored for crates/postcard_vectors.
use std::collections::HashSet;
use std::{env, fs};

use plumtree::{rewrite, Action, Announced, Delivery, Error, Event, Limits, LinkRoom, Message, Panel, Settings, Timer};

/// The library's answer to an event where it is 7, 8, 9 or 23; none where the event was read.
fn library(p: &mut Panel, event: &[u8], output: &mut [u8]) -> Option<Error> {
    match p.event_bytes(0, event, &[], output) {
        Err(e @ (Error::EventCut | Error::EventMalformed | Error::EventTooLong | Error::NeighborsBroadcast)) => Some(e),
        _ => None,
    }
}

/// This crate's answer. What it reads it writes back to the same bytes, or, of a message with padded numbers, to fewer that are read as the same.
fn crates(event: &[u8]) -> Option<Error> {
    match Event::read(event) {
        Ok(e) => {
            let shortest = e.to_bytes();
            if shortest != event {
                assert!(matches!(e, Event::Received { .. }) && shortest.len() < event.len(), "{event:02x?}");
                assert_eq!(Event::read(&shortest), Ok(e));
            }
            None
        }
        Err(e) => Some(e),
    }
}

/// What rewriting a message into an output of this length, full of 5a, answers and leaves.
fn rewritten(message: &[u8], length: usize) -> (Result<usize, Error>, Vec<u8>) {
    let mut output = vec![0x5a; length];
    (rewrite(message, &mut output), output)
}

/// Rewriting a message: as this crate reads and writes it, in an output as long as the message, in a longer one and in the shortest; 14 in one byte
/// less; twice; and a refusal, with room and without. What it is rewritten to, or why not.
fn rewrites(message: &[u8]) -> Result<Vec<u8>, Error> {
    let answer = Message::read(message).map(|m| m.to_bytes());
    match &answer {
        Ok(shortest) => {
            let n = shortest.len();
            for length in [n, message.len(), message.len() + 3] {
                let left = [&shortest[..], &vec![0x5a; length - n]].concat();
                assert_eq!(rewritten(message, length), (Ok(n), left), "{message:02x?}");
            }
            assert_eq!(rewritten(message, n - 1), (Err(Error::OutputTooShort), vec![0x5a; n - 1]), "{message:02x?}");
            assert_eq!(rewritten(shortest, n), (Ok(n), shortest.clone()), "{message:02x?}");
        }
        Err(e) => {
            for length in [0, message.len() + 3] {
                assert_eq!(rewritten(message, length), (Err(*e), vec![0x5a; length]), "{message:02x?}");
            }
        }
    }
    answer
}

/// The bytes of an event's message: those behind its kind and peer, if it has these.
fn message_of(event: &[u8]) -> Option<&[u8]> {
    match event.split_first() {
        Some((0, rest)) => plumtree::read_number(rest).ok().map(|(_, message)| message),
        _ => None,
    }
}

#[test]
fn short_events() {
    let mut p = Panel::new(Settings::of_panel(1), Limits::SMALL).unwrap();
    let mut output = vec![0; 40_960];
    let mut same = |bytes: &[u8]| {
        assert_eq!(library(&mut p, bytes, &mut output), crates(bytes), "{bytes:02x?}");
        let _ = rewrites(bytes);
    };
    same(&[]);
    for a in 0..=255 {
        same(&[a]);
        for b in 0..=255 {
            same(&[a, b]);
        }
    }
}

/// Random numbers (xorshift), the same in each run.
struct Rng(u64);

impl Rng {
    fn next(&mut self) -> u64 {
        self.0 ^= self.0 << 13;
        self.0 ^= self.0 >> 7;
        self.0 ^= self.0 << 17;
        self.0
    }

    fn below(&mut self, n: usize) -> usize {
        (self.next() % n as u64) as usize
    }

    /// A number of random width.
    fn number(&mut self) -> u64 {
        let width = self.below(65);
        if width == 0 {
            0
        } else {
            self.next() >> (64 - width)
        }
    }

    fn id(&mut self) -> [u8; 32] {
        std::array::from_fn(|_| self.next() as u8)
    }

    fn message<'a>(&mut self, content: &'a [u8]) -> Message<'a> {
        let round = self.number() as u16;
        match self.below(5) {
            0 => Message::Gossip { id: self.id(), content, delivery: Delivery::Swarm { round } },
            1 => Message::Gossip { id: self.id(), content, delivery: Delivery::Neighbors },
            2 => Message::Prune,
            3 => Message::Graft { id: (self.below(2) == 0).then(|| self.id()), round },
            _ => Message::IHave((0..self.below(5)).map(|_| Announced { id: self.id(), round: self.number() as u16 }).collect()),
        }
    }

    fn event<'a>(&mut self, content: &'a [u8]) -> Event<'a> {
        match self.below(9) {
            0 | 1 => Event::Broadcast(content),
            2 => Event::Timer(
                [Timer::SendGraft(self.id()), Timer::DispatchLazyPush, Timer::EvictCache, Timer::AnnounceDropped][self.below(4)],
            ),
            3 => Event::Up(self.number()),
            4 => Event::Down(self.number()),
            5 => Event::UpQuiet(self.number()),
            _ => Event::Received { peer: self.number(), message: self.message(content) },
        }
    }

    /// A message's bytes, each number in a random length up to its greatest.
    fn padded(&mut self, message: &Message) -> Vec<u8> {
        let mut out = Vec::new();
        let mut number = |out: &mut Vec<u8>, value: u64, (greatest, _): Width| {
            let mut shortest = Vec::new();
            plumtree::write_number(&mut shortest, value);
            let length = shortest.len() + self.below(greatest - shortest.len() + 1);
            out.extend(spelt(value, length));
        };
        match message {
            Message::Gossip { id, content, delivery } => {
                number(&mut out, 0, KIND);
                out.extend(id);
                number(&mut out, content.len() as u64, NUMBER);
                out.extend(*content);
                match delivery {
                    Delivery::Swarm { round } => {
                        number(&mut out, 0, KIND);
                        number(&mut out, (*round).into(), ROUND);
                    }
                    Delivery::Neighbors => number(&mut out, 1, KIND),
                }
            }
            Message::Prune => number(&mut out, 1, KIND),
            Message::Graft { id, round } => {
                number(&mut out, 2, KIND);
                out.push(id.is_some().into());
                out.extend(id.iter().flatten());
                number(&mut out, (*round).into(), ROUND);
            }
            Message::IHave(list) => {
                number(&mut out, 3, KIND);
                number(&mut out, list.len() as u64, NUMBER);
                for Announced { id, round } in list {
                    out.extend(id);
                    number(&mut out, (*round).into(), ROUND);
                }
            }
        }
        out
    }

    /// A bit, a byte, a cut, bytes at the end, a padded number, or one that is too wide.
    fn damage(&mut self, bytes: &mut Vec<u8>) {
        let at = self.below(bytes.len());
        match self.below(6) {
            0 => bytes[at] ^= 1 << self.below(8),
            1 => bytes[at] = self.next() as u8,
            2 => bytes.truncate(at),
            3 => bytes.push(self.next() as u8),
            4 => {
                bytes[at] |= 0x80;
                bytes.insert(at + 1, 0);
            }
            _ => {
                bytes.splice(at..at, [0xff; 10]);
            }
        }
    }
}

#[test]
fn damaged_events() {
    let mut p = Panel::new(Settings::of_panel(1), Limits::SMALL).unwrap();
    let mut output = vec![0; 40_960];
    let mut r = Rng(0x9e37_79b9_7f4a_7c15);
    let mut met = [0; 5];
    for _ in 0..40_000 {
        let content: Vec<u8> = (0..r.below(200)).map(|_| r.next() as u8).collect();
        let event = r.event(&content);
        let mut bytes = event.to_bytes();
        let for_neighbours = matches!(event, Event::Broadcast(_)) && r.below(2) == 0;
        assert_eq!(Event::read(&bytes), Ok(event));
        if for_neighbours {
            *bytes.last_mut().unwrap() = 1;
        }
        if r.below(4) != 0 {
            r.damage(&mut bytes);
        }
        let answer = crates(&bytes);
        assert_eq!(library(&mut p, &bytes, &mut output), answer, "{bytes:02x?}");
        if let Some(message) = message_of(&bytes) {
            assert_eq!(rewrites(message).err(), answer);
        }
        met[answer.map_or(0, |e| if e == Error::NeighborsBroadcast { 4 } else { usize::from(e.number()) - 6 })] += 1;
    }
    assert!(met.iter().all(|n| *n > 1000), "read, 7, 8, 9, 23: {met:?}");
}

/// A send's `bytes` are its message's, no more and no less, and a reading of all actions takes all bytes.
#[test]
fn sent_bytes() {
    let mut p = Panel::new(Settings::of_panel(1), Limits::SMALL).unwrap();
    let mut output = vec![0; 40_960];
    for peer in [2, 3, 300] {
        p.event(0, &Event::Up(peer), &[], &mut output).unwrap();
    }
    let full = [LinkRoom { peer: 3, room: 0 }];
    let actions = p.event(0, &Event::Broadcast(b"hot"), &full, &mut output).unwrap();
    let mut sends = Vec::new();
    let mut left = actions.bytes();
    for action in actions {
        let (same, rest) = Action::read(left).unwrap();
        assert_eq!(same, action);
        left = rest;
        if let Action::Send { peer, taken, message, bytes } = action {
            assert_eq!(bytes, message.to_bytes());
            assert_eq!(Message::read(bytes), Ok(message));
            sends.push((peer, taken));
        }
    }
    assert!(left.is_empty());
    assert_eq!(sends, [(2, true), (3, false), (300, true)]);
}

/// A forgotten message: 4 and the identifier, cut anywhere else; as text its first bytes.
#[test]
fn forgotten() {
    let bytes = [&[4], &ID[..], &[2, 5, 1]].concat();
    let (action, rest) = Action::read(&bytes).unwrap();
    assert_eq!(action, Action::Forgotten { id: ID });
    assert_eq!(rest, [2, 5, 1]);
    assert_eq!(action.to_string(), format!("forgotten {:02x}{:02x}{:02x}{:02x}..", ID[0], ID[1], ID[2], ID[3]));
    for length in 0..33 {
        assert_eq!(Action::read(&bytes[..length]), Err(Error::EventCut), "{length}");
    }
    assert_eq!(Action::read(&[5]), Err(Error::EventMalformed));
}

/// A number in so many bytes.
fn spelt(value: u64, length: usize) -> Vec<u8> {
    let group = |i: usize| if 7 * i < 64 { (value >> (7 * i)) as u8 & 127 } else { 0 };
    (0..length).map(|i| if i + 1 < length { group(i) | 128 } else { group(i) }).collect()
}

/// The width of a number: its greatest length, and what its last byte then is at most.
type Width = (usize, u8);

const ROUND: Width = (3, 0x03);
const KIND: Width = (5, 0x0f);
const NUMBER: Width = (10, 0x01);

const ID: [u8; 32] = [9; 32];

/// Each number of a message: the bytes of an event before it, the number, its width, and the bytes after it.
fn numbers_of_messages() -> Vec<(Vec<u8>, u64, Width, Vec<u8>)> {
    let gossip = |rest: &[u8]| [&[0, 2, 0], &ID[..], rest].concat();
    let entry = |rest: &[u8]| [&ID[..], rest].concat();
    let message_kinds = [(0, gossip(&[1, b'x', 1])[3..].to_vec()), (1, vec![]), (2, vec![0, 7]), (3, vec![0])];
    let mut all: Vec<_> = message_kinds.into_iter().map(|(kind, rest)| (vec![0, 2], kind, KIND, rest)).collect();
    all.push((gossip(&[1, b'x']), 0, KIND, vec![7]));
    all.push((gossip(&[1, b'x']), 1, KIND, vec![]));
    all.push((gossip(&[]), 3, NUMBER, vec![b'x', b'y', b'z', 1]));
    all.push((vec![0, 2, 3], 2, NUMBER, [entry(&[7]), entry(&[8])].concat()));
    for round in [0, 7, 300, 65_535] {
        all.push((gossip(&[1, b'x', 0]), round, ROUND, vec![]));
        all.push((vec![0, 2, 2, 0], round, ROUND, vec![]));
        all.push(([&[0, 2, 2, 1], &ID[..]].concat(), round, ROUND, vec![]));
        all.push(([&[0, 2, 3, 2], &ID[..]].concat(), round, ROUND, entry(&[8])));
    }
    all
}

/// In every length up to its greatest a number of a message is read, as the same; there it is refused if it goes on or is too large; where the
/// bytes end before it does it is cut.
#[test]
fn padded_messages() {
    let mut p = Panel::new(Settings::of_panel(1), Limits::SMALL).unwrap();
    let mut output = vec![0; 40_960];
    let mut answers = |event: &[u8], answer: Option<Error>| {
        assert_eq!(crates(event), answer, "{event:02x?}");
        assert_eq!(library(&mut p, event, &mut output), answer, "{event:02x?}");
        assert_eq!(rewrites(&event[2..]).err(), answer);
    };
    for (before, value, (greatest, top), after) in numbers_of_messages() {
        let event = |number: &[u8]| [&before[..], number, &after].concat();
        let mut shortest = Vec::new();
        plumtree::write_number(&mut shortest, value);
        for length in shortest.len()..=greatest {
            let padded = event(&spelt(value, length));
            answers(&padded, None);
            assert_eq!(Event::read(&padded), Event::read(&event(&shortest)));
            assert_eq!(rewrites(&padded[2..]).unwrap(), event(&shortest)[2..]);
        }
        for length in 0..greatest {
            answers(&[&before[..], &vec![0x80; length]].concat(), Some(Error::EventCut));
        }
        for last in [top + 1, 0x7f, 0x80, 0x80 | top, 0xff] {
            let wide = [vec![0x80; greatest - 1], vec![last]].concat();
            answers(&event(&wide), Some(Error::EventMalformed));
            answers(&[&before[..], &wide].concat(), Some(Error::EventMalformed));
        }
        let over = spelt(value, greatest + 1);
        answers(&event(&over), Some(Error::EventMalformed));
    }
}

/// The events that are stored for crates/postcard_vectors, which were read by the original Rust. The variable PLUMTREE_EVENTS names the file where the
/// binding stands elsewhere.
fn stored_events() -> Vec<Vec<u8>> {
    let file = env::var("PLUMTREE_EVENTS").unwrap_or(concat!(env!("CARGO_MANIFEST_DIR"), "/../../crates/postcard_vectors/stdin").into());
    let text = fs::read_to_string(&file).unwrap_or_else(|e| panic!("{file}: {e}"));
    let byte = |line: &str, at: usize| u8::from_str_radix(&line[at..at + 2], 16).unwrap();
    text.lines().map(|line| (5..line.len()).step_by(2).map(|at| byte(line, at)).collect()).collect()
}

/// The messages of the stored events are rewritten as this crate writes them, and so are they with their numbers padded at random; two of them to
/// equal bytes exactly where they are equal.
#[test]
fn stored_messages() {
    let events = stored_events();
    let mut r = Rng(0x2545_f491_4f6c_dd1d);
    let mut refused = [0; 3];
    let (mut messages, mut files, mut pairs) = (HashSet::new(), HashSet::new(), HashSet::new());
    for came in events.iter().filter_map(|event| message_of(event)) {
        let shortest = match rewrites(came) {
            Ok(bytes) => bytes,
            Err(e) => {
                refused[usize::from(e.number()) - 7] += 1;
                continue;
            }
        };
        let message = Message::read(came).unwrap();
        for _ in 0..8 {
            assert_eq!(rewrites(&r.padded(&message)).as_ref(), Ok(&shortest), "{came:02x?}");
        }
        messages.insert(message.clone());
        files.insert(shortest.clone());
        pairs.insert((message, shortest));
    }
    assert_eq!((messages.len(), files.len()), (pairs.len(), pairs.len()));
    assert!(pairs.len() > 1000 && refused.iter().all(|n| *n > 50), "{} read; 7, 8, 9: {refused:?}", pairs.len());
}

/// There is no M: a content of 70,000 bytes, and an IHave of 2,000 entries, of which some stand twice.
#[test]
fn long_messages() {
    let mut r = Rng(0x9e37_79b9_7f4a_7c15);
    let content: Vec<u8> = (0..70_000).map(|_| r.next() as u8).collect();
    let list = (0..2_000).map(|i| Announced { id: [i as u8; 32], round: i % 256 }).collect();
    for message in [Message::Gossip { id: ID, content: &content, delivery: Delivery::Swarm { round: 7 } }, Message::IHave(list)] {
        assert_eq!(rewrites(&r.padded(&message)), Ok(message.to_bytes()));
        assert_eq!(rewrites(&message.to_bytes()[..60_000]), Err(Error::EventCut));
    }
}

/// A kind is judged at its last byte, and no sooner; a Graft's byte 0 or 1 is no number; an event's own fields have one form.
#[test]
fn padded_or_not() {
    use Error::{EventCut, EventMalformed, EventTooLong, NeighborsBroadcast};
    let mut p = Panel::new(Settings::of_panel(1), Limits::SMALL).unwrap();
    let mut output = vec![0; 40_960];
    for (event, answer) in [
        // Message kinds.
        (&[0, 2, 0x04][..], Some(EventMalformed)),
        (&[0, 2, 0x84], Some(EventCut)),
        (&[0, 2, 0x84, 0x00], Some(EventMalformed)),
        (&[0, 2, 0x81, 0x80, 0x80, 0x80, 0x00], None),
        (&[0, 2, 0x81, 0x80, 0x80, 0x80, 0x01], Some(EventMalformed)),
        (&[0, 2, 0x81, 0x80, 0x80, 0x80, 0x0f], Some(EventMalformed)),
        (&[0, 2, 0x81, 0x80, 0x80, 0x80, 0x80], Some(EventMalformed)),
        // Rounds.
        (&[0, 2, 2, 0, 0x80, 0x00], None),
        (&[0, 2, 2, 0, 0x80, 0x80, 0x00], None),
        (&[0, 2, 2, 0, 0x80, 0x80], Some(EventCut)),
        (&[0, 2, 2, 0, 0x80, 0x80, 0x80], Some(EventMalformed)),
        (&[0, 2, 2, 0, 0x80, 0x80, 0x04], Some(EventMalformed)),
        // A Graft's byte 0 or 1.
        (&[0, 2, 2, 0x80, 0x00, 0], Some(EventMalformed)),
        (&[0, 2, 2, 0x80], Some(EventMalformed)),
        // The event's kind, peers, a broadcast's length and byte, a timer's kind.
        (&[0x80, 0x00, 2, 1], Some(EventMalformed)),
        (&[0, 0x82, 0x00, 1], Some(EventMalformed)),
        (&[3, 0x82, 0x00], Some(EventMalformed)),
        (&[4, 0x82, 0x00], Some(EventMalformed)),
        (&[1, 0x81, 0x00, 0x41, 0], Some(EventMalformed)),
        (&[1, 1, 0x41, 0x80, 0x00], Some(EventMalformed)),
        // That byte is 1: the event is turned down where it is one otherwise.
        (&[1, 1, 0x41, 0], None),
        (&[1, 1, 0x41, 1], Some(NeighborsBroadcast)),
        (&[1, 0, 1], Some(NeighborsBroadcast)),
        (&[1, 2, 0x41, 1], Some(EventCut)),
        (&[1, 1, 0x41, 2], Some(EventMalformed)),
        (&[1, 1, 0x41, 0x81, 0x00], Some(EventMalformed)),
        (&[1, 0x81, 0x00, 0x41, 1], Some(EventMalformed)),
        (&[1, 1, 0x41, 1, 0], Some(EventTooLong)),
        // Inside a message it is the kind of a delivery, as it was.
        (&[&[0, 2, 0], &ID[..], &[1, 0x41, 1]].concat(), None),
        (&[2, 0x81, 0x00], Some(EventMalformed)),
    ] {
        assert_eq!(crates(event), answer, "{event:02x?}");
        assert_eq!(library(&mut p, event, &mut output), answer, "{event:02x?}");
    }
}

/// Of actions the shortest form alone is read, inside messages too.
#[test]
fn padded_actions() {
    // The bytes of an action; which of them are numbers.
    let gossip = [&[1, 2, 0, 0], &ID[..], &[1, b'x', 0, 7]].concat();
    let ihave = [&[1, 2, 0, 3, 1], &ID[..], &[7]].concat();
    for (action, places) in [
        (&gossip[..], &[1, 3, 36, 38, 39][..]),
        (&[1, 2, 1, 1], &[1, 3]),
        (&[1, 2, 0, 2, 0, 7], &[1, 3, 5]),
        (&ihave, &[1, 3, 4, 37]),
        (&[2, 5, 1], &[1]),
        (&[3, 2, 1, b'x', 0, 7], &[1, 2, 4, 5]),
        (&[3, 2, 1, b'x', 1], &[1, 2, 4]),
    ] {
        let (_, rest) = Action::read(action).unwrap();
        assert!(rest.is_empty());
        for &at in places {
            let mut padded = action.to_vec();
            padded.splice(at..=at, [action[at] | 0x80, 0x00]);
            assert_eq!(Action::read(&padded), Err(Error::EventMalformed), "{padded:02x?}");
        }
    }
}

#[test]
fn numbers() {
    for (value, bytes) in [(0, &[0x00][..]), (127, &[0x7f]), (128, &[0x80, 0x01]), (65_535, &[0xff, 0xff, 0x03])] {
        let mut out = Vec::new();
        plumtree::write_number(&mut out, value);
        assert_eq!(out, bytes);
        assert_eq!(plumtree::read_number(bytes), Ok((value, &[][..])));
    }
    let most = [[0xff; 9].as_slice(), &[0x01]].concat();
    assert_eq!(plumtree::read_number(&most), Ok((u64::MAX, &[][..])));
    assert_eq!(plumtree::read_number(&[0xff; 10]), Err(Error::EventMalformed));
    assert_eq!(plumtree::read_number(&[0xff; 9]), Err(Error::EventCut));
    assert_eq!(plumtree::read_number(&[0x80, 0x00]), Err(Error::EventMalformed));
    // A round's third byte.
    let graft = |round: &[u8]| Message::read(&[&[2, 0], round].concat()).map(|_| ());
    assert_eq!(graft(&[0xff, 0xff, 0x03]), Ok(()));
    assert_eq!(graft(&[0xff, 0xff, 0x04]), Err(Error::EventMalformed));
    assert_eq!(graft(&[0xff, 0xff, 0x83]), Err(Error::EventMalformed));
    // A count of 2^64 - 1 is read entry by entry.
    let count = [&[3][..], &most].concat();
    assert_eq!(Message::read(&count), Err(Error::EventCut));
}
