//! Records whose identifiers are chosen, as those who send them or who lends the block can choose them: whether question 5 says yes exactly where each stands once.
use std::collections::HashSet;

use oracle::snap::{Id, Snap};

use crate::{
    bench::{noted, some_id, Notes},
    block::{self, Interleaving, Layout, CEILINGS},
    library,
    rng::Rng,
};

/// So far apart are the buckets of one identifier for a link and for the next, in the library (storage's `Pair::bucket`).
const WIDTH_OF_A_LINK: u64 = 8;
/// At most so many notes of one link are whole.
const MAX_OF_A_LINK: usize = 256;
/// An identifier's bytes, and a note's.
const ID: usize = 32;
const NOTE: usize = 34;

/// How the last word of a record's identifiers is chosen; the others are random.
#[derive(Clone, Copy)]
pub enum LastWord {
    /// Random, the same identifiers for each link.
    Same,
    /// Random.
    Random,
    /// A sender's: the last twelve bits are nought.
    LastBits,
    /// A sender's: the last twelve bits of each link's rows are such that all are in one bucket, where buckets go by these bits.
    OneBucket,
    /// The same, of each link's last rows alone.
    LastRows,
    /// A lender's: it is the same for all, so that all are in one bucket whatever the multiplier is.
    Equal,
    /// The same, and the first two words are equal too.
    ThirdWord,
    /// A lender's: random, and equal in each link's last rows.
    EqualAtLast,
}

pub const CASES: [(&str, LastWord); 8] = [
    ("record, random, same of each link", LastWord::Same),
    ("record, random", LastWord::Random),
    ("record, last 12 bits nought", LastWord::LastBits),
    ("record, one bucket by last bits", LastWord::OneBucket),
    ("record, one bucket, last tenth", LastWord::LastRows),
    ("record, last word equal", LastWord::Equal),
    ("record, third word alone", LastWord::ThirdWord),
    ("record, last word equal, last half", LastWord::EqualAtLast),
];

/// A block with this state, the identifiers of its record chosen so.
pub fn record(seed: u64, max: &[u64; 9], state: &Snap, last: LastWord) -> Vec<u8> {
    let r = &mut Rng::new(seed);
    let mut s = state.clone();
    let each = s.dropped.first().map_or(0, |d| d.1.len());
    let same: Vec<Id> = (0..each).map(|_| some_id(r)).collect();
    for (link, (_, notes)) in s.dropped.iter_mut().enumerate() {
        for (k, (id, _)) in notes.iter_mut().enumerate() {
            *id = if let LastWord::Same = last { same[k] } else { some_id(r) };
            let (words, word) = id.split_at_mut(24);
            let random = u64::from_be_bytes((&*word).try_into().unwrap());
            let here = random & !4095 | (4096 - WIDTH_OF_A_LINK * link as u64) % 4096;
            let chosen = match last {
                LastWord::Same | LastWord::Random => random,
                LastWord::LastBits => random & !4095,
                LastWord::OneBucket => here,
                LastWord::LastRows => if k * 10 < each * 9 { random } else { here },
                LastWord::Equal | LastWord::ThirdWord => 7,
                LastWord::EqualAtLast => if k * 2 < each { random } else { 7 },
            };
            word.copy_from_slice(&chosen.to_be_bytes());
            if let LastWord::ThirdWord = last {
                words[..16].fill(0);
            }
        }
    }
    let mut block = vec![0; block::need(max)];
    block::write_interleaved(&mut Rng::new(3), &mut block, max, &s, Some(Interleaving::Turns));
    block
}

/// Of how many links a record is, and how many notes it has of each.
const SHAPES: [(usize, usize); 8] =
    [(2, 1), (2, 100), (1, 256), (2, 129), (4, 256), (16, 256), (32, 128), (1, 257)];

/// A state with such a record.
fn state(links: usize, each: usize) -> Snap {
    let mut s = noted(&CEILINGS, (1, 1), Notes::Alone);
    let mut peers: Vec<u64> = s.eager.iter().chain(&s.lazy).copied().collect();
    peers.sort();
    s.dropped = peers[..links].iter().map(|p| (*p, vec![([0; ID], 3); each])).collect();
    s
}

/// The record of a block, as bytes.
struct Record {
    block: Vec<u8>,
    numbers: usize,
    notes: usize,
    n: usize,
}

impl Record {
    fn id(&self, row: usize) -> Id {
        self.block[self.notes + NOTE * row..][..ID].try_into().unwrap()
    }

    fn set_id(&mut self, row: usize, id: Id) {
        self.block[self.notes + NOTE * row..][..ID].copy_from_slice(&id);
    }

    /// Whether no link has more notes than it may, and none an identifier twice.
    fn is_whole(&self) -> bool {
        let numbers = &self.block[self.numbers..][..self.n];
        let of = |link| numbers.iter().filter(|&&number| number == link).count();
        let notes: HashSet<(u8, Id)> = (0..self.n).map(|row| (numbers[row], self.id(row))).collect();
        (0..=255).all(|link| of(link) <= MAX_OF_A_LINK) && notes.len() == self.n
    }

    /// Asks question 5.
    fn ask(&mut self) -> Result<bool, String> {
        let whole = self.is_whole();
        let told = library::whole(&mut self.block);
        if told == whole { Ok(whole) } else { Err(format!("question 5 says {told} where {whole} is right")) }
    }
}

/// Question 5 of such records: as they are, and with the identifier of one row over that of another one. Answers how often it was asked, and how often the answer was yes.
pub fn check() -> Result<(u64, u64), String> {
    let layout = Layout::of(&CEILINGS);
    let (mut asked, mut yes) = (0, 0);
    for (links, each) in SHAPES {
        let state = state(links, each);
        for (name, last) in CASES {
            let n = links * each;
            let block = record(5, &CEILINGS, &state, last);
            let mut record = Record { block, numbers: layout.dropped_numbers, notes: layout.dropped, n };
            let r = &mut Rng::new(11);
            let random = (0..8).map(|_| (r.below(n as u64) as usize, r.below(n as u64) as usize));
            let near = [(0, n - 1), (n - 1, 0), (0, links % n), (n - 1 - links % n, n - 1), (n / 2, (n / 2 + links) % n)];
            let pairs: Vec<_> = near.into_iter().chain(random).collect();
            let mut ask = |record: &mut Record| match record.ask() {
                Ok(whole) => {
                    (asked, yes) = (asked + 1, yes + u64::from(whole));
                    Ok(())
                }
                Err(why) => Err(format!("{name}, {each} of each of {links} links: {why}")),
            };
            ask(&mut record)?;
            for (from, to) in pairs {
                let kept = record.id(to);
                record.set_id(to, record.id(from));
                ask(&mut record)?;
                record.set_id(to, kept);
            }
        }
    }
    Ok((asked, yes))
}
