//! Events and messages whose numbers are spelled in other ways than the shortest.
use oracle::{identifier, snap::Snap};

use super::World;
use crate::{
    rng::Rng,
    wire::{self, Field, Spelled},
};

/// Numbers that are no message's kind, or no delivery's; the lowest byte or group of some is one.
const NO_KINDS: [u64; 12] =
    [2, 3, 4, 5, 127, 128, 129, 256, 1 << 14, 1 << 28, (1 << 28) + 1, (1 << 32) - 1];

/// The bytes of a Gossip beside its content: kind, identifier, a length of two bytes, delivery with a
/// round of one.
const BESIDE_CONTENT: usize = 37;
/// Those of an IHave beside its entries, and of an entry with a round of one byte.
const BESIDE_ENTRIES: usize = 2;
const ENTRY: usize = 33;

impl World {
    /// The event spelled otherwise, or another one that is.
    pub(super) fn respelled(&mut self, e: Vec<u8>, s: &Snap) -> Vec<u8> {
        let p = self.peer(s);
        match self.r.below(10) {
            0 => self.padded_to_m(p),
            1 => {
                let message = self.gossip(s, p);
                self.misspelled(message)
            }
            2 => {
                let message = if self.r.chance(50.0) { self.ihave(s, p) } else { self.graft(s, p) };
                self.misspelled(message)
            }
            3 => self.own_padded(e),
            _ => self.padded(e),
        }
    }

    /// The event with a number of its own, which must be shortest, one byte longer: its kind, what
    /// follows it, or the last byte of a broadcast.
    fn own_padded(&mut self, mut e: Vec<u8>) -> Vec<u8> {
        let last = if e[0] == 1 { e.len() - 1 } else { 1 };
        let mut at = self.r.pick(&[0, 1, last]);
        while e[at] >= 128 {
            at += 1;
        }
        e[at] |= 128;
        e.insert(at + 1, 0);
        e
    }

    /// The event with one number of its message padded, or many. One without a message stays.
    fn padded(&mut self, e: Vec<u8>) -> Vec<u8> {
        let numbers = wire::reading(&e).message();
        padded(&mut self.r, &e, &numbers)
    }

    /// A message whose shortest form has M bytes or some less.
    fn nearly_m(&mut self) -> Vec<u8> {
        let m = self.m as usize;
        if self.r.chance(50.0) {
            let body = vec![self.r.next() as u8; m - BESIDE_CONTENT - self.r.index(20)];
            let id = if self.r.chance(50.0) { identifier(&body) } else { self.id() };
            return wire::gossip(&id, &body, Some(self.r.below(12) as u16));
        }
        let n = (m - BESIDE_ENTRIES) / ENTRY;
        let list: Vec<_> = (0..n).map(|_| (self.id(), self.round() % 128)).collect();
        wire::ihave(&list)
    }

    /// Such a message padded at random to M bytes or a few more, as far as its numbers go.
    fn padded_to_m(&mut self, peer: u64) -> Vec<u8> {
        let message = self.nearly_m();
        let e = wire::recv(peer, &message);
        let numbers = wire::reading(&e).message();
        let mut long: Vec<usize> = numbers.iter().map(|n| n.long).collect();
        let size = self.m as usize + self.r.pick(&[0, 0, 1, 1, 2]);
        for _ in message.len()..size {
            let open = |i: &usize| long[*i] < numbers[*i].field.longest().0;
            let open: Vec<usize> = (0..long.len()).filter(open).collect();
            if !open.is_empty() {
                long[self.r.pick(&open)] += 1;
            }
        }
        spelled(&e, &numbers, &long)
    }

    /// The event with a number of its message misspelled.
    fn misspelled(&mut self, e: Vec<u8>) -> Vec<u8> {
        let numbers = wire::reading(&e).message();
        misspelled(&mut self.r, &e, &numbers)
    }
}

/// One of the numbers, each field as often as the others.
fn one_of(r: &mut Rng, numbers: &[Spelled]) -> usize {
    let there = |f: &Field| numbers.iter().any(|n| n.field == *f);
    let fields: Vec<Field> = Field::INSIDE.into_iter().filter(there).collect();
    let field = r.pick(&fields);
    let those = |i: &usize| numbers[*i].field == field;
    let those: Vec<usize> = (0..numbers.len()).filter(those).collect();
    r.pick(&those)
}

/// A length that the number can have, its greatest more often than others.
fn length_of(r: &mut Rng, n: &Spelled) -> usize {
    let (most, _) = n.field.longest();
    let any = n.long + r.index(most + 1 - n.long);
    r.pick(&[most, any, any])
}

/// The bytes, of an event or a message, with one of these numbers padded, or many.
pub fn padded(r: &mut Rng, bytes: &[u8], numbers: &[Spelled]) -> Vec<u8> {
    if numbers.is_empty() {
        return bytes.to_vec();
    }
    let mut long: Vec<usize> = numbers.iter().map(|n| n.long).collect();
    if r.chance(50.0) {
        let i = one_of(r, numbers);
        long[i] = length_of(r, &numbers[i]);
    } else {
        for (k, n) in long.iter_mut().zip(numbers) {
            if r.chance(50.0) {
                *k = length_of(r, n);
            }
        }
    }
    spelled(bytes, numbers, &long)
}

/// The number's own value, or one that its message cannot have: no kind, or more than follows.
fn value_for(r: &mut Rng, n: &Spelled) -> u64 {
    match (n.field, n.field.kinds()) {
        (_, Some(all)) if r.chance(60.0) => r.pick(&NO_KINDS).max(all),
        (Field::Length | Field::Count, _) if r.chance(20.0) => {
            r.pick(&[u64::MAX, 1 << 63, n.value.saturating_add(1 << 32)])
        }
        _ => n.value,
    }
}

/// The bytes with one of these numbers of any length up to one byte over the greatest, its last byte
/// too large, cut, or of another value.
pub(super) fn misspelled(r: &mut Rng, all: &[u8], numbers: &[Spelled]) -> Vec<u8> {
    let n = numbers[one_of(r, numbers)];
    let (most, top) = n.field.longest();
    let value = value_for(r, &n);
    let any = 1 + r.index(most + 1);
    let long = r.pick(&[any, most, most + 1]);
    let mut bytes = wire::spelling(value, long);
    if bytes.len() == most && r.chance(50.0) {
        bytes[most - 1] = r.pick(&[top + 1, top + 1, 127, 128, 255]);
    }
    let mut v = n.replaced(all, &bytes);
    if r.chance(40.0) {
        v.truncate(n.at + r.index(bytes.len()));
    }
    v
}

/// The bytes with these numbers, in the order in which they stand, in so many bytes each.
fn spelled(bytes: &[u8], numbers: &[Spelled], long: &[usize]) -> Vec<u8> {
    let mut v = Vec::with_capacity(bytes.len() + 10);
    let mut at = 0;
    for (n, k) in numbers.iter().zip(long) {
        v.extend_from_slice(&bytes[at..n.at]);
        v.extend(wire::spelling(n.value, *k));
        at = n.at + n.long;
    }
    v.extend_from_slice(&bytes[at..]);
    v
}
