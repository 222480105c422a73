//! Messages to be rewritten: those of the calls in other spellings, damaged, with one thing changed, and long ones. They are drawn apart from the calls.
use oracle::snap::Id;

use super::spell;
use crate::{
    rng::Rng,
    script::Cmd,
    wire::{self, Message},
};

pub struct Rewrites {
    r: Rng,
    m: usize,
}

impl Rewrites {
    /// Those of a list whose panel has this M.
    pub fn of(seed: u64, list: u64, m: u64) -> Rewrites {
        Rewrites { r: Rng::new(!seed.rotate_left(32) ^ list), m: m as usize }
    }

    /// One of any length: around M, where a content's length or a count gets a byte more, and far
    /// over any M.
    pub fn begin(&mut self) -> Vec<Cmd> {
        let r = &mut self.r;
        let id: Id = r.bytes(32).try_into().unwrap();
        let round = r.pick(&[None, Some(0), Some(127), Some(128), Some(16384), Some(65535)]);
        let near = self.m - 40 + r.index(44);
        let message = match r.below(16) {
            0 => wire::gossip(&id, &r.bytes(70_000), round),
            1 => wire::ihave(&vec![(id, round.unwrap_or(7)); 2_100]),
            2..=6 => {
                let n = r.pick(&[1, 2, 127, 128, 129, 300, self.m / 33 - 1, self.m / 33]);
                let list: Vec<_> = (0..n)
                    .map(|_| (r.bytes(32).try_into().unwrap(), r.pick(&[0, 127, 128, 16384])))
                    .collect();
                wire::ihave(&list)
            }
            7..=8 => {
                let n = r.pick(&[16_383, 16_384, 16_385]);
                wire::gossip(&id, &r.bytes(n), round)
            }
            _ => {
                let n = r.pick(&[0, 127, 128, near, near, near, 4094]);
                wire::gossip(&id, &r.bytes(n), round)
            }
        };
        let mut v = Vec::new();
        self.rewrites(&mut v, &message);
        v
    }

    /// Behind a call: the message that was received, as it came, whatever it is, and each that is sent.
    pub fn behind(&mut self, event: &[u8], actions: &[u8]) -> Vec<Cmd> {
        let mut v = Vec::new();
        match wire::received(event) {
            Some(message) => self.rewrites(&mut v, message),
            // Another event in a message's place.
            None if self.r.chance(10.0) => v.push(self.command(event.to_vec())),
            None => {}
        }
        let mut sent = wire::sent(actions);
        // One message goes to many peers.
        sent.dedup();
        for message in sent {
            self.rewrites(&mut v, message);
        }
        v
    }

    /// The message in one spelling or two, now and then damaged and with one thing changed.
    fn rewrites(&mut self, v: &mut Vec<Cmd>, message: &[u8]) {
        let (read, spelling) = wire::message(message);
        if self.r.chance(25.0) {
            v.push(self.command(message.to_vec()));
        }
        let padded = spell::padded(&mut self.r, message, &spelling.numbers);
        v.push(self.command(padded));
        if self.r.chance(10.0) {
            let damaged = match self.r.below(3) {
                0 => message[..self.r.index(message.len() + 1)].to_vec(),
                1 => {
                    let n = self.r.pick(&[1, 1, 2, 40]);
                    [message, &self.r.bytes(n)].concat()
                }
                _ if spelling.numbers.is_empty() => self.r.bytes(3),
                _ => spell::misspelled(&mut self.r, message, &spelling.numbers),
            };
            v.push(self.command(damaged));
        }
        if let Some(mut other) = read.filter(|_| self.r.chance(30.0)) {
            self.change(&mut other);
            let bytes = wire::message_bytes(&other);
            let numbers = wire::message(&bytes).1.numbers;
            let padded = spell::padded(&mut self.r, &bytes, &numbers);
            v.push(self.command(padded));
        }
    }

    fn command(&mut self, message: Vec<u8>) -> Cmd {
        let room = self.r.index(message.len() + 20);
        Cmd::Rewrite { message, room }
    }

    fn other_round(&mut self, round: u16) -> u16 {
        round ^ self.r.pick(&[1, 1, 2, 128, 16384])
    }

    fn other_id(&mut self, id: &mut Id) {
        id[self.r.index(32)] ^= 1 << self.r.below(8);
    }

    /// One thing of a message.
    fn change(&mut self, m: &mut Message) {
        match m {
            Message::Gossip { id, content, round } => match self.r.below(4) {
                0 => self.other_id(id),
                1 if content.is_empty() => content.push(7),
                1 => {
                    let i = self.r.index(content.len());
                    content[i] ^= 1 << self.r.below(8);
                }
                2 => *round = if round.is_some() { None } else { Some(0) },
                _ => *round = Some(round.map_or(0, |x| self.other_round(x))),
            },
            Message::Prune => *m = Message::Graft { id: None, round: 0 },
            Message::Graft { id, round } => match (self.r.below(3), id) {
                (0, Some(id)) => self.other_id(id),
                (1, Some(_)) => *m = Message::Graft { id: None, round: *round },
                (1, None) => *m = Message::Graft { id: Some([7; 32]), round: *round },
                _ => *round = self.other_round(*round),
            },
            Message::IHave(list) if list.is_empty() => list.push(([7; 32], 0)),
            Message::IHave(list) => {
                let (i, j) = (self.r.index(list.len()), self.r.index(list.len()));
                match self.r.below(4) {
                    0 => list.swap(i, j),
                    1 => list.insert(j, list[i]),
                    2 => list[i].1 = self.other_round(list[i].1),
                    _ => self.other_id(&mut list[i].0),
                }
            }
        }
    }
}
