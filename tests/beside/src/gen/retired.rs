//! Broadcasts with byte 1, each before a call and with that call's time, link room and output. They change nothing and are drawn apart from the calls, which stay
//! what they are without them.
use super::{World, TOP};
use crate::{rng::Rng, script::Cmd, wire};

pub struct Retired {
    r: Rng,
    /// Before so many calls of a hundred.
    rate: f64,
    /// How many there were.
    pub drawn: u64,
}

impl Retired {
    /// Those of a list; three lists in four have some.
    pub fn of(seed: u64, list: u64) -> Retired {
        let mut r = Rng::new(seed.rotate_left(8) ^ !list);
        r.next();
        let rate = r.pick(&[0.0, 1.0, 4.0, 12.0]);
        Retired { r, rate, drawn: 0 }
    }

    /// The next commands, with such broadcasts before their calls.
    pub fn next(&mut self, world: &World, list: Vec<Cmd>) -> Vec<Cmd> {
        let mut v = Vec::new();
        for c in list {
            if let Cmd::Event { now, rooms, event } = &c {
                if self.r.chance(self.rate) {
                    self.drawn += 1;
                    let now = if self.r.chance(5.0) { TOP + 1 } else { *now };
                    v.push(Cmd::Event { now, rooms: rooms.clone(), event: self.event(world, event) });
                }
            }
            v.push(c);
        }
        v
    }

    /// The call's own event with byte 1, where it is a broadcast, or one of any content; now and then one that an earlier question turns down.
    fn event(&mut self, world: &World, call: &[u8]) -> Vec<u8> {
        let mut e = match call {
            [1, .., 0] if self.r.chance(80.0) => call.to_vec(),
            _ => wire::broadcast(&self.content(world)),
        };
        e.pop();
        match self.r.below(30) {
            0 => {}
            1 => e.push(2),
            2 => e.extend([0x81, 0]),
            3 => e.extend([1, 0]),
            _ => e.push(1),
        }
        e
    }

    /// One of the list, or one around M.
    fn content(&mut self, world: &World) -> Vec<u8> {
        if self.r.chance(90.0) {
            return self.r.pick(&world.contents);
        }
        let n = world.m as usize - 40 + self.r.index(50);
        self.r.bytes(n)
    }
}
