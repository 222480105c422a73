//! The library, through its binding for Rust (bindings/rust). Everything that knows its names and forms is in this file.
use plumtree::{raw, Config, Limits, LinkRoom, Settings, Stats};

/// The counts record between two pads.
#[repr(C)]
struct Lent {
    before: [u64; 4],
    counts: Stats,
    after: [u64; 4],
}

const PATTERN: [u64; 4] = [0xa5a5_a5a5_a5a5_a5a5; 4];

impl Lent {
    fn new(c: &[u64; 3]) -> Lent {
        let counts = Stats {
            payload_messages_received: c[0],
            control_messages_received: c[1],
            max_last_delivery_hop: c[2] as u16,
        };
        Lent { before: PATTERN, counts, after: PATTERN }
    }

    fn told(&self) -> [u64; 3] {
        let c = &self.counts;
        [c.payload_messages_received, c.control_messages_received, c.max_last_delivery_hop.into()]
    }

    fn answer(&self, a: raw::Answer) -> Answer {
        let kept = self.before == PATTERN && self.after == PATTERN;
        Answer { number: a.number.into(), length: a.length as u64, kept }
    }
}

/// What a call answers, and whether the bytes around the counts record kept their values.
#[derive(Debug, PartialEq)]
pub struct Answer {
    pub number: u64,
    pub length: u64,
    pub kept: bool,
}

fn limits(l: [u64; 9]) -> Limits {
    let [neighbours, received, cached, content, grafted, missing, timers, queued, dropped] =
        l.map(|x| x as usize);
    Limits { neighbours, received, cached, content, grafted, missing, timers, queued, dropped }
}

/// The bytes a block with these limits needs.
pub fn block_size(max: [u64; 9]) -> u64 {
    raw::block_size(limits(max)) as u64
}

/// The output that is always enough, by the binding's count.
pub fn output_size(max: [u64; 9], m: u64) -> u64 {
    limits(max).output_size(m) as u64
}

/// Creation: own peer number, M, the seven of `Config`, the nine limits.
pub fn create(
    block: &mut [u8],
    counts: &mut [u64; 3],
    me: u64,
    m: u64,
    cfg: [u64; 7],
    max: [u64; 9],
) -> Answer {
    let config = Config {
        graft_timeout_1: cfg[0],
        graft_timeout_2: cfg[1],
        dispatch_timeout: cfg[2],
        optimization_threshold: cfg[3] as u16,
        message_cache_retention: cfg[4],
        message_id_retention: cfg[5],
        cache_evict_interval: cfg[6],
    };
    let settings = Settings { config, max_message_size: m, me };
    let mut lent = Lent::new(counts);
    let a = raw::create(block, &mut lent.counts, settings, limits(max));
    *counts = lent.told();
    lent.answer(a)
}

/// An event call.
pub fn event(
    block: &mut [u8],
    counts: &mut [u64; 3],
    now: u64,
    event: &[u8],
    rooms: &[(u64, u16)],
    out: &mut [u8],
) -> Answer {
    let rooms: Vec<LinkRoom> = rooms.iter().map(|&(peer, room)| LinkRoom { peer, room }).collect();
    let mut lent = Lent::new(counts);
    let a = raw::event(block, &mut lent.counts, now, event, &rooms, out);
    *counts = lent.told();
    lent.answer(a)
}

/// Which limit a call meets, by its number; 0 where it meets none.
pub fn limit_met(block: &[u8], now: u64, event: &[u8], rooms: &[(u64, u16)]) -> u64 {
    let rooms: Vec<LinkRoom> = rooms.iter().map(|&(peer, room)| LinkRoom { peer, room }).collect();
    raw::limit_met(block, now, event, &rooms).into()
}

/// Question 5, asked by a call whose time is over 2^62: the answer is 5, or 6 if the block is whole.
pub fn whole(block: &mut [u8]) -> bool {
    let a = event(block, &mut [0; 3], u64::MAX, &[], &[], &mut []);
    assert!(a.number == 5 || a.number == 6, "a call out of time answers {}", a.number);
    a.number == 6
}

/// A message in its shortest form: the number and the length.
pub fn rewrite(message: &[u8], out: &mut [u8]) -> (u64, u64) {
    let a = raw::rewrite(message, out);
    (a.number.into(), a.length as u64)
}

/// A saving: the number and the length.
pub fn save(block: &[u8], counts: [u64; 3], area: &mut [u8], name: u64) -> (u64, u64) {
    let a = raw::save(block, Lent::new(&counts).counts, area, name);
    (a.number.into(), a.length as u64)
}

/// A return.
pub fn go_back(block: &mut [u8], counts: &mut [u64; 3], area: &[u8], name: u64) -> Answer {
    let mut lent = Lent::new(counts);
    let a = raw::go_back(block, &mut lent.counts, area, name);
    *counts = lent.told();
    lent.answer(a)
}

/// *Alike*: the number, and yes or no.
pub fn alike(a: &[u8], b: &[u8]) -> (u64, bool) {
    let r = raw::alike(a, b);
    (r.number.into(), r.alike)
}
