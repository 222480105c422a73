//! A state as plain values, and its line of text (README.md, `dump`).
use std::{
    cmp::Ordering,
    fmt::{Display, Write},
};

pub type Id = [u8; 32];

/// The order of identifiers, that of their bytes. Most differ in the first eight.
pub fn by_id(a: &Id, b: &Id) -> Ordering {
    let front = |id: &Id| u64::from_be_bytes(id[..8].try_into().unwrap());
    front(a).cmp(&front(b)).then_with(|| a.cmp(b))
}

/// A list of identifiers and rounds for a peer.
pub type Notes = Vec<(u64, Vec<(Id, u16)>)>;

/// What was grafted for an identifier.
#[derive(Clone, Debug, Default, PartialEq, Eq)]
pub struct Grafted {
    pub id: Id,
    pub expires: u64,
    pub first: Option<(u64, u16)>,
    pub kept: Option<u64>,
    pub peers: Vec<(u64, u16)>,
}

/// A cached message.
#[derive(Clone, Debug, Default, PartialEq, Eq)]
pub struct Cached {
    pub id: Id,
    pub expires: u64,
    pub round: u16,
    pub content: Vec<u8>,
}

/// Maps stand sorted by their keys, lists in their own order, expiry lists in the order they would
/// pop. The quiet neighbours stand among the lazy ones too.
#[derive(Clone, Debug, Default, PartialEq, Eq)]
pub struct Snap {
    pub me: u64,
    pub m: u64,
    pub cfg: [u64; 7],
    pub init: bool,
    pub dispatch: bool,
    pub announce: bool,
    pub eager: Vec<u64>,
    pub lazy: Vec<u64>,
    pub quiet: Vec<u64>,
    pub received: Vec<(Id, u64)>,
    pub rexp: Vec<(u64, Id)>,
    pub cache: Vec<Cached>,
    pub cexp: Vec<(u64, Id)>,
    pub grafted: Vec<Grafted>,
    pub gexp: Vec<(u64, Id)>,
    pub missing: Vec<(Id, Vec<(u64, u16)>)>,
    pub timers: Vec<Id>,
    pub queue: Notes,
    pub dropped: Notes,
}

/// Parted by `sep`, `-` if there is none.
fn list<T: Display>(items: impl Iterator<Item = T>, sep: char) -> String {
    let mut o = String::new();
    for (i, x) in items.enumerate() {
        if i > 0 {
            o.push(sep);
        }
        write!(o, "{x}").unwrap();
    }
    if o.is_empty() {
        o.push('-');
    }
    o
}

fn hex(id: &[u8]) -> String {
    hex::encode(id)
}

fn pairs(v: &[(u64, u16)]) -> String {
    list(v.iter().map(|(p, r)| format!("{p}:{r}")), '+')
}

fn expiry(v: &[(u64, Id)]) -> String {
    list(v.iter().map(|(t, id)| format!("{t}:{}", hex(id))), ',')
}

fn notes(v: &Notes) -> String {
    let entry = |l: &Vec<(Id, u16)>| list(l.iter().map(|(id, r)| format!("{}:{r}", hex(id))), '+');
    list(v.iter().map(|(p, l)| format!("{p}/{}", entry(l))), ',')
}

impl Snap {
    /// The line that the command `dump` answers and `load` takes.
    pub fn text(&self) -> String {
        let mut o = String::new();
        let cfg = list(self.cfg.iter(), ',');
        let flag = |f: bool| f as u8;
        write!(o, "me={} M={} cfg={cfg}", self.me, self.m).unwrap();
        write!(o, " init={} dispatch={}", flag(self.init), flag(self.dispatch)).unwrap();
        write!(o, " announce={}", flag(self.announce)).unwrap();
        let peers = |v: &Vec<u64>| list(v.iter(), ',');
        write!(o, " eager={} lazy={}", peers(&self.eager), peers(&self.lazy)).unwrap();
        if !self.quiet.is_empty() {
            write!(o, " quiet={}", peers(&self.quiet)).unwrap();
        }
        let v = list(self.received.iter().map(|(id, t)| format!("{}@{t}", hex(id))), ',');
        write!(o, " received={v} rexp={}", expiry(&self.rexp)).unwrap();
        let cached = |c: &Cached| {
            format!("{}@{}/{}/{}", hex(&c.id), c.expires, c.round, hex(&c.content))
        };
        let v = list(self.cache.iter().map(cached), ',');
        write!(o, " cache={v} cexp={}", expiry(&self.cexp)).unwrap();
        let grafted = |g: &Grafted| {
            let first = g.first.map_or("-".into(), |(p, r)| format!("{p}:{r}"));
            let kept = g.kept.map_or("-".into(), |p| p.to_string());
            format!("{}@{}/{first}/{kept}/{}", hex(&g.id), g.expires, pairs(&g.peers))
        };
        let v = list(self.grafted.iter().map(grafted), ',');
        write!(o, " grafted={v} gexp={}", expiry(&self.gexp)).unwrap();
        let v = list(self.missing.iter().map(|(id, l)| format!("{}/{}", hex(id), pairs(l))), ',');
        write!(o, " missing={v}").unwrap();
        write!(o, " timers={}", list(self.timers.iter().map(|id| hex(id)), ',')).unwrap();
        write!(o, " queue={} dropped={}", notes(&self.queue), notes(&self.dropped)).unwrap();
        o
    }
    /// What such a line tells. What it asks of the line is its form only.
    pub fn read(line: &str) -> Option<Snap> {
        let words: Vec<&str> = line.split_whitespace().collect();
        let get = |name: &str| -> Option<&str> {
            words.iter().find_map(|w| w.strip_prefix(name)?.strip_prefix('='))
        };
        let flag = |name: &str| get(name).map(|v| v == "1");
        let peers =
            |v: &str| -> Option<Vec<u64>> { items(v, ',').map(|p| p.parse().ok()).collect() };
        let cached = |e: &str| -> Option<Cached> {
            let (id, rest) = e.split_once('@')?;
            let [expires, round, content] = rest.split('/').collect::<Vec<_>>()[..] else {
                return None;
            };
            Some(Cached {
                id: unhex(id)?,
                expires: expires.parse().ok()?,
                round: round.parse().ok()?,
                content: hex::decode(content).ok()?,
            })
        };
        let grafted = |e: &str| -> Option<Grafted> {
            let (id, rest) = e.split_once('@')?;
            let [expires, first, kept, peers] = rest.split('/').collect::<Vec<_>>()[..] else {
                return None;
            };
            Some(Grafted {
                id: unhex(id)?,
                expires: expires.parse().ok()?,
                first: if first == "-" { None } else { Some(unpair(first, |p| p.parse().ok())?) },
                kept: if kept == "-" { None } else { Some(kept.parse().ok()?) },
                peers: unpairs(peers, |p| p.parse().ok())?,
            })
        };
        let received = |e: &str| -> Option<(Id, u64)> {
            let (id, expires) = e.split_once('@')?;
            Some((unhex(id)?, expires.parse().ok()?))
        };
        let missing = |e: &str| -> Option<(Id, Vec<(u64, u16)>)> {
            let (id, l) = e.split_once('/')?;
            Some((unhex(id)?, unpairs(l, |p| p.parse().ok())?))
        };
        Some(Snap {
            me: get("me")?.parse().ok()?,
            m: get("M")?.parse().ok()?,
            cfg: peers(get("cfg")?)?.try_into().ok()?,
            init: flag("init")?,
            dispatch: flag("dispatch")?,
            announce: flag("announce")?,
            eager: peers(get("eager")?)?,
            lazy: peers(get("lazy")?)?,
            quiet: peers(get("quiet").unwrap_or("-"))?,
            received: items(get("received")?, ',').map(received).collect::<Option<_>>()?,
            rexp: unexpiry(get("rexp")?)?,
            cache: items(get("cache")?, ',').map(cached).collect::<Option<_>>()?,
            cexp: unexpiry(get("cexp")?)?,
            grafted: items(get("grafted")?, ',').map(grafted).collect::<Option<_>>()?,
            gexp: unexpiry(get("gexp")?)?,
            missing: items(get("missing")?, ',').map(missing).collect::<Option<_>>()?,
            timers: items(get("timers")?, ',').map(unhex).collect::<Option<_>>()?,
            queue: unnotes(get("queue")?)?,
            dropped: unnotes(get("dropped")?)?,
        })
    }
}

fn items(s: &str, sep: char) -> impl Iterator<Item = &str> {
    s.split(sep).filter(move |_| s != "-")
}

fn unhex(s: &str) -> Option<Id> {
    let mut id = [0; 32];
    hex::decode_to_slice(s, &mut id).ok()?;
    Some(id)
}

fn unpair<A>(s: &str, read: fn(&str) -> Option<A>) -> Option<(A, u16)> {
    let (a, round) = s.split_once(':')?;
    Some((read(a)?, round.parse().ok()?))
}

fn unpairs<A>(s: &str, read: fn(&str) -> Option<A>) -> Option<Vec<(A, u16)>> {
    items(s, '+').map(|e| unpair(e, read)).collect()
}

fn unexpiry(s: &str) -> Option<Vec<(u64, Id)>> {
    let row = |e: &str| -> Option<(u64, Id)> {
        let (time, id) = e.split_once(':')?;
        Some((time.parse().ok()?, unhex(id)?))
    };
    items(s, ',').map(row).collect()
}

fn unnotes(s: &str) -> Option<Notes> {
    let of_peer = |e: &str| -> Option<(u64, Vec<(Id, u16)>)> {
        let (p, l) = e.split_once('/')?;
        Some((p.parse().ok()?, unpairs(l, unhex)?))
    };
    items(s, ',').map(of_peer).collect()
}
