//! Lists of calls and rewrites, and their text: the oracle's commands (tests/rust/README.md), with `alike`,
//! `poke`, `cut` and `undo` for the block, which the oracle has none of, `area`, `save`, `saveother`, `return`,
//! `pokearea`, `cutarea` and `undoarea` for named states, and `second`, `reordered`, `aside` and `together` for a second panel.
use std::fmt::Write;

use oracle::{snap::Snap, Panel};

#[derive(Clone, Debug, PartialEq)]
pub enum Cmd {
    New {
        me: u64,
        m: u64,
        cfg: [u64; 7],
    },
    /// The nine limits and the output's length. Behind a `New` it creates; later on only the
    /// output's length may change.
    Limits {
        max: [u64; 9],
        out: usize,
    },
    Load(Box<Snap>),
    Counts([u64; 3]),
    Event {
        now: u64,
        rooms: Vec<(u64, u16)>,
        event: Vec<u8>,
    },
    /// A message alone, to be rewritten into an output of so many bytes.
    Rewrite {
        message: Vec<u8>,
        room: usize,
    },
    /// *Alike*, of the block and one with these limits and this state.
    Alike {
        max: [u64; 9],
        state: Box<Snap>,
    },
    /// Changes bytes of the block.
    Poke(Vec<(usize, u8)>),
    /// Lends only so many bytes of the block.
    Cut(usize),
    /// Takes back the last poke or cut and what came after it.
    Undo,
    /// A new area of so many zeros.
    Area(usize),
    /// Saves the panel under this name.
    Save(u64),
    /// Saves another panel under this name: its counts, limits and state, in a block as long as this one.
    SaveOther {
        name: u64,
        counts: [u64; 3],
        max: [u64; 9],
        state: Box<Snap>,
    },
    /// Returns to this name.
    Return(u64),
    /// Changes bytes of the area.
    PokeArea(Vec<(usize, u8)>),
    /// Lends only so many bytes of the area.
    CutArea(usize),
    /// Takes back what was done to the area, and what came after it.
    UndoArea,
    /// A second panel with this state and these counts, in another block, drawn by a seed; the calls behind it go to both.
    Second(u64),
    /// The same, with one list of this kind in another order.
    Reordered(usize, u64),
    /// Puts the panel aside; another one is created next.
    Aside,
    /// The panel that was put aside is the second one from here on. The number says of which kind the two lists of calls are.
    Together(usize),
}

fn hex_or_dash(b: &[u8]) -> String {
    if b.is_empty() {
        "-".into()
    } else {
        hex::encode(b)
    }
}

fn unhex(s: &str) -> Option<Vec<u8>> {
    if s == "-" {
        Some(vec![])
    } else {
        hex::decode(s).ok()
    }
}

fn list<T, F: Fn(&T) -> String>(v: &[T], f: F) -> String {
    if v.is_empty() {
        return "-".into();
    }
    v.iter().map(f).collect::<Vec<_>>().join(",")
}

/// The state of a line of text.
fn state(text: &str) -> Option<Box<Snap>> {
    Some(Box::new(Panel::load(text)?.snap()))
}

fn words<T: ToString>(v: &[T]) -> String {
    v.iter().map(|x| x.to_string()).collect::<Vec<_>>().join(" ")
}

impl Cmd {
    pub fn text(&self) -> String {
        match self {
            Cmd::New { me, m, cfg } => format!("new {me} {m} {}", words(cfg)),
            Cmd::Limits { max, out } => format!("limits {} {out}", words(max)),
            Cmd::Load(state) => format!("load {}", state.text()),
            Cmd::Counts(c) => format!("stats {}", words(c)),
            Cmd::Event { now, rooms, event } => {
                let rooms = list(rooms, |(p, r)| format!("{p}:{r}"));
                format!("ev {now} {rooms} {}", hex_or_dash(event))
            }
            Cmd::Rewrite { message, room } => format!("rewrite {} {room}", hex_or_dash(message)),
            Cmd::Alike { max, state } => format!("alike {} {}", words(max), state.text()),
            Cmd::Poke(v) => format!("poke {}", list(v, |(i, b)| format!("{i}:{b}"))),
            Cmd::Cut(n) => format!("cut {n}"),
            Cmd::Undo => "undo".into(),
            Cmd::Area(n) => format!("area {n}"),
            Cmd::Save(name) => format!("save {name}"),
            Cmd::SaveOther { name, counts, max, state } => {
                format!("saveother {name} {} {} {}", words(counts), words(max), state.text())
            }
            Cmd::Return(name) => format!("return {name}"),
            Cmd::PokeArea(v) => format!("pokearea {}", list(v, |(i, b)| format!("{i}:{b}"))),
            Cmd::CutArea(n) => format!("cutarea {n}"),
            Cmd::UndoArea => "undoarea".into(),
            Cmd::Second(seed) => format!("second {seed}"),
            Cmd::Reordered(list, seed) => format!("reordered {list} {seed}"),
            Cmd::Aside => "aside".into(),
            Cmd::Together(kind) => format!("together {kind}"),
        }
    }

    pub fn parse(line: &str) -> Option<Cmd> {
        let w: Vec<&str> = line.split_whitespace().collect();
        let nums = || w[1..].iter().map(|x| x.parse().ok()).collect::<Option<Vec<u64>>>();
        let pairs = |s: &str| -> Option<Vec<(u64, u64)>> {
            if s == "-" {
                return Some(vec![]);
            }
            s.split(',')
                .map(|e| {
                    let (a, b) = e.split_once(':')?;
                    Some((a.parse().ok()?, b.parse().ok()?))
                })
                .collect()
        };
        let some = |from: usize, to: usize| -> Option<Vec<u64>> {
            w.get(from..to)?.iter().map(|x| x.parse().ok()).collect()
        };
        let pokes = || -> Option<Vec<(usize, u8)>> {
            Some(pairs(w.get(1)?)?.iter().map(|e| (e.0 as usize, e.1 as u8)).collect())
        };
        Some(match *w.first()? {
            "new" => {
                let v = nums()?;
                Cmd::New { me: *v.first()?, m: *v.get(1)?, cfg: v.get(2..)?.try_into().ok()? }
            }
            "limits" => {
                let v = nums()?;
                Cmd::Limits { max: v.get(..9)?.try_into().ok()?, out: *v.get(9)? as usize }
            }
            "load" => Cmd::Load(state(line.trim().strip_prefix("load")?)?),
            "stats" => Cmd::Counts(nums()?.try_into().ok()?),
            "ev" => Cmd::Event {
                now: w.get(1)?.parse().ok()?,
                rooms: pairs(w.get(2)?)?.iter().map(|e| (e.0, e.1 as u16)).collect(),
                event: unhex(w.get(3)?)?,
            },
            "rewrite" => Cmd::Rewrite { message: unhex(w.get(1)?)?, room: w.get(2)?.parse().ok()? },
            "alike" => Cmd::Alike {
                max: some(1, 10)?.try_into().ok()?,
                state: state(&w.get(10..)?.join(" "))?,
            },
            "poke" => Cmd::Poke(pokes()?),
            "area" => Cmd::Area(*nums()?.first()? as usize),
            "save" => Cmd::Save(*nums()?.first()?),
            "saveother" => Cmd::SaveOther {
                name: w.get(1)?.parse().ok()?,
                counts: some(2, 5)?.try_into().ok()?,
                max: some(5, 14)?.try_into().ok()?,
                state: state(&w.get(14..)?.join(" "))?,
            },
            "return" => Cmd::Return(*nums()?.first()?),
            "pokearea" => Cmd::PokeArea(pokes()?),
            "cutarea" => Cmd::CutArea(*nums()?.first()? as usize),
            "undoarea" => Cmd::UndoArea,
            "second" => Cmd::Second(*nums()?.first()?),
            "reordered" => Cmd::Reordered(w.get(1)?.parse().ok()?, w.get(2)?.parse().ok()?),
            "aside" => Cmd::Aside,
            "together" => Cmd::Together(w.get(1)?.parse().ok()?),
            "cut" => Cmd::Cut(*nums()?.first()? as usize),
            "undo" => Cmd::Undo,
            _ => return None,
        })
    }
}

pub fn text(list: &[Cmd]) -> String {
    let mut o = String::new();
    for c in list {
        writeln!(o, "{}", c.text()).unwrap();
    }
    o
}

/// Reads a script; blank lines, `#` lines and `dump` are passed over.
pub fn parse(text: &str) -> Result<Vec<Cmd>, String> {
    let mut v = Vec::new();
    for line in text.lines() {
        let l = line.trim();
        if l.is_empty() || l.starts_with('#') || l == "dump" {
            continue;
        }
        v.push(Cmd::parse(l).ok_or_else(|| format!("not understood: {l}"))?);
    }
    Ok(v)
}
