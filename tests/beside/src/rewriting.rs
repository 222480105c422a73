//! Messages alone, rewritten by the library and by the Rust: read and written through its own serde derives.
use oracle::Message;

use crate::{
    lent::{Lent, Output},
    library,
    run::{holds, same, Same},
    wire::{self, Field},
};

/// A message is held against so many before it.
const KEPT: usize = 4;
/// The greatest M.
const GREATEST_M: usize = 4094;

/// Paths of rewrites.
pub const ABOUT: &[&str] = &[
    "rewrite: Gossip Swarm spelled longer",
    "rewrite: Gossip Neighbors spelled longer",
    "rewrite: Prune spelled longer",
    "rewrite: Graft with identifier spelled longer",
    "rewrite: Graft without identifier spelled longer",
    "rewrite: IHave spelled longer",
    "rewrite: spelled shortest",
    "rewrite: IHave of no entry",
    "rewrite: IHave of 128 entries or more",
    "rewrite: shortest form longer than any M",
    "rewrite: content of 65,536 bytes or more",
    "rewrite: shortest form fills the output",
    "rewrite: output shorter than the message",
    "rewrite: output left beyond the length",
    "rewrite: 7",
    "rewrite: 8",
    "rewrite: 9",
    "rewrite: 7 and no output",
    "rewrite: 8 and no output",
    "rewrite: 9 and no output",
    "rewrite: 7 behind an entry of an IHave",
    "rewrite: 8 behind an entry of an IHave",
    "rewrite: 14",
    "rewrite: 14 by one byte",
    "rewrite: 14 and no output",
    "rewrite: one meaning, two spellings",
    "rewrite: Gossip of another identifier",
    "rewrite: Gossip of another content",
    "rewrite: Gossip of another delivery",
    "rewrite: Gossip of another round",
    "rewrite: Graft with and without identifier",
    "rewrite: Graft of another identifier",
    "rewrite: Graft of another round",
    "rewrite: IHave entries exchanged",
    "rewrite: IHave entry repeated",
    "rewrite: IHave entry of another identifier",
    "rewrite: IHave entry of another round",
    "rewrite: messages of two kinds",
];

/// A message that was rewritten: as it came, as wire.rs and the Rust read it, and the library's bytes.
struct Kept {
    came: Vec<u8>,
    read: wire::Message,
    value: Message,
    form: Vec<u8>,
}

/// The last messages, and the paths that the calls took since they were asked for.
pub struct Rewriter {
    kept: Vec<Kept>,
    message: Lent,
    out: Output,
    pub about: Vec<&'static str>,
    pub calls: u64,
}

impl Rewriter {
    /// All of the output is looked at behind so many calls.
    pub fn new(every: u32) -> Rewriter {
        Rewriter {
            kept: Vec::new(),
            message: Lent::new(0),
            out: Output::new(every),
            about: Vec::new(),
            calls: 0,
        }
    }

    /// Goes on with the output of an earlier one.
    pub fn take_output(&mut self, old: Rewriter) {
        self.out = old.out;
    }

    /// At the end of a list: nothing was written beyond a length.
    pub fn end(&mut self) -> Same<()> {
        self.out.look().map_err(|e| format!("rewrite {e}"))
    }

    /// Rewrites a message into an output of so many bytes, and into outputs around its shortest form.
    pub fn run(&mut self, came: &[u8], room: usize) -> Same<()> {
        let (read, spelling) = wire::message(came);
        let value = Message::read(came);
        assert_eq!(spelling.question, value.as_ref().err().copied(), "{}", hex::encode(came));
        let form = value.as_ref().map(Message::to_bytes).map_err(|n| *n);
        let form = form.as_deref().map_err(|n| *n);
        self.message.put(came);
        self.call(form, room)?;
        self.call(form, 0)?;
        if let Ok(f) = form {
            self.call(form, f.len() - 1)?;
            self.call(form, f.len())?;
        }
        self.call(form, came.len())?;
        holds(self.message.part() == came, "rewrite changed the message")?;
        let (Ok(value), Some(read)) = (value, read) else {
            let behind = spelling.numbers.iter().any(|n| n.field == Field::EntryRound);
            match form {
                Err(7) if behind => self.about.push("rewrite: 7 behind an entry of an IHave"),
                Err(8) if behind => self.about.push("rewrite: 8 behind an entry of an IHave"),
                _ => {}
            }
            return Ok(());
        };
        // What was written is rewritten to itself.
        let ours = self.out.written().to_vec();
        self.message.put(&ours);
        self.call(Ok(&ours), ours.len()).map_err(|e| format!("rewritten again, {e}"))?;
        let new = Kept { came: came.to_vec(), read, value, form: ours };
        self.pairs(&new)?;
        self.told(&new);
        self.kept.truncate(KEPT - 1);
        self.kept.insert(0, new);
        Ok(())
    }

    /// One call. `form` is what the Rust writes for the lent message, or its question answered no.
    fn call(&mut self, form: Result<&[u8], u8>, room: usize) -> Same<()> {
        let (number, form): (u8, &[u8]) = match form {
            Ok(f) if f.len() <= room => (0, f),
            Ok(_) => (14, &[]),
            Err(n) => (n, &[]),
        };
        self.calls += 1;
        self.compared(number, form, room).map_err(|e| format!("rewrite {e} (room {room})"))?;
        let n = form.len();
        match number {
            0 if n == room => self.about.push("rewrite: shortest form fills the output"),
            0 if room < self.message.part().len() => {
                self.about.push("rewrite: output shorter than the message")
            }
            0 => self.about.push("rewrite: output left beyond the length"),
            7 if room == 0 => self.about.push("rewrite: 7 and no output"),
            8 if room == 0 => self.about.push("rewrite: 8 and no output"),
            9 if room == 0 => self.about.push("rewrite: 9 and no output"),
            7 => self.about.push("rewrite: 7"),
            8 => self.about.push("rewrite: 8"),
            9 => self.about.push("rewrite: 9"),
            _ if room == 0 => self.about.push("rewrite: 14 and no output"),
            _ => self.about.push("rewrite: 14"),
        }
        Ok(())
    }

    fn compared(&mut self, number: u8, form: &[u8], room: usize) -> Same<()> {
        self.out.lend(room, form.len())?;
        let (ours, length) = library::rewrite(self.message.part(), self.out.part_mut());
        holds(
            ours != 14 || room < self.message.part().len(),
            "14 for an output as long as the message",
        )?;
        same("answer", u64::from(number), ours)?;
        same("length", form.len() as u64, length)?;
        self.out.kept(form.len())?;
        if self.out.written() != form {
            let (a, b) = (hex::encode(form), hex::encode(self.out.written()));
            return Err(format!("bytes:\n  the Rust    {a}\n  the library {b}\n"));
        }
        holds(self.message.pads_kept(), "wrote outside of the message")
    }

    /// Two messages have equal bytes exactly where the Rust's values are equal.
    fn pairs(&mut self, new: &Kept) -> Same<()> {
        for old in &self.kept {
            same("rewrite equal bytes", old.value == new.value, old.form == new.form)?;
        }
        if let Some(name) = self.kept.first().and_then(|old| difference(old, new)) {
            self.about.push(name);
        }
        Ok(())
    }

    fn told(&mut self, new: &Kept) {
        if new.form.len() > 1 {
            self.about.push("rewrite: 14 by one byte");
        }
        if new.form.len() > GREATEST_M {
            self.about.push("rewrite: shortest form longer than any M");
        }
        match &new.read {
            wire::Message::Gossip { content, .. } if content.len() >= 65536 => {
                self.about.push("rewrite: content of 65,536 bytes or more")
            }
            wire::Message::IHave(list) if list.is_empty() => {
                self.about.push("rewrite: IHave of no entry")
            }
            wire::Message::IHave(list) if list.len() >= 128 => {
                self.about.push("rewrite: IHave of 128 entries or more")
            }
            _ => {}
        }
        if new.form.len() == new.came.len() {
            return self.about.push("rewrite: spelled shortest");
        }
        self.about.push(match &new.read {
            wire::Message::Gossip { round: Some(_), .. } => "rewrite: Gossip Swarm spelled longer",
            wire::Message::Gossip { round: None, .. } => "rewrite: Gossip Neighbors spelled longer",
            wire::Message::Prune => "rewrite: Prune spelled longer",
            wire::Message::Graft { id: Some(_), .. } => {
                "rewrite: Graft with identifier spelled longer"
            }
            wire::Message::Graft { id: None, .. } => {
                "rewrite: Graft without identifier spelled longer"
            }
            wire::Message::IHave(_) => "rewrite: IHave spelled longer",
        });
    }
}

/// In what two messages that follow each other differ, if in one thing only.
fn difference(old: &Kept, new: &Kept) -> Option<&'static str> {
    use wire::Message::{Gossip, Graft, IHave};
    if old.read == new.read {
        return (old.came != new.came).then_some("rewrite: one meaning, two spellings");
    }
    match (&old.read, &new.read) {
        (Gossip { id, content, round }, Gossip { id: i, content: c, round: r }) => {
            match (id == i, content == c, round == r) {
                (false, true, true) => Some("rewrite: Gossip of another identifier"),
                (true, false, true) => Some("rewrite: Gossip of another content"),
                (true, true, false) if round.is_some() != r.is_some() => {
                    Some("rewrite: Gossip of another delivery")
                }
                (true, true, false) => Some("rewrite: Gossip of another round"),
                _ => None,
            }
        }
        (Graft { id, round }, Graft { id: i, round: r }) => match (id == i, round == r) {
            (false, true) if id.is_some() != i.is_some() => {
                Some("rewrite: Graft with and without identifier")
            }
            (false, true) => Some("rewrite: Graft of another identifier"),
            (true, false) => Some("rewrite: Graft of another round"),
            _ => None,
        },
        (IHave(a), IHave(b)) if a.len() == b.len() => {
            let other: Vec<usize> = (0..a.len()).filter(|i| a[*i] != b[*i]).collect();
            match other[..] {
                [i] if a[i].0 == b[i].0 => Some("rewrite: IHave entry of another round"),
                [i] if a[i].1 == b[i].1 => Some("rewrite: IHave entry of another identifier"),
                [i, j] if a[i] == b[j] && a[j] == b[i] => Some("rewrite: IHave entries exchanged"),
                _ => None,
            }
        }
        (IHave(a), IHave(b)) if a.len().abs_diff(b.len()) == 1 => {
            let (less, more) = if a.len() < b.len() { (a, b) } else { (b, a) };
            let i = (0..less.len()).find(|i| less[*i] != more[*i]).unwrap_or(less.len());
            let once = less[i..] == more[i + 1..] && less.contains(&more[i]);
            once.then_some("rewrite: IHave entry repeated")
        }
        (IHave(_), IHave(_)) => None,
        _ => Some("rewrite: messages of two kinds"),
    }
}
