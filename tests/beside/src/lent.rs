//! What is lent to the library: bytes between two pads that it must not touch, and outputs, of which it must not touch what lies beyond the length either.
use crate::run::{holds, Same};

/// Bytes kept around everything that is lent.
const PAD: usize = 64;
pub const PATTERN: u8 = 0xa5;
/// All of an output is looked at behind so many calls.
pub const SELDOM: u32 = 256;

/// Whether each byte is this one: the first is, and each is as the one before it.
pub fn all_are(v: &[u8], byte: u8) -> bool {
    v.first().is_none_or(|b| *b == byte && v[1..] == v[..v.len() - 1])
}

/// A lent part between two pads.
pub struct Lent {
    bytes: Vec<u8>,
    len: usize,
    pad: u8,
}

impl Lent {
    /// A part of so many bytes of any value.
    pub fn new(len: usize) -> Lent {
        let mut lent = Lent { bytes: Vec::new(), len: 0, pad: PATTERN };
        lent.set_len(len);
        lent
    }

    /// From here on the part has so many bytes, of any value.
    pub fn set_len(&mut self, len: usize) {
        (self.len, self.pad) = (len, PATTERN);
        self.bytes.resize(len + 2 * PAD, PATTERN);
        self.bytes[..PAD].fill(PATTERN);
        self.bytes[PAD + len..].fill(PATTERN);
    }

    /// From here on the part has these bytes.
    pub fn put(&mut self, bytes: &[u8]) {
        self.put_front(bytes, bytes.len(), PATTERN);
    }

    /// From here on the part has these bytes, with zeros behind them up to a length, between pads of this byte, which a step beyond the part would read.
    pub fn put_front(&mut self, front: &[u8], len: usize, pad: u8) {
        (self.len, self.pad) = (len, pad);
        self.bytes.clear();
        self.bytes.reserve(len + 2 * PAD);
        self.bytes.extend_from_slice(&[pad; PAD]);
        self.bytes.extend_from_slice(front);
        self.bytes.resize(PAD + len, 0);
        self.bytes.extend_from_slice(&[pad; PAD]);
    }

    pub fn part(&self) -> &[u8] {
        &self.bytes[PAD..PAD + self.len]
    }

    pub fn part_mut(&mut self) -> &mut [u8] {
        &mut self.bytes[PAD..PAD + self.len]
    }

    pub fn pads_kept(&self) -> bool {
        let p = |v: &[u8]| all_are(v, self.pad);
        p(&self.bytes[..PAD]) && p(&self.bytes[PAD + self.len..])
    }
}

/// A block. Where a call must not change it, its bytes are noted before, unless they are since an earlier call.
pub struct Block {
    lent: Lent,
    noted: Vec<u8>,
    is_noted: bool,
}

impl Block {
    /// A block of so many bytes of any value.
    pub fn new(len: usize) -> Block {
        Block { lent: Lent::new(len), noted: Vec::new(), is_noted: false }
    }

    /// A block with these bytes.
    pub fn of(bytes: &[u8]) -> Block {
        let mut block = Block::new(0);
        block.put(bytes);
        block
    }

    /// From here on the block has so many bytes, of any value.
    pub fn set_len(&mut self, len: usize) {
        self.lent.set_len(len);
        self.is_noted = false;
    }

    /// From here on the block has these bytes.
    pub fn put(&mut self, bytes: &[u8]) {
        self.lent.put(bytes);
        self.is_noted = false;
    }

    pub fn part(&self) -> &[u8] {
        self.lent.part()
    }

    pub fn part_mut(&mut self) -> &mut [u8] {
        self.lent.part_mut()
    }

    pub fn pads_kept(&self) -> bool {
        self.lent.pads_kept()
    }

    /// The bytes of now are those that it should have, until it is changed.
    pub fn note(&mut self) {
        if !self.is_noted {
            self.noted.clear();
            self.noted.extend_from_slice(self.lent.part());
            self.is_noted = true;
        }
    }

    /// It was changed by a call that may do so, or by the harness.
    pub fn changed(&mut self) {
        self.is_noted = false;
    }

    /// The bytes that it should have.
    pub fn noted(&self) -> &[u8] {
        assert!(self.is_noted, "bytes that are not noted");
        &self.noted
    }

    pub fn unchanged(&self) -> bool {
        self.part() == self.noted()
    }
}

/// An output. Its bytes are `PATTERN`; each call is lent a front of them, and what it may write, up to the length that it answers, is set back before the next one.
///
/// All others must stay as they are. Behind each call this is asked of as many as calls have used since all were looked at, and of the last ones of the part with the pads; of all
/// that were lent, with the pads, behind every `every`th call, sooner where as many bytes were looked at since, and at the end of a list. Where a call is about to use more, it is
/// first asked of those. So a byte that was written beyond a length is found in the same list, by this call or a later one, unless somebody writes `PATTERN` there again.
pub struct Output {
    bytes: Vec<u8>,
    len: usize,
    /// The most bytes lent since all were looked at.
    most: usize,
    /// So many bytes the last call has written.
    written: usize,
    /// So many bytes are looked at behind each call.
    used: usize,
    /// Calls since all were looked at, and the bytes that were looked at behind them.
    calls: u32,
    looked_at: usize,
    every: u32,
}

impl Output {
    pub fn new(every: u32) -> Output {
        let bytes = vec![PATTERN; 2 * PAD];
        Output { bytes, len: 0, most: 0, written: 0, used: 0, calls: 0, looked_at: 0, every }
    }

    /// Lends so many bytes to a call that should write `expected` of them.
    pub fn lend(&mut self, len: usize, expected: usize) -> Same<()> {
        self.bytes[PAD..PAD + self.written].fill(PATTERN);
        self.written = 0;
        if self.bytes.len() < len + 2 * PAD {
            self.bytes.resize(len + 2 * PAD, PATTERN);
        }
        self.len = len;
        self.most = self.most.max(len);
        self.untouched(self.used, expected)?;
        self.used = self.used.max(expected);
        Ok(())
    }

    /// The lent bytes.
    pub fn part_mut(&mut self) -> &mut [u8] {
        &mut self.bytes[PAD..PAD + self.len]
    }

    /// What the last call has written.
    pub fn written(&self) -> &[u8] {
        &self.bytes[PAD..PAD + self.written]
    }

    /// Behind a call that answered this length: nothing beyond it was written.
    pub fn kept(&mut self, length: usize) -> Same<()> {
        holds(length <= self.len, "a length beyond the output")?;
        self.written = length;
        self.used = self.used.max(length);
        self.calls += 1;
        self.looked_at += self.used;
        if self.calls >= self.every || self.looked_at > self.most {
            return self.look();
        }
        let last = self.len.saturating_sub(PAD).max(length);
        self.untouched(length, self.used.min(self.len))?;
        self.untouched(last, self.len)?;
        self.pads(self.used.saturating_sub(self.len).max(PAD))
    }

    /// Nothing but what the last call may write was written.
    pub fn look(&mut self) -> Same<()> {
        let most = std::mem::replace(&mut self.most, self.len);
        (self.calls, self.looked_at, self.used) = (0, 0, self.written);
        self.untouched(self.written, self.len)?;
        self.pads(most - self.len + PAD)
    }

    /// The part's bytes from one place up to another, if there are any.
    fn untouched(&self, from: usize, to: usize) -> Same<()> {
        let kept = from >= to || all_are(&self.bytes[PAD + from..PAD + to], PATTERN);
        holds(kept, "wrote beyond the length")
    }

    /// The pad before the part, and so many bytes behind it.
    fn pads(&self, behind: usize) -> Same<()> {
        let p = |v: &[u8]| all_are(v, PATTERN);
        let kept = p(&self.bytes[..PAD]) && p(&self.bytes[PAD + self.len..][..behind]);
        holds(kept, "wrote outside of the output")
    }
}
