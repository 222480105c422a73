//! Numbers in groups of seven bits, and a reader that goes from the left and stops at the first fault, as the library's does.
use crate::Error;

/// Appends a number: groups of seven bits, the lowest first, the high bit on all but the last.
///
/// ```
/// let mut out = Vec::new();
/// plumtree::write_number(&mut out, 300);
/// assert_eq!(out, [0xac, 0x02]);
/// ```
pub fn write_number(out: &mut Vec<u8>, mut value: u64) {
    while value >= 128 {
        out.push((value & 127) as u8 | 128);
        value >>= 7;
    }
    out.push(value as u8);
}

/// Reads a number of 64 bits from the left and answers it with the bytes after it; [`Error::EventCut`] where they end before it does,
/// [`Error::EventMalformed`] where it is too wide or not shortest.
///
/// ```
/// assert_eq!(plumtree::read_number(&[0xac, 0x02, 5]), Ok((300, &[5][..])));
/// ```
pub fn read_number(bytes: &[u8]) -> Result<(u64, &[u8]), Error> {
    let mut r = Reader(bytes);
    let value = r.number(Spelling::Shortest)?;
    Ok((value, r.0))
}

/// Which forms of a number are read.
#[derive(Clone, Copy, PartialEq, Eq)]
pub(crate) enum Spelling {
    /// The shortest alone: an event's own fields, and actions.
    Shortest,
    /// Padded ones too, up to the number's greatest length: inside a received message.
    Padded,
}

/// What is left to read.
pub(crate) struct Reader<'a>(pub(crate) &'a [u8]);

impl<'a> Reader<'a> {
    pub(crate) fn take(&mut self, n: u64) -> Result<&'a [u8], Error> {
        let n = usize::try_from(n).map_err(|_| Error::EventCut)?;
        let (taken, rest) = self.0.split_at_checked(n).ok_or(Error::EventCut)?;
        self.0 = rest;
        Ok(taken)
    }

    pub(crate) fn byte(&mut self) -> Result<u8, Error> {
        Ok(self.take(1)?[0])
    }

    /// A number of so many bits: "a number's last allowed byte, if it goes on or is too large, is 8".
    fn groups(&mut self, bits: u32, spelling: Spelling) -> Result<u64, Error> {
        let mut value = 0;
        let mut shift = 0;
        loop {
            let b = self.byte()?;
            let left = bits - shift;
            if left < 8 && b >> left != 0 {
                return Err(Error::EventMalformed);
            }
            if b == 0 && shift > 0 && spelling == Spelling::Shortest {
                return Err(Error::EventMalformed);
            }
            value |= u64::from(b & 127) << shift;
            if b < 128 {
                return Ok(value);
            }
            shift += 7;
        }
    }

    /// A peer, a time, a length or a count.
    pub(crate) fn number(&mut self, spelling: Spelling) -> Result<u64, Error> {
        self.groups(64, spelling)
    }

    /// A message's or a delivery's kind, not judged yet.
    pub(crate) fn kind(&mut self, spelling: Spelling) -> Result<u64, Error> {
        self.groups(32, spelling)
    }

    pub(crate) fn round(&mut self, spelling: Spelling) -> Result<u16, Error> {
        Ok(self.groups(16, spelling)? as u16)
    }

    pub(crate) fn id(&mut self) -> Result<[u8; 32], Error> {
        Ok(self.take(32)?.try_into().expect("32 bytes"))
    }

    pub(crate) fn content(&mut self, spelling: Spelling) -> Result<&'a [u8], Error> {
        let n = self.number(spelling)?;
        self.take(n)
    }

    /// A byte of which only 0 and 1 are known.
    pub(crate) fn flag(&mut self) -> Result<bool, Error> {
        match self.byte()? {
            0 => Ok(false),
            1 => Ok(true),
            _ => Err(Error::EventMalformed),
        }
    }

    /// (9) "Do the bytes end there?"
    pub(crate) fn end(&self) -> Result<(), Error> {
        if self.0.is_empty() {
            Ok(())
        } else {
            Err(Error::EventTooLong)
        }
    }
}
