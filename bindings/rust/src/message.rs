use std::fmt;

use crate::text;
use crate::wire::{write_number, Reader, Spelling};
use crate::{raw, Error};

/// The identifier of a message: BLAKE3 of its content.
pub type Id = [u8; 32];

/// How far a message goes.
#[derive(Clone, Copy, Debug, PartialEq, Eq, Hash)]
pub enum Delivery {
    /// To all panels; it has made so many hops.
    Swarm {
        /// How many hops it has made.
        round: u16,
    },
    /// To the sender's eager neighbours alone. Such messages come from older panels; they are emitted, and go no further.
    Neighbors,
}

/// One entry of an IHave.
#[derive(Clone, Copy, Debug, PartialEq, Eq, Hash)]
pub struct Announced {
    /// The message's identifier.
    pub id: Id,
    /// The round of the announcer's copy.
    pub round: u16,
}

/// What goes over a link from panel to panel.
#[derive(Clone, Debug, PartialEq, Eq, Hash)]
pub enum Message<'a> {
    /// The payload.
    Gossip {
        /// Its identifier. A message whose identifier is not that of its content is counted and nothing else.
        id: Id,
        /// The content.
        content: &'a [u8],
        /// How far it goes.
        delivery: Delivery,
    },
    /// Asks for announcements in place of payload.
    Prune,
    /// Asks for payload, and for one message, if it names one.
    Graft {
        /// The identifier of the message that is asked for.
        id: Option<Id>,
        /// The round at which it was announced.
        round: u16,
    },
    /// Announces messages that the sender has.
    IHave(Vec<Announced>),
}

impl<'a> Message<'a> {
    /// Reads a message that is these bytes, as the library reads one that came: questions 7, 8 and 9 of them. Kinds, lengths, counts and rounds
    /// may be padded: a kind to five bytes, a length or a count to ten, a round to three.
    ///
    /// ```
    /// use plumtree::{Error, Message};
    /// assert_eq!(Message::read(&[2, 0, 3]), Ok(Message::Graft { id: None, round: 3 }));
    /// assert_eq!(Message::read(&[2, 0, 0x83, 0x00]), Ok(Message::Graft { id: None, round: 3 }));
    /// assert_eq!(Message::read(&[2, 0]), Err(Error::EventCut));
    /// assert_eq!(Message::read(&[2, 2, 3]), Err(Error::EventMalformed));
    /// assert_eq!(Message::read(&[1, 0]), Err(Error::EventTooLong));
    /// ```
    pub fn read(bytes: &'a [u8]) -> Result<Message<'a>, Error> {
        let mut r = Reader(bytes);
        let message = Message::take(&mut r, Spelling::Padded)?;
        r.end()?;
        Ok(message)
    }

    /// Appends the message's bytes, as they go over a link: numbers in their shortest form.
    pub fn write(&self, out: &mut Vec<u8>) {
        match self {
            Message::Gossip { id, content, delivery } => {
                out.push(0);
                out.extend_from_slice(id);
                write_number(out, content.len() as u64);
                out.extend_from_slice(content);
                delivery.write(out);
            }
            Message::Prune => out.push(1),
            Message::Graft { id, round } => {
                out.push(2);
                out.push(id.is_some().into());
                if let Some(id) = id {
                    out.extend_from_slice(id);
                }
                write_number(out, (*round).into());
            }
            Message::IHave(list) => {
                out.push(3);
                write_number(out, list.len() as u64);
                for Announced { id, round } in list {
                    out.extend_from_slice(id);
                    write_number(out, (*round).into());
                }
            }
        }
    }

    /// The message's bytes, as they go over a link: numbers in their shortest form.
    pub fn to_bytes(&self) -> Vec<u8> {
        let mut out = Vec::new();
        self.write(&mut out);
        out
    }

    /// A message whose numbers stand in these forms. Its kind is judged at its last byte.
    pub(crate) fn take(r: &mut Reader<'a>, spelling: Spelling) -> Result<Message<'a>, Error> {
        match r.kind(spelling)? {
            0 => Ok(Message::Gossip { id: r.id()?, content: r.content(spelling)?, delivery: Delivery::take(r, spelling)? }),
            1 => Ok(Message::Prune),
            2 => {
                let id = if r.flag()? { Some(r.id()?) } else { None };
                Ok(Message::Graft { id, round: r.round(spelling)? })
            }
            3 => {
                // Entry by entry: a count can be any number, the bytes end.
                let count = r.number(spelling)?;
                let mut list = Vec::new();
                for _ in 0..count {
                    list.push(Announced { id: r.id()?, round: r.round(spelling)? });
                }
                Ok(Message::IHave(list))
            }
            _ => Err(Error::EventMalformed),
        }
    }
}

/// Writes a message in its shortest form at the start of the output, by the library, and answers how many bytes it has. The message is lent alone, as
/// [`Event::ReceivedBytes`](crate::Event::ReceivedBytes) and [`Action::Send`](crate::Action::Send) have it. Questions 7, 8 and 9 are asked of it, as
/// [`Message::read`] does, then 14 of the shortest form; a refusal leaves the output untouched. An output as long as the message is always enough.
///
/// Two messages are rewritten to equal bytes exactly when they have the same meaning, which is when [`Message::read`] reads them as equal: a works
/// archive that files messages by these bytes has each once. A message of any length is taken, and its identifier is not held against its content.
///
/// ```
/// use plumtree::{rewrite, Error, Message};
/// # fn main() -> Result<(), Error> {
/// // A Graft of round 0, as a panel of another maker writes it.
/// let came = [2, 0, 0x80, 0x00];
/// let mut output = vec![0; came.len()];
/// let length = rewrite(&came, &mut output)?;
/// assert_eq!(output[..length], [2, 0, 0]);
/// assert_eq!(output[..length], Message::read(&came)?.to_bytes());
///
/// assert_eq!(rewrite(&[2, 0, 0x80], &mut output), Err(Error::EventCut));
/// assert_eq!(rewrite(&came, &mut [0; 2]), Err(Error::OutputTooShort));
/// # Ok(())
/// # }
/// ```
pub fn rewrite(message: &[u8], output: &mut [u8]) -> Result<usize, Error> {
    let answer = raw::rewrite(message, output);
    Error::check(answer.number)?;
    Ok(answer.length)
}

impl Delivery {
    pub(crate) fn write(self, out: &mut Vec<u8>) {
        match self {
            Delivery::Swarm { round } => {
                out.push(0);
                write_number(out, round.into());
            }
            Delivery::Neighbors => out.push(1),
        }
    }

    pub(crate) fn take(r: &mut Reader<'_>, spelling: Spelling) -> Result<Delivery, Error> {
        match r.kind(spelling)? {
            0 => Ok(Delivery::Swarm { round: r.round(spelling)? }),
            1 => Ok(Delivery::Neighbors),
            _ => Err(Error::EventMalformed),
        }
    }
}

/// What a panel asks to be told later.
#[derive(Clone, Copy, Debug, PartialEq, Eq, Hash)]
pub enum Timer {
    /// Ask for an announced message that has not come.
    SendGraft(Id),
    /// Send what is queued.
    DispatchLazyPush,
    /// Forget what has expired.
    EvictCache,
    /// Announce what links handed back.
    AnnounceDropped,
}

impl Timer {
    pub(crate) fn write(&self, out: &mut Vec<u8>) {
        match self {
            Timer::SendGraft(id) => {
                out.push(0);
                out.extend_from_slice(id);
            }
            Timer::DispatchLazyPush => out.push(1),
            Timer::EvictCache => out.push(2),
            Timer::AnnounceDropped => out.push(3),
        }
    }

    pub(crate) fn take(r: &mut Reader<'_>) -> Result<Timer, Error> {
        match r.byte()? {
            0 => Ok(Timer::SendGraft(r.id()?)),
            1 => Ok(Timer::DispatchLazyPush),
            2 => Ok(Timer::EvictCache),
            3 => Ok(Timer::AnnounceDropped),
            _ => Err(Error::EventMalformed),
        }
    }
}

impl fmt::Display for Delivery {
    fn fmt(&self, f: &mut fmt::Formatter<'_>) -> fmt::Result {
        match self {
            Delivery::Swarm { round } => write!(f, "Swarm, round {round}"),
            Delivery::Neighbors => write!(f, "Neighbors"),
        }
    }
}

/// For people: identifiers are cut to their first four bytes.
impl fmt::Display for Message<'_> {
    fn fmt(&self, f: &mut fmt::Formatter<'_>) -> fmt::Result {
        match self {
            Message::Gossip { id, content, delivery } => {
                write!(f, "Gossip {} {}, {delivery}", text::id(id), text::content(content))
            }
            Message::Prune => write!(f, "Prune"),
            Message::Graft { id: Some(id), round } => write!(f, "Graft {}, round {round}", text::id(id)),
            Message::Graft { id: None, round } => write!(f, "Graft, round {round}"),
            Message::IHave(list) => {
                write!(f, "IHave")?;
                for (i, Announced { id, round }) in list.iter().enumerate() {
                    let comma = if i == 0 { "" } else { "," };
                    write!(f, "{comma} {} round {round}", text::id(id))?;
                }
                Ok(())
            }
        }
    }
}

impl fmt::Display for Timer {
    fn fmt(&self, f: &mut fmt::Formatter<'_>) -> fmt::Result {
        match self {
            Timer::SendGraft(id) => write!(f, "SendGraft {}", text::id(id)),
            Timer::DispatchLazyPush => write!(f, "DispatchLazyPush"),
            Timer::EvictCache => write!(f, "EvictCache"),
            Timer::AnnounceDropped => write!(f, "AnnounceDropped"),
        }
    }
}
