use std::fmt;

use crate::text;
use crate::wire::{write_number, Reader, Spelling};
use crate::{Error, Message, Timer};

/// What a panel is told.
///
/// ```
/// use plumtree::{Event, Message, Timer};
/// assert_eq!(Event::Up(2).to_bytes(), [3, 2]);
/// assert_eq!(Event::UpQuiet(2).to_bytes(), [5, 2]);
/// assert_eq!(Event::Timer(Timer::DispatchLazyPush).to_bytes(), [2, 1]);
/// assert_eq!(Event::Received { peer: 5, message: Message::Prune }.to_bytes(), [0, 5, 1]);
/// assert_eq!(Event::ReceivedBytes { peer: 5, bytes: &[1] }.to_bytes(), [0, 5, 1]);
/// assert_eq!(Event::Broadcast(b"1452C").to_bytes(), *b"\x01\x051452C\x00");
/// ```
#[derive(Clone, Debug, PartialEq, Eq, Hash)]
pub enum Event<'a> {
    /// A message came over the link from a peer.
    Received {
        /// Who sent it.
        peer: u64,
        /// The message.
        message: Message<'a>,
    },
    /// These bytes came over the link from a peer, which its panel meant as a message. They may be any bytes: what is no message is refused.
    ReceivedBytes {
        /// Who sent them.
        peer: u64,
        /// The bytes, as they came. Numbers in them may be padded ([`Message::read`]), and M bounds the bytes as they are.
        bytes: &'a [u8],
    },
    /// The panel's own message, with this content, is to go out to all panels. One over [`longest_content`](crate::longest_content) is accepted and sent
    /// to nobody. A broadcast for neighbours alone, whose last byte is 1, is turned down ([`Error::NeighborsBroadcast`]) and has no form here.
    Broadcast(&'a [u8]),
    /// A timer fired that an [`Action::Schedule`](crate::Action::Schedule) asked for. Where this is refused it has not fired, and is to be told
    /// again: what waits for it is not scheduled anew.
    Timer(Timer),
    /// A peer is a neighbour from now on: it gets what is taken in from now on, and not what came before. Each planned neighbour is told up right
    /// after creation, and has room 0 ([`LinkRoom`](crate::LinkRoom)) until its link is there; one that was not planned when its link is there.
    Up(u64),
    /// A peer is a quiet neighbour from now on, be it a neighbour already or not: for a link that must never carry unasked payload. It is lazy, and
    /// stays so whatever comes, until [`Event::Down`] or [`Event::Up`]: announcements, Grafts and Prunes go to it as to any lazy one, a Gossip only in
    /// answer to its own Graft that names the identifier. A link carries payload both ways, and none unasked only when both ends are told this.
    UpQuiet(u64),
    /// A peer is no neighbour any more, and what waits for it is forgotten. A link that will come back is not told down, but has room 0.
    Down(u64),
}

impl<'a> Event<'a> {
    /// Reads an event that is these bytes: questions 7, 8, 9 and 23 of them, answered as the library does. A message is read as
    /// [`Event::Received`]; its numbers may be padded ([`Message::read`]), the event's own may not.
    pub fn read(bytes: &'a [u8]) -> Result<Event<'a>, Error> {
        let mut r = Reader(bytes);
        let event = match r.byte()? {
            0 => Event::Received { peer: r.number(Spelling::Shortest)?, message: Message::take(&mut r, Spelling::Padded)? },
            1 => {
                let content = r.content(Spelling::Shortest)?;
                if r.flag()? {
                    r.end()?;
                    return Err(Error::NeighborsBroadcast);
                }
                Event::Broadcast(content)
            }
            2 => Event::Timer(Timer::take(&mut r)?),
            3 => Event::Up(r.number(Spelling::Shortest)?),
            4 => Event::Down(r.number(Spelling::Shortest)?),
            5 => Event::UpQuiet(r.number(Spelling::Shortest)?),
            _ => return Err(Error::EventMalformed),
        };
        r.end()?;
        Ok(event)
    }

    /// Appends the event's bytes: numbers in their shortest form, but for [`Event::ReceivedBytes`], which stand as they came.
    pub fn write(&self, out: &mut Vec<u8>) {
        match self {
            Event::Received { peer, message } => {
                out.push(0);
                write_number(out, *peer);
                message.write(out);
            }
            Event::ReceivedBytes { peer, bytes } => {
                out.push(0);
                write_number(out, *peer);
                out.extend_from_slice(bytes);
            }
            Event::Broadcast(content) => {
                out.push(1);
                write_number(out, content.len() as u64);
                out.extend_from_slice(content);
                out.push(0);
            }
            Event::Timer(timer) => {
                out.push(2);
                timer.write(out);
            }
            Event::Up(peer) => {
                out.push(3);
                write_number(out, *peer);
            }
            Event::UpQuiet(peer) => {
                out.push(5);
                write_number(out, *peer);
            }
            Event::Down(peer) => {
                out.push(4);
                write_number(out, *peer);
            }
        }
    }

    /// The event's bytes.
    pub fn to_bytes(&self) -> Vec<u8> {
        let mut out = Vec::new();
        self.write(&mut out);
        out
    }
}

/// For people.
impl fmt::Display for Event<'_> {
    fn fmt(&self, f: &mut fmt::Formatter<'_>) -> fmt::Result {
        match self {
            Event::Received { peer, message } => write!(f, "from {peer}: {message}"),
            Event::ReceivedBytes { peer, bytes } => write!(f, "from {peer}: the bytes {}", text::hex(bytes)),
            Event::Broadcast(content) => write!(f, "broadcast {}, Swarm", text::content(content)),
            Event::Timer(timer) => write!(f, "{timer} fires"),
            Event::Up(peer) => write!(f, "{peer} is up"),
            Event::UpQuiet(peer) => write!(f, "{peer} is up, quiet"),
            Event::Down(peer) => write!(f, "{peer} is down"),
        }
    }
}
