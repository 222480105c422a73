use std::fmt;

use crate::text;
use crate::wire::{Reader, Spelling};
use crate::{Delivery, Error, Id, Message, Timer};

/// What a call asks of the host.
#[derive(Clone, Debug, PartialEq, Eq, Hash)]
pub enum Action<'a> {
    /// A message for a peer.
    Send {
        /// Who it is for. It need not be a neighbour: a Prune goes to whoever sent a reading twice. Without a link to it, drop the message.
        peer: u64,
        /// True: put the bytes onto the link. False: the link had no room in this call ([`LinkRoom`](crate::LinkRoom)) and handed it back; put
        /// nothing there. Of a Swarm Gossip and of an IHave the panel has noted the identifiers and announces them later, unless its record is
        /// full; of the other messages it has noted nothing. Keep a Graft, and put it on the link when there is room.
        taken: bool,
        /// The message.
        message: Message<'a>,
        /// The message's bytes: what goes over the link. They can be one more than M, where a round has grown from 127 to 128.
        bytes: &'a [u8],
    },
    /// Tell [`Event::Timer`](crate::Event::Timer) once, when the delay has passed. A timer is never taken back; one whose event is refused is told
    /// again.
    Schedule {
        /// Milliseconds from this call on.
        delay: u64,
        /// The timer.
        timer: Timer,
    },
    /// A new message, for the panel's own use.
    Emit {
        /// Who brought it.
        peer: u64,
        /// Its content.
        content: &'a [u8],
        /// How far it goes; its round is that at which it came.
        delivery: Delivery,
    },
    /// A message has left the message cache, an own broadcast too: grey its curve. An eviction tells it before it schedules itself, of each one in the
    /// order of removal. One cached anew meanwhile is kept longer, and told once.
    Forgotten {
        /// The message's identifier: BLAKE3 of its content. An emit has none; it stands in the [`Message::Gossip`] that came.
        id: Id,
    },
}

impl<'a> Action<'a> {
    /// Reads an action from the left and answers it with the bytes after it; [`Error::EventCut`] or [`Error::EventMalformed`] where
    /// the bytes begin with none. The library writes every number in its shortest form, and no other is read here.
    ///
    /// ```
    /// use plumtree::{Action, Timer};
    /// let (action, rest) = Action::read(&[2, 0xe8, 0x07, 2, 1])?;
    /// assert_eq!(action, Action::Schedule { delay: 1000, timer: Timer::EvictCache });
    /// assert_eq!(rest, [1]);
    /// # Ok::<(), plumtree::Error>(())
    /// ```
    pub fn read(bytes: &'a [u8]) -> Result<(Action<'a>, &'a [u8]), Error> {
        let mut r = Reader(bytes);
        let action = match r.byte()? {
            1 => {
                let peer = r.number(Spelling::Shortest)?;
                let taken = !r.flag()?;
                let from = r.0;
                let message = Message::take(&mut r, Spelling::Shortest)?;
                Action::Send { peer, taken, message, bytes: &from[..from.len() - r.0.len()] }
            }
            2 => Action::Schedule { delay: r.number(Spelling::Shortest)?, timer: Timer::take(&mut r)? },
            3 => Action::Emit {
                peer: r.number(Spelling::Shortest)?,
                content: r.content(Spelling::Shortest)?,
                delivery: Delivery::take(&mut r, Spelling::Shortest)?,
            },
            4 => Action::Forgotten { id: r.id()? },
            _ => return Err(Error::EventMalformed),
        };
        Ok((action, r.0))
    }
}

/// The actions of a call, in the order in which they are to be carried out.
#[derive(Clone, Debug)]
pub struct Actions<'a> {
    bytes: &'a [u8],
}

impl<'a> Actions<'a> {
    pub(crate) fn of_call(bytes: &'a [u8]) -> Actions<'a> {
        Actions { bytes }
    }

    /// The bytes of the actions that are left.
    pub fn bytes(&self) -> &'a [u8] {
        self.bytes
    }
}

impl<'a> Iterator for Actions<'a> {
    type Item = Action<'a>;

    fn next(&mut self) -> Option<Action<'a>> {
        if self.bytes.is_empty() {
            return None;
        }
        let (action, rest) = Action::read(self.bytes).expect("an accepted call writes actions");
        self.bytes = rest;
        Some(action)
    }
}

/// For people.
impl fmt::Display for Action<'_> {
    fn fmt(&self, f: &mut fmt::Formatter<'_>) -> fmt::Result {
        match self {
            Action::Send { peer, taken: true, message, .. } => write!(f, "send to {peer}: {message}"),
            Action::Send { peer, taken: false, message, .. } => write!(f, "handed back, for {peer}: {message}"),
            Action::Schedule { delay, timer } => write!(f, "schedule {timer} in {delay}"),
            Action::Emit { peer, content, delivery } => write!(f, "emit from {peer}: {}, {delivery}", text::content(content)),
            Action::Forgotten { id } => write!(f, "forgotten {}", text::id(id)),
        }
    }
}
