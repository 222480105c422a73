use std::fmt;

use crate::{raw, Actions, Area, Error, Event, Limit, Limits, Settings};

/// The counts record, brought up to date by each accepted call.
#[repr(C)]
#[derive(Clone, Copy, Debug, Default, PartialEq, Eq, Hash)]
pub struct Stats {
    /// How many Gossip messages came, valid or not.
    pub payload_messages_received: u64,
    /// How many Prune, Graft and IHave messages came.
    pub control_messages_received: u64,
    /// The largest r + 1 of a new Swarm message of round r.
    pub max_last_delivery_hop: u16,
}

/// How many sends of a call the link to a peer takes: "The first entry for a peer counts, a peer without one has no bound, and the k-th
/// send of a call to a peer is taken when k ≤ room." A link that is not there yet, or is broken and will come back, has room 0: what it is said to
/// take and then loses is not sent again.
///
/// ```
/// use plumtree::{Action, Event, Limits, LinkRoom, Panel, Settings};
/// # fn main() -> Result<(), plumtree::Error> {
/// let mut panel = Panel::new(Settings::of_panel(1), Limits::SMALL)?;
/// let mut output = [0; 4096];
/// panel.event(0, &Event::Up(2), &[], &mut output)?;
/// let full = [LinkRoom { peer: 2, room: 0 }];
/// let reading = Event::Broadcast(b"hot");
/// let mut actions = panel.event(0, &reading, &full, &mut output)?;
/// assert!(actions.any(|a| matches!(a, Action::Send { peer: 2, taken: false, .. })));
/// # Ok(())
/// # }
/// ```
#[repr(C)]
#[derive(Clone, Copy, Debug, PartialEq, Eq, Hash)]
pub struct LinkRoom {
    /// The peer at the other end.
    pub peer: u64,
    /// How many sends its link takes in this call.
    pub room: u16,
}

/// How many bytes a block of these limits needs; none where a limit is not "from 1 to its ceiling".
///
/// ```
/// use plumtree::{block_size, Limits};
/// assert_eq!(block_size(Limits::SMALL), Some(58_880));
/// assert_eq!(block_size(Limits::CEILINGS), Some(2_922_496));
/// assert_eq!(block_size(Limits { received: 0, ..Limits::SMALL }), None);
/// ```
pub fn block_size(limits: Limits) -> Option<usize> {
    match raw::block_size(limits) {
        0 => None,
        n => Some(n),
    }
}

/// Whether two blocks hold the same: "yes exactly when own peer number, settings, limits, sets, flags and maps agree". It "also compares the order of
/// announcers, queues and records, and the order of expiry entries of one time". Each neighbour has a queue and a record of its own: how the rows of
/// different neighbours are interleaved in the block is not compared, nor the length of the blocks. A quiet neighbour and a lazy one are not alike.
/// [`Error::BlockNotWhole`] for either.
///
/// From alike blocks and equal counts the same calls give the same answers, refusals too, and the same actions; then the blocks are alike and the
/// counts equal again. So a commissioning sheet that was taken with one panel serves for the other.
///
/// ```
/// use plumtree::{Error, Event, Limits, LinkRoom, Panel, Settings};
///
/// # fn main() -> Result<(), Error> {
/// // The link to 2 hands back two readings, each told at its time.
/// let panel = |readings: [(u64, &[u8]); 2]| -> Result<Panel, Error> {
///     let mut panel = Panel::new(Settings::of_panel(1), Limits::SMALL)?;
///     let mut output = vec![0; 40960];
///     panel.event(0, &Event::Up(2), &[], &mut output)?;
///     for (at, content) in readings {
///         panel.event(at, &Event::Broadcast(content), &[LinkRoom { peer: 2, room: 0 }], &mut output)?;
///     }
///     Ok(panel)
/// };
/// let one = panel([(5, b"1/17"), (10, b"1/18")])?;
/// assert!(one.alike(&panel([(5, b"1/17"), (10, b"1/18")])?)?);
///
/// // The clock was set back in between: the same identifiers stand recorded for 2, in another order, and are announced in that order.
/// assert!(!one.alike(&panel([(10, b"1/18"), (5, b"1/17")])?)?);
/// # Ok(())
/// # }
/// ```
pub fn alike(a: &[u8], b: &[u8]) -> Result<bool, Error> {
    let answer = raw::alike(a, b);
    Error::check(answer.number)?;
    Ok(answer.alike)
}

/// A panel: its block, which holds all that it knows, and its counts.
///
/// The block is a `Vec<u8>` of the panel's own, or any bytes that the host lends: `&mut [u8]`, `Box<[u8]>`, an array.
///
/// ```
/// use plumtree::{block_size, Event, Limits, Panel, Settings};
/// # fn main() -> Result<(), plumtree::Error> {
/// let limits = Limits { neighbours: 4, ..Limits::SMALL };
/// let mut memory = vec![0; block_size(limits).unwrap()];
/// let mut panel = Panel::in_block(&mut memory[..], Settings::of_panel(1), limits)?;
/// panel.event(0, &Event::Up(2), &[], &mut [])?;
///
/// // Block and counts are kept, and it goes on from there. (Timers that were not told yet are the host's to keep.)
/// let stats = panel.stats();
/// let mut panel = Panel::resume(memory, stats);
/// panel.event(5, &Event::Down(2), &[], &mut [])?;
/// # Ok(())
/// # }
/// ```
#[derive(Clone)]
pub struct Panel<B = Vec<u8>> {
    block: B,
    stats: Stats,
    // The bytes of an event while it is told.
    event: Vec<u8>,
}

/// The counts, and how long the block is.
impl<B: AsRef<[u8]>> fmt::Debug for Panel<B> {
    fn fmt(&self, f: &mut fmt::Formatter<'_>) -> fmt::Result {
        f.debug_struct("Panel").field("block_length", &self.block.as_ref().len()).field("stats", &self.stats).finish_non_exhaustive()
    }
}

impl Panel {
    /// A new panel without neighbours, with a block of its own: questions 1 to 3.
    pub fn new(settings: Settings, limits: Limits) -> Result<Panel, Error> {
        Panel::in_block(vec![0; raw::block_size(limits)], settings, limits)
    }
}

impl<B: AsRef<[u8]> + AsMut<[u8]>> Panel<B> {
    /// A new panel without neighbours in a lent block: questions 1 to 4. What the block held does not matter.
    pub fn in_block(mut block: B, settings: Settings, limits: Limits) -> Result<Panel<B>, Error> {
        let mut stats = Stats::default();
        Error::check(raw::create(block.as_mut(), &mut stats, settings, limits).number)?;
        Ok(Panel::resume(block, stats))
    }

    /// A panel from a block and its counts as they were left. Nothing is asked here: each event asks whether the block is whole, which is no
    /// checksum. Timers that were not told yet are the host's to keep; where they are lost, tell DispatchLazyPush, EvictCache and
    /// AnnounceDropped once each.
    pub fn resume(block: B, stats: Stats) -> Panel<B> {
        Panel { block, stats, event: Vec::new() }
    }

    /// One event at a time in milliseconds: questions 5 to 9, 23 and 10 to 14. The actions stand in the output, in the order in which they are to be
    /// carried out.
    ///
    /// `rooms` is the link room of this call; with none every send is taken. An output of [`Limits::output_size`] is always enough; a call that is
    /// refused with [`Error::OutputTooShort`] goes through with a longer one. Times may come in any order.
    pub fn event<'o>(&mut self, at: u64, event: &Event<'_>, rooms: &[LinkRoom], output: &'o mut [u8]) -> Result<Actions<'o>, Error> {
        self.event.clear();
        event.write(&mut self.event);
        tell(self.block.as_mut(), &mut self.stats, at, &self.event, rooms, output)
    }

    /// The same with the event's bytes, whatever they are.
    ///
    /// ```
    /// use plumtree::{Error, Limits, Panel, Settings};
    /// # fn main() -> Result<(), Error> {
    /// let mut panel = Panel::new(Settings::of_panel(1), Limits::SMALL)?;
    /// panel.event_bytes(0, &[3, 2], &[], &mut [])?;
    /// assert_eq!(panel.event_bytes(0, &[9], &[], &mut []).unwrap_err(), Error::EventMalformed);
    /// # Ok(())
    /// # }
    /// ```
    pub fn event_bytes<'o>(&mut self, at: u64, event: &[u8], rooms: &[LinkRoom], output: &'o mut [u8]) -> Result<Actions<'o>, Error> {
        tell(self.block.as_mut(), &mut self.stats, at, event, rooms, output)
    }

    /// Which limit a call met that was refused with [`Error::LimitReached`], asked with what the call brought: the first, in their order, that the
    /// state after the call would be past. None where the call, with the counts zero, is not refused so. Nothing changes.
    pub fn limit_met(&self, at: u64, event: &Event<'_>, rooms: &[LinkRoom]) -> Option<Limit> {
        Limit::from_number(raw::limit_met(self.block.as_ref(), at, &event.to_bytes(), rooms))
    }

    /// A saving: keeps block and counts under a name in the area. "Up to four states are kept"; "Any name is allowed, and saving under a used one
    /// replaces it." Questions 5, 17 and 16. The area alone changes, and nothing where the saving is refused.
    ///
    /// The host keeps its timers that were not told yet beside the area, each with the time left, and the Grafts that wait for room: they do not stand
    /// in the block (docs/LINKING.md, *Named states*).
    ///
    /// ```
    /// use plumtree::{Area, Error, Limits, Panel, Settings};
    /// # fn main() -> Result<(), Error> {
    /// let panel = Panel::new(Settings::of_panel(1), Limits::SMALL)?;
    /// let mut area = Area::for_panel(&panel);
    /// for name in [*b"plan A  ", *b"plan B  ", *b"plan C  ", [0; 8]] {
    ///     panel.save(&mut area, name)?;
    /// }
    /// assert_eq!(panel.save(&mut area, *b"plan D  "), Err(Error::NamesFull));
    /// panel.save(&mut area, *b"plan B  ")?;
    /// # Ok(())
    /// # }
    /// ```
    pub fn save(&self, area: &mut Area, name: [u8; 8]) -> Result<(), Error> {
        Error::check(raw::save(self.block.as_ref(), self.stats, area.bytes_mut(), u64::from_le_bytes(name)).number)
    }

    /// A return: "Returning brings back block and counts in full", as they were saved last under this name, with the settings, the limits and the
    /// neighbours of then. Questions 5, of the block as it is, 17 and 15. Block and counts alone change, and nothing where the return is refused.
    ///
    /// "From a return on, the list of calls that the guarantees speak about is the one up to the saving, followed by the calls since the return." The
    /// host takes back the timers that it kept with the name, in place of those that wait, and tells which neighbours came or went since the saving.
    /// Its clock and the sequence number of its readings go on (docs/LINKING.md, *Named states*).
    ///
    /// ```
    /// use plumtree::{Area, Error, Event, Limits, Panel, Settings};
    /// # fn main() -> Result<(), Error> {
    /// let mut panel = Panel::new(Settings::of_panel(1), Limits::SMALL)?;
    /// panel.event(0, &Event::Up(2), &[], &mut [])?;
    /// let mut area = Area::for_panel(&panel);
    /// panel.save(&mut area, *b"plan A  ")?;
    /// let before = panel.clone();
    ///
    /// panel.event(10, &Event::Up(3), &[], &mut [])?;
    /// panel.event(10, &Event::Down(2), &[], &mut [])?;
    /// assert_eq!(panel.go_back(&area, *b"plan B  "), Err(Error::NameNotKept));
    /// panel.go_back(&area, *b"plan A  ")?;
    /// assert_eq!((panel.block(), panel.stats()), (before.block(), before.stats()));
    /// # Ok(())
    /// # }
    /// ```
    pub fn go_back(&mut self, area: &Area, name: [u8; 8]) -> Result<(), Error> {
        Error::check(raw::go_back(self.block.as_mut(), &mut self.stats, area.as_bytes(), u64::from_le_bytes(name)).number)
    }

    /// The counts.
    pub fn stats(&self) -> Stats {
        self.stats
    }

    /// The counts, to be changed. What the library promises of a list of calls, it promises where nobody else writes block or counts.
    pub fn stats_mut(&mut self) -> &mut Stats {
        &mut self.stats
    }

    /// The block's bytes: all that the panel knows, to be kept or compared.
    pub fn block(&self) -> &[u8] {
        self.block.as_ref()
    }

    /// The block's bytes, to be changed. Each call asks whether the block is whole.
    pub fn block_mut(&mut self) -> &mut [u8] {
        self.block.as_mut()
    }

    /// The block and the counts, for [`Panel::resume`].
    pub fn into_parts(self) -> (B, Stats) {
        (self.block, self.stats)
    }

    /// Whether two panels hold the same, the counts apart: [`alike`]. With equal counts too ([`Panel::stats`]), the same calls give the same.
    pub fn alike<C: AsRef<[u8]>>(&self, other: &Panel<C>) -> Result<bool, Error> {
        alike(self.block.as_ref(), other.block.as_ref())
    }
}

fn tell<'o>(
    block: &mut [u8],
    stats: &mut Stats,
    at: u64,
    event: &[u8],
    rooms: &[LinkRoom],
    output: &'o mut [u8],
) -> Result<Actions<'o>, Error> {
    let answer = raw::event(block, stats, at, event, rooms, output);
    Error::check(answer.number)?;
    Ok(Actions::of_call(&output[..answer.length]))
}
