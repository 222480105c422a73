//! The state machine of the kiln panel broadcast: safe functions over the proved static library `libplumtree.a`.
//!
//! A panel passes readings on to its neighbours: tree links carry the reading, other links its identifier only, and no neighbour is passed
//! over. This crate decides what each panel sends; the host moves bytes over links and runs timers. What the library does is proved
//! (docs/GUARANTEE.md and docs/PROOFS.md of the repository). What this crate adds is not: it writes events, reads actions, and
//! calls the library.
//!
//! # A first broadcast
//!
//! ```
//! use plumtree::{Action, Event, Limits, Panel, Settings};
//!
//! # fn main() -> Result<(), plumtree::Error> {
//! let mut panel = Panel::new(Settings::of_panel(1), Limits::SMALL)?;
//! let mut output = [0; 40960];
//!
//! // At 0 milliseconds the neighbour 2 is up. That leads to no action.
//! assert_eq!(panel.event(0, &Event::Up(2), &[], &mut output)?.count(), 0);
//!
//! // At 10 the panel's own reading goes out, with its number and a sequence number: the same content twice is one message.
//! let reading = Event::Broadcast(b"1/17 burner 3: 1452 C");
//! let mut lines = Vec::new();
//! for action in panel.event(10, &reading, &[], &mut output)? {
//!     match action {
//!         // Put the bytes onto the link to the peer.
//!         Action::Send { peer, taken: true, bytes, .. } => lines.push(format!("{} bytes to {peer}", bytes.len())),
//!         // The link had no room (see LinkRoom): the panel announces a reading later by itself; a Graft is kept until there is room.
//!         Action::Send { taken: false, .. } => {}
//!         // When the delay has passed, tell Event::Timer(timer).
//!         Action::Schedule { delay, timer } => lines.push(format!("{timer} in {delay}")),
//!         // A new message, for the panel's screen.
//!         Action::Emit { content, .. } => lines.push(format!("show {content:?}")),
//!         // The message has left the message cache: the screen greys its curve.
//!         Action::Forgotten { id } => lines.push(format!("grey {id:?}")),
//!     }
//! }
//! assert_eq!(lines, ["EvictCache in 1000", "DispatchLazyPush in 5", "57 bytes to 2"]);
//! # Ok(())
//! # }
//! ```
//!
//! # Two panels
//!
//! A message goes over a link as the `bytes` of its [`Action::Send`]. At the other end they are an event, as they came:
//! [`Event::ReceivedBytes`].
//!
//! ```
//! use plumtree::{Action, Delivery, Event, Limits, Panel, Settings};
//!
//! # fn main() -> Result<(), plumtree::Error> {
//! let mut one = Panel::new(Settings::of_panel(1), Limits::SMALL)?;
//! let mut two = Panel::new(Settings::of_panel(2), Limits::SMALL)?;
//! let mut output = vec![0; 40960];
//! one.event(0, &Event::Up(2), &[], &mut output)?;
//! two.event(0, &Event::Up(1), &[], &mut output)?;
//!
//! let mut link = Vec::new();
//! for action in one.event(5, &Event::Broadcast(b"hot"), &[], &mut output)? {
//!     if let Action::Send { peer: 2, taken: true, bytes, .. } = action {
//!         link.push(bytes.to_vec());
//!     }
//! }
//!
//! let mut shown = Vec::new();
//! for bytes in &link {
//!     for action in two.event(6, &Event::ReceivedBytes { peer: 1, bytes }, &[], &mut output)? {
//!         if let Action::Emit { peer, content, delivery } = action {
//!             shown.push((peer, content.to_vec(), delivery));
//!         }
//!     }
//! }
//! assert_eq!(shown, [(1, b"hot".to_vec(), Delivery::Swarm { round: 0 })]);
//! assert_eq!(two.stats().payload_messages_received, 1);
//! # Ok(())
//! # }
//! ```
//!
//! # Named states
//!
//! A fitter saves a panel under a name, tries another link plan, and goes back: [`Panel::save`], [`Panel::go_back`]. Up to four states are kept in an
//! [`Area`]. The timers are the host's, so it keeps them with the name.
//!
//! ```
//! use plumtree::{Action, Area, Event, Limits, Panel, Settings, Timer};
//!
//! # fn main() -> Result<(), plumtree::Error> {
//! let mut panel = Panel::new(Settings::of_panel(1), Limits::SMALL)?;
//! let mut area = Area::for_panel(&panel);
//! let mut output = vec![0; 40960];
//!
//! // Plan A: the neighbour 2. The timers wait, each with the time at which it is to be told.
//! panel.event(0, &Event::Up(2), &[], &mut output)?;
//! let mut timers = Vec::new();
//! for action in panel.event(10, &Event::Broadcast(b"1/17"), &[], &mut output)? {
//!     if let Action::Schedule { delay, timer } = action {
//!         timers.push((10 + delay, timer));
//!     }
//! }
//!
//! // Saved at 12; the timers are kept beside the area, each with the time left.
//! panel.save(&mut area, *b"plan A  ")?;
//! let plan_a: Vec<(u64, Timer)> = timers.iter().map(|(at, timer)| (at - 12, *timer)).collect();
//!
//! // Plan B: the neighbour 3 in its place.
//! panel.event(20, &Event::Down(2), &[], &mut output)?;
//! panel.event(20, &Event::Up(3), &[], &mut output)?;
//! panel.save(&mut area, *b"plan B  ")?;
//!
//! // Back at 500: the timers of plan A take the place of those that wait.
//! panel.go_back(&area, *b"plan A  ")?;
//! timers = plan_a.iter().map(|(left, timer)| (500 + left, *timer)).collect();
//! assert_eq!(timers, [(1498, Timer::EvictCache), (503, Timer::DispatchLazyPush)]);
//!
//! // The neighbour is 2 again. Clock and sequence number go on.
//! let actions = panel.event(501, &Event::Broadcast(b"1/18"), &[], &mut output)?;
//! let peers = actions.filter_map(|action| if let Action::Send { peer, .. } = action { Some(peer) } else { None });
//! assert_eq!(peers.collect::<Vec<_>>(), [2]);
//! # Ok(())
//! # }
//! ```
//!
//! # Refusals
//!
//! A call that cannot be carried out is refused by one of eighteen questions ([`Error`]); nothing has changed then.
//!
//! ```
//! use plumtree::{Error, Event, Limit, Limits, Panel, Settings};
//!
//! # fn main() -> Result<(), Error> {
//! let limits = Limits { neighbours: 1, ..Limits::SMALL };
//! let mut panel = Panel::new(Settings::of_panel(1), limits)?;
//! panel.event(0, &Event::Up(2), &[], &mut [])?;
//! let refused = panel.event(0, &Event::Up(3), &[], &mut []).unwrap_err();
//! assert_eq!(refused, Error::LimitReached);
//! assert_eq!(refused.number(), 13);
//! assert_eq!(refused.to_string(), "a limit is reached (question 13: \"Is the state after the call within every limit?\")");
//! assert_eq!(panel.limit_met(0, &Event::Up(3), &[]), Some(Limit::Neighbours));
//! # Ok(())
//! # }
//! ```
//!
//! # Linking
//!
//! `tools/staticlib.sh plumtree` writes `target/staticlib/libplumtree.a`, where this crate looks for it; the variable `PLUMTREE_LIB_DIR` names another
//! directory. Without it the crate is built and checked, and a program that calls the library is not linked: the linker's message says what is
//! missing. The archive is for x86-64 Linux.
#![deny(unsafe_code)]
#![warn(missing_docs)]

mod action;
mod area;
mod error;
mod event;
mod ffi;
mod limit;
mod message;
mod panel;
mod settings;
mod text;
mod wire;

pub use action::{Action, Actions};
pub use area::{area_size, Area};
pub use error::Error;
pub use event::Event;
pub use limit::Limit;
pub use message::{rewrite, Announced, Delivery, Id, Message, Timer};
pub use panel::{alike, block_size, LinkRoom, Panel, Stats};
pub use settings::{longest_content, Config, Limits, Settings, GREATEST_MESSAGE_SIZE, LEAST_MESSAGE_SIZE};
pub use wire::{read_number, write_number};

/// The library's eight functions on slices, with their answers as numbers. For tests and for hosts that keep blocks in their own way.
///
/// Each of them takes any bytes at all: what a call promises, it promises for every block, event, room, message, output and area.
///
/// ```
/// use plumtree::{raw, Limits, Settings, Stats};
///
/// let mut block = vec![0; raw::block_size(Limits::SMALL)];
/// let mut counts = Stats::default();
/// assert_eq!(raw::create(&mut block, &mut counts, Settings::of_panel(1), Limits::SMALL).number, 0);
///
/// // The specification's example: up 2, dispatch tick, Prune from 5.
/// let mut output = [0; 64];
/// let up = raw::event(&mut block, &mut counts, 0, &[3, 2], &[], &mut output);
/// assert_eq!((up.number, up.length), (0, 0));
/// let tick = raw::event(&mut block, &mut counts, 0, &[2, 1], &[], &mut output);
/// assert_eq!((tick.number, &output[..tick.length]), (0, &[2, 0xe8, 0x07, 2][..]));
/// let prune = raw::event(&mut block, &mut counts, 0, &[0, 5, 1], &[], &mut output);
/// assert_eq!((prune.number, prune.length, counts.control_messages_received), (0, 0, 1));
///
/// // An event that is cut.
/// assert_eq!(raw::event(&mut block, &mut counts, 0, &[3], &[], &mut output).number, 7);
/// ```
pub mod raw {
    pub use crate::ffi::{alike, block_size, create, event, go_back, limit_met, rewrite, save, Answer, Likeness};
}
