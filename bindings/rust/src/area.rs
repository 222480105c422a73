use std::fmt;

use crate::Panel;

/// How many bytes an area for blocks of this length needs: "four times the block and 256 bytes more". None where that is no `usize`.
///
/// ```
/// use plumtree::area_size;
/// assert_eq!(area_size(58_880), Some(235_776));
/// assert_eq!(area_size(usize::MAX / 4), None);
/// ```
pub const fn area_size(block_length: usize) -> Option<usize> {
    match block_length.checked_mul(4) {
        Some(blocks) => blocks.checked_add(256),
        None => None,
    }
}

/// The area in which up to four states of panels are kept under names of eight bytes: [`Panel::save`] and [`Panel::go_back`].
///
/// Use an area with panels whose blocks have one length; several of them may share it: a name is the area's, not the panel's. A saving of another length
/// is refused, or, where savings of that length could have left the same bytes, makes the area one of that length. Nothing takes a name out; a new area
/// is empty. No call lists the names: the host has them with the timers that it keeps beside the area. For an area in memory that the host lends there
/// are [`raw::save`](crate::raw::save) and [`raw::go_back`](crate::raw::go_back).
///
/// Its bytes can be kept in a file. Each call asks whether savings could have left them ([`Error::AreaNotWhole`](crate::Error::AreaNotWhole)), which is no
/// checksum: a file wants one of its own.
///
/// ```
/// use plumtree::{Area, Error, Limits, Panel, Settings};
/// # fn main() -> Result<(), Error> {
/// let panel = Panel::new(Settings::of_panel(1), Limits::SMALL)?;
/// let mut area = Area::for_panel(&panel);
/// panel.save(&mut area, *b"plan A  ")?;
///
/// // The file is read, and a panel of the same limits is made, from which to go back.
/// let file = area.as_bytes().to_vec();
/// let area = Area::from_bytes(file);
/// let mut panel = Panel::new(Settings::of_panel(1), Limits::SMALL)?;
/// panel.go_back(&area, *b"plan A  ")?;
///
/// // A file that is cut.
/// let cut = Area::from_bytes(area.as_bytes()[..1000].to_vec());
/// assert_eq!(panel.go_back(&cut, *b"plan A  "), Err(Error::AreaNotWhole));
/// # Ok(())
/// # }
/// ```
#[derive(Clone, PartialEq, Eq)]
pub struct Area {
    bytes: Vec<u8>,
}

/// How long it is.
impl fmt::Debug for Area {
    fn fmt(&self, f: &mut fmt::Formatter<'_>) -> fmt::Result {
        f.debug_struct("Area").field("length", &self.bytes.len()).finish_non_exhaustive()
    }
}

impl Area {
    /// An area without states, for panels whose block is as long as this one's.
    pub fn for_panel<B: AsRef<[u8]> + AsMut<[u8]>>(panel: &Panel<B>) -> Area {
        let length = area_size(panel.block().len()).expect("four blocks fit the memory's addresses");
        Area { bytes: vec![0; length] }
    }

    /// An area from its bytes as they were left. Nothing is asked here: each call asks.
    pub fn from_bytes(bytes: Vec<u8>) -> Area {
        Area { bytes }
    }

    /// Its bytes, to be kept.
    pub fn as_bytes(&self) -> &[u8] {
        &self.bytes
    }

    /// Its bytes, for [`Area::from_bytes`].
    pub fn into_bytes(self) -> Vec<u8> {
        self.bytes
    }

    pub(crate) fn bytes_mut(&mut self) -> &mut [u8] {
        &mut self.bytes
    }
}
