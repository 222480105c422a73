use std::fmt;

/// A limit that a call can meet ([`Panel::limit_met`](crate::Panel::limit_met)), in the order of [`Limits`](crate::Limits). An expiry entry counts to
/// its cache.
#[repr(u8)]
#[derive(Clone, Copy, Debug, PartialEq, Eq, Hash, PartialOrd, Ord)]
pub enum Limit {
    /// N
    Neighbours = 1,
    /// R
    Received = 2,
    /// C
    Cached = 3,
    /// B
    Content = 4,
    /// G
    Grafted = 5,
    /// S
    Missing = 6,
    /// T
    Timers = 7,
    /// Q
    Queued = 8,
    /// D
    Dropped = 9,
}

impl Limit {
    /// All nine, in their order.
    pub const ALL: [Limit; 9] = [
        Limit::Neighbours,
        Limit::Received,
        Limit::Cached,
        Limit::Content,
        Limit::Grafted,
        Limit::Missing,
        Limit::Timers,
        Limit::Queued,
        Limit::Dropped,
    ];

    /// The limit of a number from 1 to 9.
    pub fn from_number(number: u8) -> Option<Limit> {
        let place = usize::from(number).checked_sub(1)?;
        Limit::ALL.get(place).copied()
    }

    /// Its number, from 1 to 9.
    pub fn number(self) -> u8 {
        self as u8
    }
}

/// For people: its name and its letter in the specification.
impl fmt::Display for Limit {
    fn fmt(&self, f: &mut fmt::Formatter<'_>) -> fmt::Result {
        f.write_str(match self {
            Limit::Neighbours => "neighbours (N)",
            Limit::Received => "received (R)",
            Limit::Cached => "cached (C)",
            Limit::Content => "content bytes (B)",
            Limit::Grafted => "grafted (G)",
            Limit::Missing => "missing (S)",
            Limit::Timers => "graft timers (T)",
            Limit::Queued => "queued (Q)",
            Limit::Dropped => "dropped (D)",
        })
    }
}
