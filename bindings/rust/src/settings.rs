/// The least M that a panel can be given.
pub const LEAST_MESSAGE_SIZE: u64 = 510;

/// The greatest M that a panel can be given.
pub const GREATEST_MESSAGE_SIZE: u64 = 4_094;

/// The longest content that a broadcast sends: a longer one is accepted and sent to nobody.
///
/// ```
/// use plumtree::{longest_content, GREATEST_MESSAGE_SIZE, LEAST_MESSAGE_SIZE};
/// assert_eq!(longest_content(GREATEST_MESSAGE_SIZE), 4_055);
/// assert_eq!(longest_content(LEAST_MESSAGE_SIZE), 471);
/// ```
pub const fn longest_content(max_message_size: u64) -> usize {
    (max_message_size as usize).saturating_sub(39)
}

/// The times of a panel and its threshold: the original's `Config`. Durations are in milliseconds, at most 2^40 each.
#[repr(C)]
#[derive(Clone, Copy, Debug, PartialEq, Eq, Hash)]
pub struct Config {
    /// From an announcement to asking for the message.
    pub graft_timeout_1: u64,
    /// Until the next announcer is asked.
    pub graft_timeout_2: u64,
    /// Until queued announcements are sent.
    pub dispatch_timeout: u64,
    /// How many hops a shorter way must save before the tree is changed for it.
    pub optimization_threshold: u16,
    /// How long a message stays cached.
    pub message_cache_retention: u64,
    /// How long the identifier of a message that came stays known.
    pub message_id_retention: u64,
    /// From one eviction to the next.
    pub cache_evict_interval: u64,
}

impl Config {
    /// The original's `Config::default`.
    pub const DEFAULT: Config = Config {
        graft_timeout_1: 80,
        graft_timeout_2: 40,
        dispatch_timeout: 5,
        optimization_threshold: 7,
        message_cache_retention: 30_000,
        message_id_retention: 90_000,
        cache_evict_interval: 1_000,
    };
}

impl Default for Config {
    fn default() -> Config {
        Config::DEFAULT
    }
}

/// A panel's settings: kept in its block from its creation on.
#[repr(C)]
#[derive(Clone, Copy, Debug, PartialEq, Eq, Hash)]
pub struct Settings {
    /// The times and the threshold.
    pub config: Config,
    /// M, from [`LEAST_MESSAGE_SIZE`] to [`GREATEST_MESSAGE_SIZE`]: the most bytes of a message.
    pub max_message_size: u64,
    /// The panel's own peer number.
    pub me: u64,
}

impl Settings {
    /// The default settings (M 4,094) for a panel of this number.
    pub const fn of_panel(me: u64) -> Settings {
        Settings { config: Config::DEFAULT, max_message_size: GREATEST_MESSAGE_SIZE, me }
    }
}

/// How much a panel can hold, each from 1 to its ceiling. The size of its block follows from these: [`block_size`](crate::block_size).
#[repr(C)]
#[derive(Clone, Copy, Debug, PartialEq, Eq, Hash)]
pub struct Limits {
    /// N: neighbours.
    pub neighbours: usize,
    /// R: identifiers of messages that came.
    pub received: usize,
    /// C: messages that are held for others to ask for.
    pub cached: usize,
    /// B: bytes of the contents of those.
    pub content: usize,
    /// G: identifiers that were asked for.
    pub grafted: usize,
    /// S: identifiers that were announced and are not here.
    pub missing: usize,
    /// T: identifiers whose graft timer is marked.
    pub timers: usize,
    /// Q: announcements that are queued, over all neighbours.
    pub queued: usize,
    /// D: identifiers that are recorded since a link handed them back, over all neighbours, those too whose link is not there yet.
    pub dropped: usize,
}

impl Limits {
    /// The most that a panel can be given.
    pub const CEILINGS: Limits = Limits {
        neighbours: 32,
        received: 2_048,
        cached: 512,
        content: 1_048_576,
        grafted: 512,
        missing: 512,
        timers: 512,
        queued: 8_192,
        dropped: 4_096,
    };

    /// The limits of the program panelrun; they need a block of 58,880 bytes. For trying out: they carry 0.7 readings a second, and 16 that
    /// wait behind a full link ([`Limits::for_traffic`]).
    pub const SMALL: Limits =
        Limits { neighbours: 8, received: 64, cached: 32, content: 8_192, grafted: 16, missing: 16, timers: 16, queued: 64, dropped: 64 };

    /// Limits for a panel among others that take in `per_second` readings a second, of all panels together, of at most `content` bytes each, with
    /// the default durations: an identifier is known for 90 seconds and a message cached for 30, to which come one until the next eviction and
    /// two to spare, since timers fire late. The rate is the highest over any 33 seconds: a burst over the limits is lost, not delayed, where
    /// every panel has the same. What is announced, asked for, queued or recorded can be all that stands in the caches. `neighbours` counts each
    /// planned one, whether its link is there or not. A limit over its ceiling (more than 15 readings a second, say) is refused at creation.
    ///
    /// ```
    /// use plumtree::{Limits, Panel, Settings};
    /// assert!(Panel::new(Settings::of_panel(1), Limits::for_traffic(8, 4, 256)).is_ok());
    /// assert!(Panel::new(Settings::of_panel(1), Limits::for_traffic(8, 16, 256)).is_err());
    /// ```
    pub const fn for_traffic(neighbours: usize, per_second: usize, content: usize) -> Limits {
        let cached = 33 * per_second;
        Limits {
            neighbours,
            received: 93 * per_second,
            cached,
            content: cached * content,
            grafted: cached,
            missing: cached,
            timers: cached,
            queued: least(neighbours * cached, Limits::CEILINGS.queued),
            dropped: least(neighbours * least(cached, 256), Limits::CEILINGS.dropped),
        }
    }

    /// A panel that comes from a creation never refuses an output of this length as too short: a message to each neighbour and an emit, or 50
    /// bytes for each queued announcement, or 33 for each cached message, which an eviction tells. That this number is enough is proved
    /// (`crates/plumtree/specs/OutputSize.antt`); that this function computes it is tested, not proved.
    ///
    /// ```
    /// assert_eq!(plumtree::Limits::SMALL.output_size(4_094), 37_027);
    /// assert_eq!(plumtree::Limits::CEILINGS.output_size(4_094), 409_664);
    /// let few_links = plumtree::Limits { neighbours: 1, queued: 1, cached: 512, ..plumtree::Limits::SMALL };
    /// assert_eq!(few_links.output_size(510), 16_960);
    /// ```
    pub const fn output_size(&self, max_message_size: u64) -> usize {
        let sends = (self.neighbours + 1) * (max_message_size as usize + 13);
        let announcements = 50 * self.queued;
        let forgotten = 33 * self.cached;
        let most = if sends < announcements { announcements } else { sends };
        if most < forgotten {
            forgotten + 64
        } else {
            most + 64
        }
    }
}

/// The lesser of two.
const fn least(a: usize, b: usize) -> usize {
    if a < b {
        a
    } else {
        b
    }
}
