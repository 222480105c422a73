use std::fmt;

/// The questions, each once: its number, what a no means, its words, and what else is to be known.
macro_rules! questions {
    ($($name:ident = $number:literal, $meaning:literal, $question:literal $(, $more:literal)?;)*) => {
        /// The question that was answered no; "The first no gives its number". Nothing has changed then: neither block, counts, output nor area.
        ///
        /// Creation asks 1 to 4, an event 5 to 9, 23 and 10 to 14, [`alike`](crate::alike) 5, [`rewrite`](crate::rewrite) 7, 8, 9 and 14,
        /// [`save`](crate::Panel::save) 5, 17, 16 and [`go_back`](crate::Panel::go_back) 5, 17, 15, each in this order. The readers of this crate
        /// ([`Event::read`](crate::Event::read), [`Message::read`](crate::Message::read), [`Action::read`](crate::Action::read)) use 7, 8 and 9, that of
        /// events 23 too.
        #[repr(u8)]
        #[derive(Clone, Copy, Debug, PartialEq, Eq, Hash, PartialOrd, Ord)]
        pub enum Error {
            $(
                #[doc = concat!($number, ": ", $meaning, ". \"", $question, "\"" $(, " ", $more)?)]
                $name = $number,
            )*
        }

        impl Error {
            /// All eighteen, by their numbers.
            pub const ALL: [Error; 18] = [$(Error::$name),*];

            /// What the refusal means.
            pub fn meaning(self) -> &'static str {
                match self {
                    $(Error::$name => $meaning,)*
                }
            }

            /// The question, in the specification's words; of 15 to 17 what is answered so, in the words of the request that adds them; of 23 in
            /// words of this library.
            pub fn question(self) -> &'static str {
                match self {
                    $(Error::$name => $question,)*
                }
            }
        }
    };
}

questions! {
    MessageSizeOutOfRange = 1, "the message size M is out of range", "Is M, `max_message_size`, from 510 to 4,094?";
    DurationTooLong = 2, "a duration is too long", "Is each of the six durations at most 2^40?";
    LimitOutOfRange = 3, "a limit is 0 or over its ceiling", "Is each limit from 1 to its ceiling?";
    BlockTooShort = 4, "the block is too short for the limits",
        "Has the lent block at least 4,096 + B + 160R + 256C + 640G + 512S + 64(N + T + Q + D) bytes?",
        "[`block_size`](crate::block_size) says how many.";
    BlockNotWhole = 5, "the block holds no panel, or a damaged one", "Is the block whole?",
        "No: it was not created, was written by somebody else, or is shorter than its limits need.";
    TimeTooLate = 6, "the time is too late", "Is now ≤ 2^62?";
    EventCut = 7, "the bytes end within a field", "Does each field end within the bytes?";
    EventMalformed = 8, "a kind is unknown, or a number is too wide or not shortest",
        "Is each kind known, each number in its width and shortest?",
        "Inside a message a number may be padded ([`Message::read`](crate::Message::read)).";
    EventTooLong = 9, "there are bytes after the end", "Do the bytes end there?";
    MessageTooLong = 10, "the received message is too long", "Is a received message at most M bytes?",
        "These are the bytes behind the peer's number, as they came.";
    CountsFull = 11, "a count would pass its greatest value", "Do the counts stay under 2^64?";
    NoMoreHops = 12, "the message is new here and has made 65,535 hops already",
        "Is it anything but a valid Swarm message of round 65,535, unreceived once a first event has evicted?", "Drop it.";
    LimitReached = 13, "a limit is reached", "Is the state after the call within every limit?",
        "What the call frees counts as free. Entries that expire and neighbours that go down make room; so do higher limits at creation.";
    OutputTooShort = 14, "the output is too short", "Do the actions fit the output?",
        "The same call with a longer output goes through.";
    NameNotKept = 15, "no state is kept under this name", "Returning to a name not kept",
        "Names are compared over all eight bytes.";
    NamesFull = 16, "four states are kept under other names", "saving a fifth name",
        "Save under one of the four names, or into another [`Area`](crate::Area).";
    AreaNotWhole = 17, "the area is too short, damaged, or of blocks of another length",
        "an area too short, or one that savings of blocks of this length couldn't have left",
        "[`Area::for_panel`](crate::Area::for_panel) makes one of the right length.";
    NeighborsBroadcast = 23, "neighbours-only broadcasts are retired", "Is it anything but a Neighbors broadcast?",
        "It is refused each time; [`Event::Broadcast`](crate::Event::Broadcast) is for all panels.";
}

impl Error {
    /// The error of a number, from 1 to 17 and 23.
    pub fn from_number(number: u8) -> Option<Error> {
        Error::ALL.into_iter().find(|e| e.number() == number)
    }

    /// Its number, from 1 to 17 or 23.
    pub fn number(self) -> u8 {
        self as u8
    }

    /// What the library's number means: nothing, or an error.
    pub(crate) fn check(number: u8) -> Result<(), Error> {
        match number {
            0 => Ok(()),
            n => Err(Error::from_number(n).expect("the library answers 0 to 17 and 23")),
        }
    }
}

/// For people: what it means, then the question. `plumtree_number_text` of include/plumtree.h says the same words.
impl fmt::Display for Error {
    fn fmt(&self, f: &mut fmt::Formatter<'_>) -> fmt::Result {
        write!(f, "{} (question {}: \"{}\")", self.meaning(), self.number(), self.question())
    }
}

impl std::error::Error for Error {}
