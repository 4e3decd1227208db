//! Why a value cannot be built: it would be malformed (number 4) in any operation.
use std::fmt;

/// A field out of range, found before any call is made.
#[derive(Clone, Debug, PartialEq, Eq)]
#[non_exhaustive]
pub enum Unfit {
    /// A counter is 1 to 4,294,967,295.
    Counter(u64),
    /// An actor is 0 to 63.
    Actor(u64),
    /// A map's key has at most 24 bytes; this is the length that was given.
    Key(usize),
    /// An operation has at most 16 predecessors; this is the count that was given.
    Predecessors(usize),
    /// A predecessor is named twice.
    Twice(crate::Id),
    /// A text that is no id: an id is written counter@actor.
    Id(String),
    /// A text that is no part of a clock.
    Clock(String),
}

impl Unfit {
    /// The number of the rules for a field out of range.
    pub fn number(&self) -> u64 {
        4
    }
}

impl fmt::Display for Unfit {
    fn fmt(&self, f: &mut fmt::Formatter<'_>) -> fmt::Result {
        match self {
            Unfit::Counter(counter) => write!(f, "a counter is 1 to 4294967295, not {counter}"),
            Unfit::Actor(actor) => write!(f, "an actor is 0 to 63, not {actor}"),
            Unfit::Key(length) => write!(f, "a key has at most 24 bytes, not {length}"),
            Unfit::Predecessors(count) => write!(f, "an operation is over at most 16 others, not {count}"),
            Unfit::Twice(id) => write!(f, "{id} is named twice"),
            Unfit::Id(text) => write!(f, "an id is written counter@actor, as in 12@0, not {text:?}"),
            Unfit::Clock(text) => write!(f, "a clock is everything, nothing, or as in 6@0,7@1, not {text:?}"),
        }
    }
}

impl std::error::Error for Unfit {}
