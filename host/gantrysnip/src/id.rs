//! Ids of operations.
use crate::sizes::{ACTORS, MAX_COUNTER};
use crate::Unfit;
use std::fmt;
use std::str::FromStr;

/// A counter and an actor; ids compare by counter, then actor.
///
/// ```
/// use gantrysnip::Id;
/// let id = Id::new(12, 3)?;
/// assert_eq!((id.counter(), id.actor()), (12, 3));
/// assert_eq!(id.to_string(), "12@3");
/// assert!(id < Id::new(13, 0)?);
/// assert!(Id::new(0, 0).is_err() && Id::new(1, 64).is_err());
/// # Ok::<(), gantrysnip::Unfit>(())
/// ```
#[derive(Clone, Copy, PartialEq, Eq, PartialOrd, Ord, Hash)]
pub struct Id(u64);

impl Id {
    /// The map that every document begins with. It is no operation's id.
    pub const ROOT: Id = Id(0);
    /// What the first element of a list is inserted after. It is no operation's id.
    pub const HEAD: Id = Id(0);

    /// The counter is 1 to 4,294,967,295, the actor 0 to 63.
    pub fn new(counter: u64, actor: u64) -> Result<Id, Unfit> {
        if counter == 0 || counter > MAX_COUNTER {
            Err(Unfit::Counter(counter))
        } else if actor >= ACTORS as u64 {
            Err(Unfit::Actor(actor))
        } else {
            Ok(Id(counter * ACTORS as u64 + actor))
        }
    }

    /// The id that a word stands for, whatever the word: a call refuses it where it is none.
    pub const fn from_word(word: u64) -> Id {
        Id(word)
    }

    /// `counter * 64 + actor`, or 0 for ROOT and HEAD.
    pub const fn word(self) -> u64 {
        self.0
    }

    pub const fn counter(self) -> u64 {
        self.0 / ACTORS as u64
    }

    pub const fn actor(self) -> u64 {
        self.0 % ACTORS as u64
    }

    /// Whether this can be an operation's id.
    pub const fn is_operation(self) -> bool {
        self.counter() >= 1 && self.counter() <= MAX_COUNTER
    }
}

impl fmt::Display for Id {
    fn fmt(&self, f: &mut fmt::Formatter<'_>) -> fmt::Result {
        f.pad(&format!("{}@{}", self.counter(), self.actor()))
    }
}

impl fmt::Debug for Id {
    fn fmt(&self, f: &mut fmt::Formatter<'_>) -> fmt::Result {
        fmt::Display::fmt(self, f)
    }
}

/// From `counter@actor`.
impl FromStr for Id {
    type Err = Unfit;
    fn from_str(text: &str) -> Result<Id, Unfit> {
        let digits = |part: &str| !part.is_empty() && part.bytes().all(|byte| byte.is_ascii_digit());
        let (counter, actor) = text
            .split_once('@')
            .filter(|(counter, actor)| digits(counter) && digits(actor))
            .ok_or_else(|| Unfit::Id(text.into()))?;
        // digits that do not fit 64 bits are a counter or an actor out of range
        Id::new(counter.parse().unwrap_or(u64::MAX), actor.parse().unwrap_or(u64::MAX))
    }
}
