//! Clocks: how much of each actor's work is looked at.
use crate::sizes::ACTORS;
use crate::{Id, Unfit};

/// The largest counter covered for each actor, or no clock at all, which covers everything.
///
/// ```
/// use gantrysnip::{Clock, Id};
/// let clock = Clock::nothing().with(0, 5)?;
/// assert!(clock.covers(Id::new(5, 0)?) && !clock.covers(Id::new(6, 0)?) && !clock.covers(Id::new(1, 1)?));
/// assert!(Clock::everything().covers(Id::new(6, 0)?));
/// # Ok::<(), gantrysnip::Unfit>(())
/// ```
#[derive(Clone, Debug, PartialEq, Eq, Hash, Default)]
pub struct Clock(Option<[u64; ACTORS]>);

impl Clock {
    /// No clock: every operation is covered.
    pub const fn everything() -> Clock {
        Clock(None)
    }

    /// No operation is covered.
    pub const fn nothing() -> Clock {
        Clock(Some([0; ACTORS]))
    }

    pub const fn from_words(words: [u64; ACTORS]) -> Clock {
        Clock(Some(words))
    }

    /// The same with this counter, any number, for this actor. Actors that were not named are not covered.
    pub fn with(self, actor: u64, counter: u64) -> Result<Clock, Unfit> {
        let mut words = self.0.unwrap_or([0; ACTORS]);
        let word = usize::try_from(actor).ok().and_then(|actor| words.get_mut(actor));
        *word.ok_or(Unfit::Actor(actor))? = counter;
        Ok(Clock(Some(words)))
    }

    pub fn covers(&self, id: Id) -> bool {
        let word = |words: &[u64; ACTORS]| words.get(id.actor() as usize).is_some_and(|word| id.counter() <= *word);
        self.0.as_ref().is_none_or(word)
    }

    /// 64 words, or none.
    pub fn words(&self) -> &[u64] {
        self.0.as_ref().map_or(&[], |words| words)
    }
}
