//! The picture: what a document shows under a clock.
use crate::sizes::ENTRY_WORDS;
use crate::{Action, Id, Key};

/// All visible rows, in document order.
///
/// ```
/// use gantrysnip::{Action, Clock, Document, Id, Key, Value};
/// let mut document = Document::new();
/// document.merge(&[
///     r#"1@0 set counter 10 in root at "crew""#.parse()?,
///     r#"2@0 increment 5 in root at "crew" over 1@0"#.parse()?,
///     r#"2@1 set true in root at "crew""#.parse()?,
/// ])?;
/// let picture = document.picture(&Clock::everything())?;
/// let shown: Vec<_> = picture.entries().filter_map(|entry| entry.shows()).collect();
/// assert_eq!(shown, [Action::Set(Value::Counter(15)), Action::Set(Value::Boolean(true))]);
/// assert!(picture.entries().all(|entry| entry.in_conflict()));
/// let winner = picture.at_key(Id::ROOT, Key::new("crew")?).map(|entry| entry.id());
/// assert_eq!(winner, Some(Id::new(2, 1)?));
/// # Ok::<(), Box<dyn std::error::Error>>(())
/// ```
#[derive(Clone, Debug, PartialEq, Eq)]
pub struct Picture(Vec<u64>);

/// One visible row.
#[derive(Clone, Copy, Debug, PartialEq, Eq, Hash)]
pub struct Entry([u64; ENTRY_WORDS]);

impl Picture {
    pub(crate) fn new(words: Vec<u64>) -> Picture {
        Picture(words)
    }

    /// The words, 14 for each entry.
    pub fn words(&self) -> &[u64] {
        &self.0
    }

    pub fn entries(&self) -> impl Iterator<Item = Entry> + '_ {
        self.0.chunks_exact(ENTRY_WORDS).filter_map(|words| words.try_into().ok().map(Entry))
    }

    /// The entry that wins this key of a map.
    pub fn at_key(&self, map: Id, key: Key) -> Option<Entry> {
        self.entries().find(|entry| entry.wins() && entry.object() == map && entry.key() == Some(key))
    }

    /// The winning entries of a list, in order.
    pub fn list(&self, list: Id) -> impl Iterator<Item = Entry> + '_ {
        self.entries().filter(move |entry| entry.wins() && entry.object() == list && entry.element().is_some())
    }
}

impl Entry {
    pub const fn words(&self) -> &[u64; ENTRY_WORDS] {
        &self.0
    }

    pub const fn id(&self) -> Id {
        Id::from_word(self.0[0])
    }

    pub const fn object(&self) -> Id {
        Id::from_word(self.0[1])
    }

    /// The key, in a map.
    pub fn key(&self) -> Option<Key> {
        let [_, _, kind, _, length, a, b, c, ..] = self.0;
        (kind == 0).then(|| Key::from_words([length, a, b, c]))
    }

    /// The element, in a list.
    pub fn element(&self) -> Option<Id> {
        (self.0[2] != 0).then_some(Id::from_word(self.0[3]))
    }

    /// Make map, Make list, or Set with the value that is shown: a counter's is its total.
    pub fn shows(&self) -> Option<Action> {
        Action::from_words(self.0[8], self.0[9], self.0[10])
    }

    /// Whether it is what its key or element is taken to hold: the visible row with the greatest id.
    pub const fn wins(&self) -> bool {
        self.0[11] != 0
    }

    /// Whether its key or element has two visible rows or more.
    pub const fn in_conflict(&self) -> bool {
        self.0[12] != 0
    }

    /// Mark 11: it is a counter whose total does not fit 64 signed bits, and shows 0.
    pub const fn outgrown(&self) -> bool {
        self.0[13] != 0
    }
}
