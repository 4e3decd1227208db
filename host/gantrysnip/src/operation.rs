//! Operations, built from typed parts or taken as words.
use crate::sizes::{MAX_PREDECESSORS, OPERATION_WORDS, ROW_WORDS};
use crate::{Action, Id, Key, Place, Row, Unfit};

/// An operation of a batch.
///
/// ```
/// use gantrysnip::{Action, Id, Key, Operation, Value};
/// let crew = Operation::at_key(Id::new(1, 0)?, Id::ROOT, Key::new("crew")?, Action::Set(Value::Counter(12)));
/// let two_more = Operation::at_key(Id::new(2, 0)?, Id::ROOT, Key::new("crew")?, Action::Increment(2));
/// let two_more = two_more.over(&[crew.id()])?;
/// assert_eq!(two_more.to_string(), r#"2@0 increment 2 in root at "crew" over 1@0"#);
/// assert_eq!(Operation::from_words(*two_more.words()), two_more);
/// # Ok::<(), gantrysnip::Unfit>(())
/// ```
#[derive(Clone, Copy, Debug, PartialEq, Eq, Hash)]
pub struct Operation([u64; OPERATION_WORDS]);

impl Operation {
    /// Any words, in the layout of docs/LAYOUT.md. What is wrong with them the merge will say.
    pub const fn from_words(words: [u64; OPERATION_WORDS]) -> Operation {
        Operation(words)
    }

    pub fn new(id: Id, place: Place, action: Action) -> Operation {
        let mut words = [0; OPERATION_WORDS];
        words.iter_mut().zip(Row::new(id, place, action).words()).for_each(|(to, word)| *to = *word);
        Operation(words)
    }

    /// At a map's key; the map is [`Id::ROOT`] or the id of its Make.
    pub fn at_key(id: Id, map: Id, key: Key, action: Action) -> Operation {
        Operation::new(id, Place::Key { map, key }, action)
    }

    /// On a list's element, which is named by the id of its insert.
    pub fn at_element(id: Id, list: Id, element: Id, action: Action) -> Operation {
        Operation::new(id, Place::Element { list, element }, action)
    }

    /// A new element of a list after another one, or after [`Id::HEAD`].
    pub fn insert(id: Id, list: Id, after: Id, action: Action) -> Operation {
        Operation::new(id, Place::Insert { list, after }, action)
    }

    /// The same over these predecessors, named in any order: what its author saw there and acted upon.
    pub fn over(mut self, predecessors: &[Id]) -> Result<Operation, Unfit> {
        let mut ids = predecessors.to_vec();
        ids.sort();
        if let Some(twice) = ids.iter().zip(ids.iter().skip(1)).find(|(a, b)| a == b) {
            return Err(Unfit::Twice(*twice.0));
        }
        if ids.len() > MAX_PREDECESSORS {
            return Err(Unfit::Predecessors(ids.len()));
        }
        self.0[ROW_WORDS] = ids.len() as u64;
        let slots = self.0.iter_mut().skip(ROW_WORDS + 1);
        let words = ids.into_iter().map(Id::word).chain(std::iter::repeat(0));
        slots.zip(words).for_each(|(slot, word)| *slot = word);
        Ok(self)
    }

    pub const fn words(&self) -> &[u64; OPERATION_WORDS] {
        &self.0
    }

    pub const fn id(&self) -> Id {
        Id::from_word(self.0[0])
    }

    /// All but the predecessors.
    pub fn row(&self) -> Row {
        let mut words = [0; ROW_WORDS];
        words.iter_mut().zip(self.0).for_each(|(to, word)| *to = word);
        Row::from_words(words)
    }

    pub fn place(&self) -> Place {
        self.row().place()
    }

    /// None where the words are those of no action; the merge refuses such an operation.
    pub fn action(&self) -> Option<Action> {
        self.row().action()
    }

    /// As many of the 16 slots as are counted.
    pub fn predecessors(&self) -> impl Iterator<Item = Id> + '_ {
        let count = self.0[ROW_WORDS].min(MAX_PREDECESSORS as u64) as usize;
        self.0.iter().skip(ROW_WORDS + 1).take(count).map(|word| Id::from_word(*word))
    }
}
