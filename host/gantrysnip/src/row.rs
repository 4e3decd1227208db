//! Rows and successors of a document, word for word, with names for the words.
use crate::sizes::{ROW_WORDS, SUCCESSOR_WORDS};
use crate::{Action, Id, Key, Place};

/// A row: an operation as the document keeps it.
///
/// ```
/// use gantrysnip::{Action, Document, Place, Value};
/// let mut document = Document::new();
/// document.merge(&[r#"1@0 set counter 3 in root at "k""#.parse()?, r#"2@0 increment 4 in root at "k" over 1@0"#.parse()?])?;
/// let row = document.rows().next().ok_or("no row")?;
/// assert_eq!(row.action(), Some(Action::Set(Value::Counter(3))));
/// assert!(matches!(row.place(), Place::Key { key, .. } if key.bytes() == b"k"));
/// let successor = document.successors().next().ok_or("no successor")?;
/// assert_eq!((successor.row(), successor.increment()), (row.id(), Some(4)));
/// # Ok::<(), Box<dyn std::error::Error>>(())
/// ```
#[derive(Clone, Copy, Debug, PartialEq, Eq, Hash)]
pub struct Row([u64; ROW_WORDS]);

impl Row {
    pub const fn from_words(words: [u64; ROW_WORDS]) -> Row {
        Row(words)
    }

    pub fn new(id: Id, place: Place, action: Action) -> Row {
        let [action, kind, value] = action.words();
        let id = id.word();
        Row(match place {
            Place::Key { map, key } => {
                let [length, a, b, c] = key.words();
                [id, map.word(), 0, 0, length, a, b, c, 0, action, kind, value]
            }
            Place::Element { list, element } => {
                [id, list.word(), 1, element.word(), 0, 0, 0, 0, 0, action, kind, value]
            }
            Place::Insert { list, after } => [id, list.word(), 1, after.word(), 0, 0, 0, 0, 1, action, kind, value],
        })
    }

    pub const fn words(&self) -> &[u64; ROW_WORDS] {
        &self.0
    }

    pub const fn id(&self) -> Id {
        Id::from_word(self.0[0])
    }

    /// The map or list that the row is in.
    pub const fn object(&self) -> Id {
        Id::from_word(self.0[1])
    }

    pub fn place(&self) -> Place {
        let [_, _, kind, named, length, a, b, c, insert, ..] = self.0;
        let named = Id::from_word(named);
        match (kind, insert) {
            (0, _) => Place::Key { map: self.object(), key: Key::from_words([length, a, b, c]) },
            (_, 0) => Place::Element { list: self.object(), element: named },
            _ => Place::Insert { list: self.object(), after: named },
        }
    }

    /// The element that a list's row is about; an insert's is its own id.
    pub fn element(&self) -> Option<Id> {
        match self.place() {
            Place::Key { .. } => None,
            Place::Element { element, .. } => Some(element),
            Place::Insert { .. } => Some(self.id()),
        }
    }

    /// None where the words are those of no action; no document has such a row.
    pub fn action(&self) -> Option<Action> {
        let [.., action, kind, value] = self.0;
        Action::from_words(action, kind, value)
    }
}

/// A successor entry: an operation that came over a row.
#[derive(Clone, Copy, Debug, PartialEq, Eq, Hash)]
pub struct Successor([u64; SUCCESSOR_WORDS]);

impl Successor {
    pub const fn from_words(words: [u64; SUCCESSOR_WORDS]) -> Successor {
        Successor(words)
    }

    pub const fn words(&self) -> &[u64; SUCCESSOR_WORDS] {
        &self.0
    }

    /// The row that it belongs to.
    pub const fn row(&self) -> Id {
        Id::from_word(self.0[0])
    }

    pub const fn id(&self) -> Id {
        Id::from_word(self.0[1])
    }

    /// What it adds to a counter; without one it is an overwrite or a delete.
    pub fn increment(&self) -> Option<i64> {
        (self.0[2] != 0).then_some(self.0[3] as i64)
    }
}
