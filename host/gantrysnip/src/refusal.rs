//! What a call can refuse with: the numbers of the rules, where it is, and a sentence.
use crate::calls::Answer;
use std::fmt;

/// A refusal. The document is as it was before the call.
///
/// ```
/// use gantrysnip::{Document, Id, Refusal};
/// let refused = Document::new().spot(&Default::default(), Id::ROOT, 0).unwrap_err();
/// assert_eq!((refused, refused.number()), (Refusal::NoList, 12));
/// println!("{refused}");
/// ```
#[derive(Clone, Copy, Debug, PartialEq, Eq, Hash)]
#[non_exhaustive]
pub enum Refusal {
    /// 1: words that are no whole number of operations, rows or successors.
    Size,
    /// 2: the words are those of no document.
    Document,
    /// 3: over 256 operations in one batch.
    Batch,
    /// 4: this operation, counted from 0, is malformed.
    Malformed { operation: usize },
    /// 5: its id is already used.
    Used { operation: usize },
    /// 6: its object isn't there, or is of the wrong kind.
    Object { operation: usize },
    /// 7: the element that it names isn't there.
    Element { operation: usize },
    /// 8: one of its predecessors isn't there.
    Predecessor { operation: usize },
    /// 9: the document would be too large.
    Full,
    /// 10: the target is above the visible elements.
    Target,
    /// 12: the object is no list of the document.
    NoList,
    /// A number that this version has no name for; the library of its own age gives none.
    Other { number: u64, place: usize },
}

impl Refusal {
    /// The values of an accepted answer, or the refusal.
    pub(crate) fn read([number, first, second]: Answer) -> Result<[usize; 2], Refusal> {
        let place = first as usize;
        Err(match number {
            0 => return Ok([first as usize, second as usize]),
            1 => Refusal::Size,
            2 => Refusal::Document,
            3 => Refusal::Batch,
            4 => Refusal::Malformed { operation: place },
            5 => Refusal::Used { operation: place },
            6 => Refusal::Object { operation: place },
            7 => Refusal::Element { operation: place },
            8 => Refusal::Predecessor { operation: place },
            9 => Refusal::Full,
            10 => Refusal::Target,
            12 => Refusal::NoList,
            _ => Refusal::Other { number, place },
        })
    }

    /// The rules' number for it.
    pub fn number(&self) -> u64 {
        match self {
            Refusal::Size => 1,
            Refusal::Document => 2,
            Refusal::Batch => 3,
            Refusal::Malformed { .. } => 4,
            Refusal::Used { .. } => 5,
            Refusal::Object { .. } => 6,
            Refusal::Element { .. } => 7,
            Refusal::Predecessor { .. } => 8,
            Refusal::Full => 9,
            Refusal::Target => 10,
            Refusal::NoList => 12,
            Refusal::Other { number, .. } => *number,
        }
    }

    /// The operation of the batch that it is about, counted from 0.
    pub fn operation(&self) -> Option<usize> {
        match self {
            Refusal::Malformed { operation }
            | Refusal::Used { operation }
            | Refusal::Object { operation }
            | Refusal::Element { operation }
            | Refusal::Predecessor { operation } => Some(*operation),
            _ => None,
        }
    }

    /// The place as the rules give it: the operation, or 0.
    pub fn place(&self) -> usize {
        match self {
            Refusal::Other { place, .. } => *place,
            _ => self.operation().unwrap_or(0),
        }
    }

    /// The same about another operation: for a caller who counts differently.
    pub fn with_operation(self, operation: usize) -> Refusal {
        match self {
            Refusal::Malformed { .. } => Refusal::Malformed { operation },
            Refusal::Used { .. } => Refusal::Used { operation },
            Refusal::Object { .. } => Refusal::Object { operation },
            Refusal::Element { .. } => Refusal::Element { operation },
            Refusal::Predecessor { .. } => Refusal::Predecessor { operation },
            other => other,
        }
    }

    /// What it means.
    pub fn sentence(&self) -> &'static str {
        explanation(self.number()).map_or("a refusal that this version does not know", |(sentence, _)| sentence)
    }
}

impl fmt::Display for Refusal {
    fn fmt(&self, f: &mut fmt::Formatter<'_>) -> fmt::Result {
        write!(f, "refused with {}", self.number())?;
        if let Some(operation) = self.operation() {
            write!(f, ", operation {operation} counted from 0")?;
        }
        write!(f, ": {}", self.sentence())
    }
}

impl std::error::Error for Refusal {}

/// What a number of the rules means, and what can be done about it. None for a number that they have not.
///
/// ```
/// assert!(gantrysnip::explanation(9).is_some() && gantrysnip::explanation(13).is_none());
/// ```
pub fn explanation(number: u64) -> Option<(&'static str, &'static str)> {
    Some(match number {
        0 => ("accepted", "Nothing is to be done."),
        1 => (
            "words of another size than documented",
            "Rows have 12 words, successors 4, operations 29, a clock 64 or none (docs/LAYOUT.md). Nothing was written.",
        ),
        2 => (
            "the document is not well-formed",
            "Its words were not made by merges, or were damaged since. Build it anew from its operations.",
        ),
        3 => ("a batch of more than 256 operations", "Cut it: smaller ids first, 256 at a time."),
        4 => (
            "the operation is malformed",
            "An id is 1@0 to 4294967295@63 and a key at most 24 bytes. A delete or an increment is over at least one \
             operation and is no insert; an insert is over none; only an insert can name head; at most 16 operations \
             are named after over, each once.",
        ),
        5 => (
            "its id is used already, by a row, a delete or an earlier operation of the batch",
            "Each operation needs an id of its own: a counter above all that its author has seen, and his actor.",
        ),
        6 => (
            "its object is not there, or is a map where a list is meant, or the other way round",
            "The object is root or the id of a smaller make map or make list. Keys are for maps, elements for lists. \
             If the object is made in a batch that has not come yet, merge that one first.",
        ),
        7 => (
            "the element that it names is no element of that list",
            "An element is named by the id of its insert, in the same list and with a smaller id. If that insert has \
             not come yet, merge its batch first.",
        ),
        8 => (
            "one of the operations that it is over is not there, or stands at another key or element",
            "It can be over a set or a make at the same key or element with a smaller id; not over a delete or an \
             increment. If that one has not come yet, merge its batch first.",
        ),
        9 => (
            "the document would have more than 4,096 rows or 8,192 successors",
            "The document stays as it was. Begin a new one.",
        ),
        10 => ("the list has fewer visible elements than the target", "Targets go from 0 to the count of visible elements."),
        11 => (
            "a counter's total does not fit 64 signed bits",
            "This is no refusal: the picture marks the counter and shows 0. An increment the other way brings it back.",
        ),
        12 => ("the object is no list of the document", "Name the id of a make list that was merged."),
        _ => return None,
    })
}
