//! A document, and the three calls on it.
use crate::calls::{self, Lent, LentToChange};
use crate::sizes::*;
use crate::{Clock, Id, Operation, Picture, Refusal, Row, Successor};
use std::fmt;

/// A document of maps and lists. It owns its memory, which is about 640 kB whatever it holds.
///
/// ```
/// use gantrysnip::{Action, Clock, Document, Id, Key, Operation, Value};
/// let mut document = Document::new();
/// let list = Id::new(1, 0)?;
/// let first = Id::new(2, 0)?;
/// document.merge(&[
///     Operation::at_key(list, Id::ROOT, Key::new("certificates")?, Action::MakeList),
///     Operation::insert(first, list, Id::HEAD, Action::Set(Value::Unsigned(4711))),
/// ])?;
/// let shown: Vec<_> = document.picture(&Clock::everything())?.list(list).map(|entry| entry.id()).collect();
/// assert_eq!(shown, [first]);
/// # Ok::<(), Box<dyn std::error::Error>>(())
/// ```
#[derive(Clone)]
pub struct Document {
    rows: Vec<u64>,
    successors: Vec<u64>,
    row_count: usize,
    successor_count: usize,
}

/// Where a new element of a list goes: after this element, and its row at this place, counted from 0.
#[derive(Clone, Copy, Debug, PartialEq, Eq, Hash)]
pub struct Spot {
    pub after: Id,
    pub place: usize,
}

impl Document {
    /// The empty document.
    pub fn new() -> Document {
        Document {
            rows: vec![0; MAX_ROWS * ROW_WORDS],
            successors: vec![0; MAX_SUCCESSORS * SUCCESSOR_WORDS],
            row_count: 0,
            successor_count: 0,
        }
    }

    /// The document with these words of rows and of successors, if they are those of a well-formed one.
    pub fn from_words(rows: &[u64], successors: &[u64]) -> Result<Document, Refusal> {
        if rows.len() % ROW_WORDS != 0 || successors.len() % SUCCESSOR_WORDS != 0 {
            return Err(Refusal::Size);
        }
        let mut document = Document::new();
        document.rows.get_mut(..rows.len()).ok_or(Refusal::Document)?.copy_from_slice(rows);
        document.successors.get_mut(..successors.len()).ok_or(Refusal::Document)?.copy_from_slice(successors);
        document.row_count = rows.len() / ROW_WORDS;
        document.successor_count = successors.len() / SUCCESSOR_WORDS;
        // every call checks the document that it reads
        document.picture(&Clock::everything()).map(|_| document)
    }

    /// Merges a batch of at most 256 operations, in any order. Refused, it leaves the document as it was.
    pub fn merge(&mut self, batch: &[Operation]) -> Result<(), Refusal> {
        let words: Vec<u64> = batch.iter().flat_map(|operation| *operation.words()).collect();
        self.merge_words(&words)
    }

    /// The same with a batch of words, 29 for each operation.
    ///
    /// ```
    /// use gantrysnip::{Document, Refusal};
    /// let mut document = Document::new();
    /// assert_eq!(document.merge_words(&[64; 28]), Err(Refusal::Size));
    /// assert_eq!(document.merge_words(&[64; 29]), Err(Refusal::Malformed { operation: 0 }));
    /// ```
    pub fn merge_words(&mut self, batch: &[u64]) -> Result<(), Refusal> {
        let count = batch.len().div_ceil(OPERATION_WORDS) as u64;
        let lent = LentToChange {
            rows: &mut self.rows,
            row_count: self.row_count as u64,
            successors: &mut self.successors,
            successor_count: self.successor_count as u64,
        };
        let mut answer = [0; 3];
        calls::merge(lent, batch, count, &mut room(), &mut answer);
        [self.row_count, self.successor_count] = Refusal::read(answer)?;
        Ok(())
    }

    /// What it shows under a clock.
    pub fn picture(&self, clock: &Clock) -> Result<Picture, Refusal> {
        let mut output = vec![0; self.row_count * ENTRY_WORDS];
        let mut answer = [0; 3];
        calls::picture(self.lent(clock), &mut output, &mut room(), &mut answer);
        let [entries, _] = Refusal::read(answer)?;
        output.truncate(entries * ENTRY_WORDS);
        Ok(Picture::new(output))
    }

    /// Where an insert goes that is to stand just after the `target`-th visible element of a list; 0 is before all.
    ///
    /// ```
    /// use gantrysnip::{Action, Clock, Document, Id, Key, Operation, Refusal};
    /// let list = Id::new(1, 0)?;
    /// let mut document = Document::new();
    /// document.merge(&[Operation::at_key(list, Id::ROOT, Key::new("r")?, Action::MakeList)])?;
    /// let spot = document.spot(&Clock::everything(), list, 0)?;
    /// assert_eq!((spot.after, spot.place), (Id::HEAD, 1));
    /// assert_eq!(document.spot(&Clock::everything(), list, 1), Err(Refusal::Target));
    /// # Ok::<(), Box<dyn std::error::Error>>(())
    /// ```
    pub fn spot(&self, clock: &Clock, list: Id, target: u64) -> Result<Spot, Refusal> {
        let mut answer = [0; 3];
        calls::spot(self.lent(clock), list.word(), target, &mut room(), &mut answer);
        let [_, element, place] = answer;
        Refusal::read(answer)?;
        Ok(Spot { after: Id::from_word(element), place: place as usize })
    }

    pub fn row_count(&self) -> usize {
        self.row_count
    }

    pub fn successor_count(&self) -> usize {
        self.successor_count
    }

    /// The words in use, 12 for each row.
    pub fn row_words(&self) -> &[u64] {
        self.rows.get(..self.row_count * ROW_WORDS).unwrap_or_default()
    }

    /// The words in use, 4 for each successor.
    pub fn successor_words(&self) -> &[u64] {
        self.successors.get(..self.successor_count * SUCCESSOR_WORDS).unwrap_or_default()
    }

    /// In document order.
    pub fn rows(&self) -> impl Iterator<Item = Row> + '_ {
        self.row_words().chunks_exact(ROW_WORDS).filter_map(|words| words.try_into().ok().map(Row::from_words))
    }

    /// Ascending by row, then by successor.
    pub fn successors(&self) -> impl Iterator<Item = Successor> + '_ {
        let chunks = self.successor_words().chunks_exact(SUCCESSOR_WORDS);
        chunks.filter_map(|words| words.try_into().ok().map(Successor::from_words))
    }

    fn lent<'a>(&'a self, clock: &'a Clock) -> Lent<'a> {
        Lent {
            rows: &self.rows,
            successors: &self.successors,
            row_count: self.row_count as u64,
            successor_count: self.successor_count as u64,
            clock: clock.words(),
        }
    }
}

/// Lent anew for each call, so that reading needs no `&mut`.
fn room() -> Vec<u64> {
    vec![0; ROOM_WORDS]
}

impl Default for Document {
    fn default() -> Document {
        Document::new()
    }
}

/// Field for field; what lies past the counts is no part of a document.
impl PartialEq for Document {
    fn eq(&self, other: &Document) -> bool {
        self.row_words() == other.row_words() && self.successor_words() == other.successor_words()
    }
}

impl Eq for Document {}

impl fmt::Debug for Document {
    fn fmt(&self, f: &mut fmt::Formatter<'_>) -> fmt::Result {
        write!(f, "Document of {} rows and {} successors", self.row_count, self.successor_count)
    }
}
