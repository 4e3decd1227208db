//! An independent reading of the rules, slow and obvious: the three calls on raw lent slices and claims.
//! Each call gives its answer and leaves the slices as the rules say they are at exit.
pub mod checks;
pub mod document;
pub mod merge;
pub mod order;
pub mod picture;
pub mod row;
pub mod spot;
pub mod visible;

use crate::layout::*;
use document::Document;
use row::Operation;
use visible::Clock;

/// The number of the rules' table and what comes with it: a place, counts, or an element and a place.
#[derive(Clone, Copy, PartialEq, Eq, Debug)]
pub struct Answer {
    pub number: u64,
    pub values: [u64; 2],
}

impl Answer {
    pub fn accepted(first: u64, second: u64) -> Answer {
        Answer { number: 0, values: [first, second] }
    }
    pub fn refused(number: u64, place: u64) -> Answer {
        Answer { number, values: [place, 0] }
    }
    pub fn is_accepted(&self) -> bool {
        self.number == 0
    }
}

/// A document as it is lent: slices of words and the claimed counts.
pub struct Lent<'a> {
    pub rows: &'a mut [u64],
    pub row_count: u64,
    pub successors: &'a mut [u64],
    pub successor_count: u64,
    pub work: &'a mut [u64],
}

impl Lent<'_> {
    fn sized(&self) -> bool {
        self.rows.len() == MAX_ROWS * ROW
            && self.successors.len() == MAX_SUCCESSORS * SUCCESSOR
            && self.work.len() == WORK
    }

    fn document(&self) -> Result<Document, Answer> {
        let within = self.row_count <= MAX_ROWS as u64 && self.successor_count <= MAX_SUCCESSORS as u64;
        let cut = || Document::cut(self.rows, self.row_count, self.successors, self.successor_count);
        within.then(cut).filter(Document::well_formed).ok_or(Answer::refused(2, 0))
    }

    /// "Working room is zero after every answer except 1"; `answer` sees sizes that are right.
    fn answer(&mut self, sized: bool, answer: impl FnOnce(&mut Self) -> Result<Answer, Answer>) -> Answer {
        if !sized || !self.sized() {
            return Answer::refused(1, 0);
        }
        let given = answer(self).unwrap_or_else(|refusal| refusal);
        self.work.fill(0);
        given
    }
}

fn clock_sized(clock: &[u64]) -> bool {
    clock.is_empty() || clock.len() == CLOCK
}

/// Accepted: row and successor counts, and the rows and successors at the slices' beginnings.
pub fn merge(mut lent: Lent, batch: &[u64], operation_count: u64) -> Answer {
    let sized = batch.len() as u128 == OPERATION as u128 * operation_count as u128;
    lent.answer(sized, |lent| {
        let operations: Vec<Operation> = batch.chunks(OPERATION).map(Operation).collect();
        let merged = merge::merged(&lent.document()?, &operations)?;
        for (slot, row) in lent.rows.chunks_mut(ROW).zip(&merged.rows) {
            slot.copy_from_slice(&row.0);
        }
        for (slot, successor) in lent.successors.chunks_mut(SUCCESSOR).zip(&merged.successors) {
            slot.copy_from_slice(&successor.words());
        }
        Ok(Answer::accepted(merged.rows.len() as u64, merged.successors.len() as u64))
    })
}

/// Accepted: the count of entries, which stand at the output's beginning.
pub fn picture(mut lent: Lent, clock: &[u64], output: &mut [u64]) -> Answer {
    // a claim over the limit is 2, however short the output
    let room = lent.row_count > MAX_ROWS as u64 || output.len() >= ENTRY * lent.row_count as usize;
    lent.answer(room && clock_sized(clock), |lent| {
        let entries = picture::entries(&lent.document()?, Clock(clock));
        for (slot, entry) in output.chunks_mut(ENTRY).zip(&entries) {
            slot.copy_from_slice(entry);
        }
        Ok(Answer::accepted(entries.len() as u64, 0))
    })
}

/// Accepted: an element and a place.
pub fn spot(mut lent: Lent, clock: &[u64], list: u64, target: u64) -> Answer {
    lent.answer(clock_sized(clock), |lent| {
        let document = lent.document()?;
        if !spot::is_list(&document, list) {
            return Err(Answer::refused(12, 0));
        }
        let (element, place) = spot::find(&document, Clock(clock), list, target).ok_or(Answer::refused(10, 0))?;
        Ok(Answer::accepted(element, place))
    })
}
