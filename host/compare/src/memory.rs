//! Memory of the documented sizes, for calls that lend it.
use crate::layout::*;
use crate::operation::{words, Op};
use crate::reference::document::Document;
use crate::reference::{self, Answer, Lent};

/// What unused slots hold at first: no word of any row, so a slot written past the counts is seen.
pub const FILLER: u64 = 0xa5a5_a5a5_a5a5_a5a5;

/// How the complaint begins that a batch was refused which should not be.
pub const REFUSED: &str = "the reference refuses a batch";

#[derive(PartialEq, Eq)]
pub struct Memory {
    pub rows: Vec<u64>,
    pub row_count: u64,
    pub successors: Vec<u64>,
    pub successor_count: u64,
    pub work: Vec<u64>,
}

impl Default for Memory {
    fn default() -> Self {
        Memory {
            rows: vec![FILLER; MAX_ROWS * ROW],
            row_count: 0,
            successors: vec![FILLER; MAX_SUCCESSORS * SUCCESSOR],
            successor_count: 0,
            work: vec![FILLER; WORK],
        }
    }
}

impl Clone for Memory {
    fn clone(&self) -> Self {
        let mut copy = Memory { rows: vec![], successors: vec![], work: vec![], ..*self };
        copy.clone_from(self);
        copy
    }
    /// Into the room that is already there: this is done for each of very many damaged calls.
    fn clone_from(&mut self, source: &Self) {
        self.rows.clone_from(&source.rows);
        self.successors.clone_from(&source.successors);
        self.work.clone_from(&source.work);
        [self.row_count, self.successor_count] = [source.row_count, source.successor_count];
    }
}

impl Memory {
    /// Words of rows and of successors, whatever they hold, at the slices' beginnings.
    pub fn holding(rows: &[u64], successors: &[u64]) -> Memory {
        let mut memory = Memory::default();
        memory.rows[..rows.len()].copy_from_slice(rows);
        memory.row_count = (rows.len() / ROW) as u64;
        memory.successors[..successors.len()].copy_from_slice(successors);
        memory.successor_count = (successors.len() / SUCCESSOR) as u64;
        memory
    }
    pub fn lent(&mut self) -> Lent<'_> {
        Lent {
            rows: &mut self.rows,
            row_count: self.row_count,
            successors: &mut self.successors,
            successor_count: self.successor_count,
            work: &mut self.work,
        }
    }
    pub fn document(&self) -> Document {
        Document::cut(&self.rows, self.row_count, &self.successors, self.successor_count)
    }
    pub fn row_words(&self) -> &[u64] {
        &self.rows[..self.row_count as usize * ROW]
    }
    pub fn successor_words(&self) -> &[u64] {
        &self.successors[..self.successor_count as usize * SUCCESSOR]
    }
    /// The reference's merge; the counts follow an accepted answer.
    pub fn merge(&mut self, batch: &[Op]) -> Answer {
        let answer = reference::merge(self.lent(), &words(batch), batch.len() as u64);
        if answer.is_accepted() {
            [self.row_count, self.successor_count] = answer.values;
        }
        answer
    }
    /// The merge of a batch that the rules should accept.
    pub fn grow(&mut self, batch: &[Op]) -> Result<(), String> {
        let answer = self.merge(batch);
        answer.is_accepted().then_some(()).ok_or(format!("{REFUSED}: {answer:?}"))
    }
}
