//! A document that the proved code itself makes, call by call; the reference is asked beside each of them.
use crate::both::Both;
use crate::given::Given;
use compare::layout::*;
use compare::memory::Memory;
use compare::operation::Op;
use compare::reference::Answer;
use compare::script::{Outcome, Step};

#[derive(Default)]
pub struct Player {
    pub both: Both,
    pub memory: Memory,
}

impl Player {
    /// From the empty document on again.
    pub fn start(&mut self) {
        self.memory = Memory::default();
    }

    /// The document follows an accepted answer, word by word as the proved code left it.
    pub fn merge(&mut self, batch: &[Op]) -> Result<Answer, String> {
        let answer = self.both.merge(&Given::on(&self.memory).merging(batch))?;
        if answer.is_accepted() {
            let left = self.both.document(answer);
            self.memory.rows[..left.rows.len()].copy_from_slice(left.rows);
            self.memory.successors[..left.successors.len()].copy_from_slice(left.successors);
            [self.memory.row_count, self.memory.successor_count] = answer.values;
        }
        Ok(answer)
    }

    /// The merge of a batch without the document following.
    pub fn try_merge(&mut self, batch: &[Op]) -> Result<Answer, String> {
        self.both.merge(&Given::on(&self.memory).merging(batch))
    }

    pub fn picture(&mut self, clock: &[u64]) -> Result<Answer, String> {
        self.both.picture(&Given::on(&self.memory).under(clock))
    }

    pub fn spot(&mut self, list: u64, target: u64, clock: &[u64]) -> Result<Answer, String> {
        let given = Given::on(&self.memory).under(clock).at(list, target);
        self.both.spot(&given).map_err(|e| format!("list {}, target {target}: {e}", shown(list)))
    }

    pub fn step(&mut self, step: &Step) -> Result<Outcome, String> {
        match step {
            Step::Document { rows, successors } => {
                self.memory = Memory::holding(rows, successors);
                // most of them are not well-formed: each call beside the reference
                self.both.all(&Given::on(&self.memory)).map(|_| Outcome::default())
            }
            Step::Merge(batch) => {
                let answer = self.merge(batch)?;
                if !answer.is_accepted() {
                    return Ok(outcome(answer));
                }
                let (rows, successors) = (self.memory.row_words().to_vec(), self.memory.successor_words().to_vec());
                Ok(Outcome { rows, successors, ..outcome(answer) })
            }
            Step::Picture { clock } => {
                let answer = self.picture(clock)?;
                let entries = if answer.is_accepted() { self.both.entries(answer).to_vec() } else { vec![] };
                Ok(Outcome { entries, ..outcome(answer) })
            }
            Step::Spot { list, target, clock } => self.spot(*list, *target, clock).map(outcome),
        }
    }
}

fn outcome(answer: Answer) -> Outcome {
    Outcome { answer: [answer.number, answer.values[0], answer.values[1]], ..Outcome::default() }
}
