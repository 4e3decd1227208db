//! A script: calls in a row on one document, which each accepted merge replaces.
use crate::layout::*;
use crate::memory::Memory;
use crate::operation::{words, Op};
use crate::reference::{self, Answer};

#[derive(Clone)]
pub enum Step {
    /// The document is this from now on, well-formed or not.
    Document {
        rows: Vec<u64>,
        successors: Vec<u64>,
    },
    Merge(Vec<Op>),
    Picture {
        clock: Vec<u64>,
    },
    Spot {
        list: u64,
        target: u64,
        clock: Vec<u64>,
    },
}

#[derive(Clone)]
pub struct Script {
    pub name: String,
    pub steps: Vec<Step>,
}

/// What a step gave: the answer, then the rows and successors after an accepted merge, or a picture's entries.
#[derive(Clone, PartialEq, Eq, Debug, Default)]
pub struct Outcome {
    pub answer: [u64; 3],
    pub rows: Vec<u64>,
    pub successors: Vec<u64>,
    pub entries: Vec<u64>,
}

impl Outcome {
    fn of(answer: Answer) -> Outcome {
        Outcome { answer: [answer.number, answer.values[0], answer.values[1]], ..Outcome::default() }
    }
}

/// The document that a script has come to, with what each step gave by the rules and by the oracle.
#[derive(Default)]
pub struct Player {
    pub memory: Memory,
}

impl Player {
    /// By the rules, that is by the reference; the document follows.
    pub fn by_rules(&mut self, step: &Step) -> Outcome {
        match step {
            Step::Document { rows, successors } => {
                self.memory = Memory::holding(rows, successors);
                Outcome::default()
            }
            Step::Merge(batch) => {
                let mut outcome = Outcome::of(self.memory.merge(batch));
                if outcome.answer[0] == 0 {
                    outcome.rows = self.memory.row_words().to_vec();
                    outcome.successors = self.memory.successor_words().to_vec();
                }
                outcome
            }
            Step::Picture { clock } => {
                let mut output = vec![0; MAX_ROWS * ENTRY];
                let answer = reference::picture(self.memory.lent(), clock, &mut output);
                output.truncate(answer.values[0] as usize * ENTRY);
                Outcome { entries: output, ..Outcome::of(answer) }
            }
            Step::Spot { list, target, clock } => {
                Outcome::of(reference::spot(self.memory.lent(), clock, *list, *target))
            }
        }
    }

    /// By the oracle on the document as it is before the step. Asked only where the rules accept or say 10:
    /// the originals have no other refusal.
    pub fn by_oracle(&self, step: &Step) -> Result<Outcome, String> {
        let mut oracle = oracle::Document::load(self.memory.row_words(), self.memory.successor_words())?;
        Ok(match step {
            Step::Document { .. } => Outcome::default(),
            Step::Merge(batch) => {
                oracle.merge(&words(batch))?;
                let (rows, successors) = (oracle.rows(), oracle.successors());
                let counts = [(rows.len() / ROW) as u64, (successors.len() / SUCCESSOR) as u64];
                Outcome { answer: [0, counts[0], counts[1]], rows, successors, entries: vec![] }
            }
            Step::Picture { clock } => {
                let entries = oracle.picture(clock);
                Outcome { answer: [0, (entries.len() / ENTRY) as u64, 0], entries, ..Outcome::default() }
            }
            Step::Spot { list, target, clock } => {
                let found = oracle.spot(*list, clock, *target as usize);
                let answer = found.map_or([10, 0, 0], |(element, place)| [0, element, place as u64]);
                Outcome { answer, ..Outcome::default() }
            }
        })
    }
}
