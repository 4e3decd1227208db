//! Very many damaged inputs through all three calls, from a seed, with progress.
use crate::both::Both;
use crate::generated::{noisy, short_output};
use crate::given::Given;
use crate::progress::Progress;
use compare::damage::{Call, Damage, Slice};
use compare::generate;
use compare::layout::*;
use compare::random::Random;
use std::fmt;

/// Of the calls that are damaged: rows of the document, operations of the batch, and inputs made of each.
const MOST_ROWS: u64 = 40;
const MOST_OPERATIONS: u64 = 8;
const TO_A_CALL: u64 = 500;

/// In percent of all inputs, and of all damages: a damaged document is refused with 2, whatever the batch.
const NOISE: usize = 5;
const IN_DOCUMENT: usize = 25;
const OTHER_ID: usize = 40;

/// How often each number was given, by spot, picture and merge.
#[derive(Default)]
pub struct Answers([[u64; 13]; 3]);

impl fmt::Display for Answers {
    fn fmt(&self, f: &mut fmt::Formatter<'_>) -> fmt::Result {
        write!(f, "answers")?;
        for (call, numbers) in ["spot", "picture", "merge"].iter().zip(&self.0) {
            let given = numbers.iter().enumerate().filter(|(_, times)| **times > 0);
            let shown: Vec<String> = given.map(|(number, times)| format!("{times} of {number}")).collect();
            write!(f, "; {call}: {}", shown.join(", "))?;
        }
        Ok(())
    }
}

/// As many inputs, damaged in one to three places or noise.
pub fn inputs(seed: u64, count: u64) -> Result<Answers, String> {
    let mut both = Both::default();
    let mut answers = Answers::default();
    let mut progress = Progress::default();
    let mut done = 0;
    for own in (0..).map(|n| seed.wrapping_add(n)) {
        if done >= count {
            break;
        }
        let mut random = Random::new(own);
        let small = |call: &Call| call.memory.row_count <= MOST_ROWS && call.operation_count <= MOST_OPERATIONS;
        let Some(call) = Call::last_of(&generate::history(&mut random)).filter(small) else { continue };
        let inputs = TO_A_CALL.min(count - done);
        of_call(&mut both, &mut random, &call, inputs, &mut answers)
            .map_err(|e| format!("the last call of history {own}, {e}\nagain: host/port-long {own} 0 {inputs}"))?;
        done += inputs;
        progress.tell(|| format!("{done} of {count} damaged inputs, up to history {own}: {answers}"));
    }
    Ok(answers)
}

fn of_call(
    both: &mut Both,
    random: &mut Random,
    call: &Call,
    inputs: u64,
    answers: &mut Answers,
) -> Result<(), String> {
    let before = Given::of(call);
    let damages = Damages::of(call);
    let mut given = before.clone();
    for input in 0..inputs {
        let given_back = if random.chance(NOISE) {
            both.all(&noisy(random)).map_err(|e| format!("noise, input {input}: {e}"))?
        } else {
            let places = *random.pick(&[1, 1, 2, 3]);
            let chosen: Vec<Damage> = (0..places).map(|_| damages.any(random)).collect();
            chosen.iter().for_each(|damage| given.suffer(*damage));
            let given_back = both.all(&given).map_err(|e| format!("input {input}, {chosen:?}: {e}"))?;
            chosen.iter().for_each(|damage| given.recover(*damage, &before));
            given_back
        };
        for (call, answer) in given_back.iter().enumerate() {
            answers.0[call][answer.number as usize] += 1;
        }
    }
    Ok(())
}

struct Damages<'a> {
    in_document: Vec<Damage>,
    elsewhere: Vec<Damage>,
    batch: &'a [u64],
    /// Of rows, successors and operations; and no id.
    ids: Vec<u64>,
}

impl Damages<'_> {
    fn of(call: &Call) -> Damages<'_> {
        let of_document = |damage: &Damage| matches!(damage, Damage::Word(Slice::Rows | Slice::Successors, ..));
        let all = call.damages().into_iter().chain(short_output(call));
        let (in_document, elsewhere) = all.partition(of_document);
        let rows = call.memory.row_words().chunks(ROW).map(|row| row[0]);
        let successors = call.memory.successor_words().chunks(SUCCESSOR).map(|entry| entry[1]);
        let operations = call.batch.chunks(OPERATION).map(|op| op[0]);
        let ids = rows.chain(successors).chain(operations).chain([ROOT]).collect();
        Damages { in_document, elsewhere, batch: &call.batch, ids }
    }

    fn any(&self, random: &mut Random) -> Damage {
        if random.chance(IN_DOCUMENT) && !self.in_document.is_empty() {
            *random.pick(&self.in_document)
        } else if random.chance(OTHER_ID) && !self.batch.is_empty() {
            self.other_id(random)
        } else {
            *random.pick(&self.elsewhere)
        }
    }

    /// An operation with another id of those about: as its own, its object, its element or a predecessor.
    fn other_id(&self, random: &mut Random) -> Damage {
        let start = random.below(self.batch.len() / OPERATION) * OPERATION;
        let predecessors = self.batch[start + ROW] as usize;
        let words: Vec<usize> = [0, 1, 3].into_iter().chain((0..predecessors).map(|n| ROW + 1 + n)).collect();
        Damage::Word(Slice::Batch, start + random.pick(&words), *random.pick(&self.ids))
    }
}
