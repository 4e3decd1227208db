//! All that the three calls are given: lengths, the words that are not `FILLER`, and numbers.
use compare::damage::{Call, Claim, Damage, Slice};
use compare::layout::*;
use compare::memory::Memory;
use compare::operation::{words, Op};

pub const ANSWER: usize = 3;

/// A slice that begins with these words, cut where it is shorter; all other words are `FILLER`.
#[derive(Clone, Default)]
pub struct Part {
    pub used: Vec<u64>,
    pub length: usize,
}

impl Part {
    fn begins(used: &[u64], length: usize) -> Part {
        Part { used: used.to_vec(), length }
    }
    fn whole(words: &[u64]) -> Part {
        Part::begins(words, words.len())
    }
    /// The slice with its first words replaced.
    pub fn after(&self, first: &[u64]) -> Vec<u64> {
        [first, self.used.get(first.len()..).unwrap_or(&[])].concat()
    }
}

#[derive(Clone)]
pub struct Given {
    parts: [Part; 6],
    claims: [u64; 5],
    pub answer: usize,
}

impl Given {
    /// This document, no batch, no clock, room for a picture and two entries more.
    pub fn on(memory: &Memory) -> Given {
        let mut given = Given { parts: Default::default(), claims: [0; 5], answer: ANSWER };
        *given.part_mut(Slice::Rows) = Part::begins(memory.row_words(), MAX_ROWS * ROW);
        *given.part_mut(Slice::Successors) = Part::begins(memory.successor_words(), MAX_SUCCESSORS * SUCCESSOR);
        given.part_mut(Slice::Work).length = WORK;
        given.part_mut(Slice::Output).length = ENTRY * (memory.row_count as usize + 2);
        *given.claim_mut(Claim::Rows) = memory.row_count;
        *given.claim_mut(Claim::Successors) = memory.successor_count;
        given
    }
    /// A call that is not damaged.
    pub fn of(call: &Call) -> Given {
        let mut given = Given::on(&call.memory).under(&call.clock).at(call.list, call.target);
        *given.part_mut(Slice::Batch) = Part::whole(&call.batch);
        *given.claim_mut(Claim::Operations) = call.operation_count;
        given
    }
    pub fn merging(mut self, batch: &[Op]) -> Given {
        *self.part_mut(Slice::Batch) = Part::whole(&words(batch));
        *self.claim_mut(Claim::Operations) = batch.len() as u64;
        self
    }
    pub fn under(mut self, clock: &[u64]) -> Given {
        *self.part_mut(Slice::Clock) = Part::whole(clock);
        self
    }
    pub fn at(mut self, list: u64, target: u64) -> Given {
        *self.claim_mut(Claim::List) = list;
        *self.claim_mut(Claim::Target) = target;
        self
    }
    /// A slice of this length for the answer.
    pub fn answering(mut self, length: usize) -> Given {
        self.answer = length;
        self
    }
    pub fn part(&self, slice: Slice) -> &Part {
        &self.parts[slice as usize]
    }
    pub fn part_mut(&mut self, slice: Slice) -> &mut Part {
        &mut self.parts[slice as usize]
    }
    pub fn claim(&self, claim: Claim) -> u64 {
        self.claims[claim as usize]
    }
    pub fn claim_mut(&mut self, claim: Claim) -> &mut u64 {
        &mut self.claims[claim as usize]
    }
    pub fn suffer(&mut self, damage: Damage) {
        match damage {
            Damage::Word(slice, at, value) => self.part_mut(slice).used[at] = value,
            Damage::Length(slice, length) => self.part_mut(slice).length = length,
            Damage::Claim(claim, value) => *self.claim_mut(claim) = value,
        }
    }
    /// Takes a damage back: this was the call before it.
    pub fn recover(&mut self, damage: Damage, before: &Given) {
        match damage {
            Damage::Word(slice, at, _) => self.part_mut(slice).used[at] = before.part(slice).used[at],
            Damage::Length(slice, _) => self.part_mut(slice).length = before.part(slice).length,
            Damage::Claim(claim, _) => *self.claim_mut(claim) = before.claim(claim),
        }
    }
}
