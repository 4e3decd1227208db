//! Inputs damaged in one place: each word of each slot set to edge values, slices cut or grown, claims moved.
use crate::history::History;
use crate::layout::*;
use crate::memory::{Memory, FILLER};
use crate::operation::{words, Op};

/// All that the three calls are given.
#[derive(Clone)]
pub struct Call {
    pub memory: Memory,
    pub batch: Vec<u64>,
    pub operation_count: u64,
    pub clock: Vec<u64>,
    pub output: Vec<u64>,
    pub list: u64,
    pub target: u64,
}

#[derive(Clone, Copy, PartialEq, Eq, Debug)]
pub enum Slice {
    Rows,
    Successors,
    Work,
    Batch,
    Clock,
    Output,
}

#[derive(Clone, Copy, PartialEq, Eq, Debug)]
pub enum Claim {
    Rows,
    Successors,
    Operations,
    List,
    Target,
}

#[derive(Clone, Copy, PartialEq, Eq, Debug)]
pub enum Damage {
    Word(Slice, usize, u64),
    Length(Slice, usize),
    Claim(Claim, u64),
}

impl Call {
    pub fn new(memory: Memory, batch: &[Op], clock: Vec<u64>, list: u64, target: u64) -> Call {
        let output = vec![FILLER; ENTRY * (memory.row_count as usize + 2)];
        Call { memory, batch: words(batch), operation_count: batch.len() as u64, clock, output, list, target }
    }
    /// On what a history leaves before its last batch, with that batch, its last clock and its first list.
    pub fn last_of(history: &History) -> Option<Call> {
        let (last, earlier) = history.batches.split_last()?;
        let mut memory = Memory::default();
        for batch in earlier {
            memory.merge(batch);
        }
        let list = history.operations().find(|op| op.row().action() == MAKE_LIST).map_or(ROOT, Op::id);
        Some(Call::new(memory, last, history.clocks.last()?.clone(), list, 1))
    }
    fn slice(&mut self, slice: Slice) -> &mut Vec<u64> {
        match slice {
            Slice::Rows => &mut self.memory.rows,
            Slice::Successors => &mut self.memory.successors,
            Slice::Work => &mut self.memory.work,
            Slice::Batch => &mut self.batch,
            Slice::Clock => &mut self.clock,
            Slice::Output => &mut self.output,
        }
    }
    fn claim(&mut self, claim: Claim) -> &mut u64 {
        match claim {
            Claim::Rows => &mut self.memory.row_count,
            Claim::Successors => &mut self.memory.successor_count,
            Claim::Operations => &mut self.operation_count,
            Claim::List => &mut self.list,
            Claim::Target => &mut self.target,
        }
    }
    pub fn suffer(&mut self, damage: Damage) {
        match damage {
            Damage::Word(slice, at, value) => self.slice(slice)[at] = value,
            Damage::Length(slice, length) => self.slice(slice).resize(length, FILLER),
            Damage::Claim(claim, value) => *self.claim(claim) = value,
        }
    }
    /// This call again, in the room of one that was damaged.
    pub fn restore(&self, damaged: &mut Call) {
        damaged.memory.clone_from(&self.memory);
        damaged.batch.clone_from(&self.batch);
        damaged.clock.clone_from(&self.clock);
        damaged.output.clone_from(&self.output);
        [damaged.operation_count, damaged.list, damaged.target] = [self.operation_count, self.list, self.target];
    }

    /// Every damage of one place.
    pub fn damages(&self) -> Vec<Damage> {
        let mut damages = vec![];
        let ids = self.ids();
        let in_use = [
            (Slice::Rows, self.memory.row_words()),
            (Slice::Successors, self.memory.successor_words()),
            (Slice::Batch, &self.batch[..]),
            // any number is allowed in a clock, so a few words stand for all
            (Slice::Clock, &self.clock[..self.clock.len().min(4)]),
        ];
        for (slice, words) in in_use {
            for (at, word) in words.iter().enumerate() {
                let values = edges_near(*word, &ids, at).into_iter();
                damages.extend(values.filter(|v| v != word).map(|value| Damage::Word(slice, at, value)));
            }
        }
        let lent = [Slice::Rows, Slice::Successors, Slice::Work, Slice::Batch, Slice::Clock, Slice::Output];
        for slice in lent {
            let length = self.clone().slice(slice).len();
            let lengths = [0, 1, length / 2, length.saturating_sub(1), length + 1, length + OPERATION];
            damages.extend(lengths.into_iter().filter(|l| *l != length).map(|l| Damage::Length(slice, l)));
        }
        for claim in [Claim::Rows, Claim::Successors, Claim::Operations, Claim::List, Claim::Target] {
            let value = *self.clone().claim(claim);
            let huge = [4096, 4097, 8192, 8193, 1 << 32, 1 << 60, u64::MAX / 29 + 1, u64::MAX];
            let near = [value.wrapping_sub(1), value + 1, 0];
            let values = near.into_iter().chain(huge).filter(|v| *v != value);
            damages.extend(values.map(|value| Damage::Claim(claim, value)));
        }
        damages
    }

    fn ids(&self) -> Vec<u64> {
        let rows = self.memory.row_words().chunks(ROW).map(|row| row[0]);
        let successors = self.memory.successor_words().chunks(SUCCESSOR).map(|s| s[1]);
        rows.chain(successors).chain(self.batch.chunks(OPERATION).map(|op| op[0])).collect()
    }
}

/// Values at the edges of every field's range, some near the word that stands there and two of the ids about.
fn edges_near(word: u64, ids: &[u64], at: usize) -> Vec<u64> {
    let mut values = vec![word ^ 1, word.wrapping_add(64), word ^ (1 << 63)];
    values.extend([0, 1, 2, 3, 5, 8, 25, 63, 1 << 38, u64::MAX]);
    values.extend(ids.get(at % ids.len().max(1)).into_iter().chain(ids.last()));
    values.sort();
    values.dedup();
    values
}
