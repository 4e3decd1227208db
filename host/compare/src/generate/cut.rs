//! Operations cut at random into batches: each comes in a batch that is not before those it refers to.
use crate::layout::MAX_OPERATIONS;
use crate::operation::Op;
use crate::random::Random;
use std::collections::BTreeSet;

pub fn cut(random: &mut Random, operations: &[Op]) -> Vec<Vec<Op>> {
    let ordered = any_order(random, operations);
    let longest = [1, 3, 8, 30, MAX_OPERATIONS][random.below(5)];
    let mut rest = &ordered[..];
    let mut batches = vec![];
    while !rest.is_empty() {
        let (batch, later) = rest.split_at(rest.len().min(1 + random.below(longest)));
        batches.push(batch.to_vec());
        rest = later;
    }
    for batch in &mut batches {
        random.shuffle(batch);
    }
    batches
}

/// A random order that keeps references: again and again one of the operations whose references are all out.
fn any_order(random: &mut Random, operations: &[Op]) -> Vec<Op> {
    let mut waiting = operations.to_vec();
    let mut out = BTreeSet::new();
    let mut ordered = vec![];
    while !waiting.is_empty() {
        let ready: Vec<usize> = (0..waiting.len())
            .filter(|at| waiting[*at].references().iter().all(|id| out.contains(id)))
            .take(8)
            .collect();
        let op = waiting.remove(*random.pick(&ready));
        out.insert(op.id());
        ordered.push(op);
    }
    ordered
}
