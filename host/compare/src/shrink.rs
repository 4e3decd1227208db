//! From a history that fails to a smallest one that still fails.
use crate::history::History;
use crate::layout::*;
use crate::operation::Op;
use std::collections::BTreeSet;

/// Tries smaller histories until none of them fails any more.
pub fn smallest(mut history: History, fails: impl Fn(&History) -> bool) -> History {
    while let Some(smaller) = smaller(&history).into_iter().find(|h| fails(h)) {
        history = smaller;
    }
    history
}

/// Each a step down: fewer operations first, then fewer batches, clocks and predecessors, then plainer values.
fn smaller(history: &History) -> Vec<History> {
    let ids: Vec<u64> = history.operations().map(Op::id).collect();
    let mut tries = vec![];
    let mut width = ids.len().next_power_of_two();
    while width > 0 {
        tries.extend(ids.chunks(width).map(|some| history.without(BTreeSet::from_iter(some.iter().copied()))));
        width /= 2;
    }
    tries.extend((1..history.batches.len()).map(|at| joined(history, at)));
    tries.extend((0..history.clocks.len()).map(|at| {
        let mut fewer = history.clone();
        fewer.clocks.remove(at);
        fewer
    }));
    for (batch, ops) in history.batches.iter().enumerate() {
        for (at, op) in ops.iter().enumerate() {
            for plainer in plainer(op) {
                let mut changed = history.clone();
                changed.batches[batch][at] = plainer;
                tries.push(changed);
            }
        }
    }
    tries
}

fn joined(history: &History, at: usize) -> History {
    let mut joined = history.clone();
    let batch = joined.batches.remove(at);
    joined.batches[at - 1].extend(batch);
    joined
}

/// With one predecessor less, a value nearer to null, or nearer to HEAD or ROOT.
fn plainer(op: &Op) -> Vec<Op> {
    let (row, over) = (op.row(), op.predecessors());
    let mut plainer: Vec<Op> =
        (0..over.len()).map(|skip| op.over(&[&over[..skip], &over[skip + 1..]].concat())).collect();
    let mut change = |when: bool, word: usize, value: u64| {
        let mut changed = *op;
        changed.0[word] = value;
        plainer.extend(when.then_some(changed));
    };
    change(row.value() > 1, 11, 1);
    change(row.is_insert() && row.named() != HEAD, 3, HEAD);
    change(!row.has_list_key() && row.object() != ROOT, 1, ROOT);
    plainer.extend((row.action() == SET && row.kind() != NULL).then(|| op.set(NULL, 0)));
    plainer
}

#[cfg(test)]
mod tests {
    use super::*;
    use crate::generate;
    use crate::memory::Memory;
    use crate::random::Random;

    #[test]
    fn a_history_that_fails_because_of_one_delete_keeps_little_else() {
        let deletes = |h: &History| h.operations().filter(|op| op.row().action() == DELETE).count();
        let sound = |h: &History| {
            let mut memory = Memory::default();
            h.batches.iter().all(|batch| memory.grow(batch).is_ok())
        };
        let has_delete = |h: &History| deletes(h) > 0 && sound(h);
        let mut histories = (0..).map(|seed| generate::history(&mut Random::new(seed)));
        let found = histories.find(|h| has_delete(h) && h.operations().count() > 40).unwrap();
        let small = smallest(found, has_delete);
        assert_eq!(small.batches.len(), 1);
        assert_eq!(small.clocks.len(), 0);
        assert_eq!(deletes(&small), 1);
        assert!(small.operations().count() <= 3, "{small}");
    }
}
