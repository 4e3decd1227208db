//! Clocks of every kind for a history's operations.
use crate::layout::*;
use crate::operation::Op;
use crate::random::Random;
use crate::reference::visible::Clock;

/// None, all zero, all covering, some at random, and some that cover all that their covered operations refer to.
pub fn clocks(random: &mut Random, operations: &[Op]) -> Vec<Vec<u64>> {
    let mut clocks = vec![vec![], vec![0; CLOCK], vec![u64::MAX; CLOCK]];
    for _ in 0..3 {
        let clock = any_clock(random, operations);
        clocks.push(closed(clock.clone(), operations));
        clocks.push(clock);
    }
    clocks
}

fn any_clock(random: &mut Random, operations: &[Op]) -> Vec<u64> {
    let mut clock = vec![0; CLOCK];
    for op in operations {
        let (counter, actor) = (op.id() / ACTORS, (op.id() % ACTORS) as usize);
        if random.chance(30) {
            clock[actor] = match random.below(8) {
                0 => counter - 1,
                1 => MAX_COUNTER + random.word() % 3,
                2 => (1 << 32) + counter - 1,
                3 => 0,
                _ => counter,
            };
        }
    }
    clock
}

/// Lowered until no covered operation refers to one that isn't covered.
pub fn closed(mut clock: Vec<u64>, operations: &[Op]) -> Vec<u64> {
    let open = |clock: &[u64], op: &&Op| {
        let clock = Clock(clock);
        clock.covers(op.id()) && !op.references().iter().all(|id| clock.covers(*id))
    };
    while let Some(op) = operations.iter().find(|op| open(&clock, op)) {
        clock[(op.id() % ACTORS) as usize] = op.id() / ACTORS - 1;
    }
    clock
}
