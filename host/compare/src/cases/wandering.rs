//! Random histories, small enough to read.
use crate::generate;
use crate::history::History;
use crate::layout::*;
use crate::operation::Op;
use crate::random::Random;
use crate::script::{Script, Step};

/// The first 40 seeds whose history has 6 to 20 operations in at most 4 batches; a picture after each
/// batch, three more and some spots at the end.
pub fn scripts() -> Vec<Script> {
    let histories = (1..).map(|seed| (seed, generate::history(&mut Random::new(seed))));
    let readable = histories.filter(|(_, h)| h.batches.len() <= 4 && (6..=20).contains(&h.operations().count()));
    readable
        .take(40)
        .map(|(seed, history)| Script { name: format!("history {seed}"), steps: steps(seed, &history) })
        .collect()
}

fn steps(seed: u64, history: &History) -> Vec<Step> {
    let mut random = Random::new(seed);
    let mut steps = vec![];
    for batch in &history.batches {
        steps.push(Step::Merge(batch.clone()));
        steps.push(Step::Picture { clock: random.pick(&history.clocks).clone() });
    }
    for clock in [0, 3, 4] {
        steps.push(Step::Picture { clock: history.clocks[clock].clone() });
    }
    let lists: Vec<u64> = history.operations().filter(|op| op.row().action() == MAKE_LIST).map(Op::id).collect();
    for list in lists {
        for target in 0..4 {
            steps.push(Step::Spot { list, target, clock: random.pick(&history.clocks).clone() });
        }
    }
    steps
}
