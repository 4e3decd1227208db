//! The P cases, the edges and the refusals, asked of the reference.
use compare::script::{Outcome, Player, Step};

fn play(steps: &[Step]) -> Vec<Outcome> {
    let mut player = Player::default();
    steps.iter().map(|step| player.by_rules(step)).collect()
}

compare::demanded_tests!(play);
