//! The P cases, the edges and the refusals, through the proved code; the reference is asked beside each call.
use compare::script::{Outcome, Step};
use port::player::Player;

fn play(steps: &[Step]) -> Vec<Outcome> {
    let mut player = Player::default();
    steps.iter().map(|step| player.step(step).unwrap()).collect()
}

compare::demanded_tests!(play);
