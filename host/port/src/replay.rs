//! The recorded answers again, by the proved code on documents of its own making.
use crate::player::Player;
use compare::recorded::text::{blocks, outcome_lines, Block};
use compare::script::Step;

#[derive(Default)]
pub struct Replayed {
    pub merges: u64,
    pub pictures: u64,
    pub spots: u64,
    /// Documents given whole, most of them not well-formed.
    pub documents: u64,
}

pub fn replayed(list: &str) -> Result<Replayed, String> {
    let mut player = Player::default();
    let mut script = String::new();
    let mut done = Replayed::default();
    for block in blocks(list)? {
        match block {
            Block::Start(name) => {
                script = name;
                player.start();
            }
            Block::Step { step, rules, .. } => {
                let count = match step {
                    Step::Merge(_) => &mut done.merges,
                    Step::Picture { .. } => &mut done.pictures,
                    Step::Spot { .. } => &mut done.spots,
                    Step::Document { .. } => &mut done.documents,
                };
                *count += 1;
                again(&mut player, &step, &rules).map_err(|e| format!("in {script}: {e}"))?;
            }
        }
    }
    Ok(done)
}

fn again(player: &mut Player, step: &Step, rules: &[String]) -> Result<(), String> {
    let outcome = player.step(step)?;
    let given = outcome_lines(step, &outcome, &outcome);
    if given == rules {
        Ok(())
    } else {
        Err(format!("the proved code gives {given:?}, recorded is {rules:?}"))
    }
}

#[cfg(test)]
mod tests {
    use super::*;
    use compare::recorded::notices_changes;

    #[test]
    fn a_changed_answer_is_noticed() {
        assert!(notices_changes(|list| replayed(list).map(|done| done.merges)));
    }
}
