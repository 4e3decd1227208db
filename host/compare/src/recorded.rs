//! The recorded answers: scripts and what each step gave, as plain text.
pub mod text;

use crate::cases;
use crate::meet::same_views;
use crate::script::{Outcome, Player, Script, Step};
use text::{blocks, packed, Block};

const NOTE: &str = "\
# Answers of the oracle, made by host/record from the scripts in host/compare/src/cases: the P cases, the edges,
# refusals and random histories. Numbers are words: an id is counter * 64 + actor, a row has 12 words, an operation
# 12 and its predecessors' count and ids (29 words once its 16 slots are filled up with zeros), a successor 4,
# a picture entry 14. See docs/ORACLE.md.
#   start NAME               the document is empty
#   document                 the document is the row and successor lines that follow, up to end
#   merge, picture, spot LIST TARGET, with op lines or a clock line (none or 64 numbers) as input
#   answer NUMBER A B        what comes back: 0 and its values, or a refusal and its place
#   row, successor, entry    the whole document after an accepted merge, a picture's entries
#   oracle LINE              the oracle gives LINE instead of the line before (docs/DIFFERENCES.md); the rules do not
#   run COUNT WORD LINE      COUNT lines; WORD, counted from 0, is 64 greater on each than on the one before
# Refusals other than 10 are answers of the rules alone: the oracle has none.
";

/// The whole list anew; needs the originals.
pub fn made_anew() -> Result<String, String> {
    let mut made = NOTE.to_string();
    for script in cases::scripts() {
        made += &recorded(&script).map_err(|e| format!("{}: {e}", script.name))?;
    }
    Ok(made)
}

fn recorded(script: &Script) -> Result<String, String> {
    let mut lines = vec![format!("start {}", script.name)];
    let mut player = Player::default();
    for step in &script.steps {
        let before = Player { memory: player.memory.clone() };
        let rules = player.by_rules(step);
        let oracle = if has_counterpart(step, &rules) { before.by_oracle(step)? } else { rules.clone() };
        if rules != oracle {
            as_predicted(&before, step)?;
        }
        lines.extend(text::step_lines(step));
        lines.extend(text::outcome_lines(step, &rules, &oracle));
        lines.push("end".into());
    }
    Ok(packed(&lines).join("\n") + "\n")
}

/// The originals accept everything and have one refusal, `InvalidIndex`.
fn has_counterpart(step: &Step, rules: &Outcome) -> bool {
    !matches!(step, Step::Document { .. }) && matches!(rules.answer[0], 0 | 10)
}

/// Only pictures and spots may differ, and only as predicted.
fn as_predicted(before: &Player, step: &Step) -> Result<(), String> {
    let (Step::Picture { clock } | Step::Spot { clock, .. }) = step else {
        return Err("the oracle's merge differs from the rules".into());
    };
    let oracle = oracle::Document::load(before.memory.row_words(), before.memory.successor_words())?;
    same_views(&before.memory.document(), &oracle, clock).map(|_| ())
}

/// Plays a recorded list against the reference and, where the originals are, the oracle; gives the count of steps.
pub fn replayed(list: &str) -> Result<u64, String> {
    let mut player = Player::default();
    let mut script = String::new();
    let mut done = 0;
    for block in blocks(list)? {
        let step = match block {
            Block::Start(name) => {
                (script, player) = (name, Player::default());
                continue;
            }
            Block::Step { step, rules, oracle } => {
                let before = Player { memory: player.memory.clone() };
                let given = player.by_rules(&step);
                same(&script, done, "the reference", &text::outcome_lines(&step, &given, &given), &rules)?;
                if oracle::PRESENT && has_counterpart(&step, &given) {
                    let given = before.by_oracle(&step)?;
                    same(&script, done, "the oracle", &text::outcome_lines(&step, &given, &given), &oracle)?;
                }
                step
            }
        };
        done += !matches!(step, Step::Document { .. }) as u64;
    }
    Ok(done)
}

fn same(script: &str, step: u64, whose: &str, given: &[String], recorded: &[String]) -> Result<(), String> {
    if given == recorded {
        return Ok(());
    }
    let at = (0..).find(|at| given.get(*at) != recorded.get(*at)).unwrap_or(0);
    let line = |lines: &[String]| lines.get(at).cloned().unwrap_or("nothing".into());
    Err(format!("step {step}, in {script}: {whose} gives {}, recorded is {}", line(given), line(recorded)))
}

/// Whether a replay takes a list of one merge as it is, and notices a changed answer and a changed row.
pub fn notices_changes(replayed: impl Fn(&str) -> Result<u64, String>) -> bool {
    let list = "start x\nmerge\nop 64 0 0 0 1 7710162562058289152 0 0 0 1 0 0 0\nanswer 0 1 0\n\
                row 64 0 0 0 1 7710162562058289152 0 0 0 1 0 0\nend\n";
    let changed = [("answer 0 1 0", "answer 0 2 0"), ("row 64", "row 65")];
    replayed(list) == Ok(1) && changed.iter().all(|(old, new)| replayed(&list.replace(old, new)).is_err())
}

#[cfg(test)]
mod tests {
    use super::*;

    #[test]
    fn a_changed_answer_is_noticed() {
        assert!(notices_changes(replayed));
    }
}
