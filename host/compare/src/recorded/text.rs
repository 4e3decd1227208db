//! The plain text form: lines of a word and numbers, runs of lines packed into one.
use crate::layout::*;
use crate::operation::Op;
use crate::script::{Outcome, Step};

pub enum Block {
    Start(String),
    Step { step: Step, rules: Vec<String>, oracle: Vec<String> },
}

fn line(word: &str, numbers: &[u64]) -> String {
    numbers.iter().fold(word.to_string(), |line, n| format!("{line} {n}"))
}

fn chunk_lines(word: &str, words: &[u64], width: usize) -> Vec<String> {
    words.chunks(width).map(|chunk| line(word, chunk)).collect()
}

fn clock_line(clock: &[u64]) -> String {
    if clock.is_empty() {
        "clock none".into()
    } else {
        line("clock", clock)
    }
}

pub fn step_lines(step: &Step) -> Vec<String> {
    match step {
        Step::Document { rows, successors } => {
            let mut lines = vec!["document".to_string()];
            lines.extend(chunk_lines("row", rows, ROW));
            lines.extend(chunk_lines("successor", successors, SUCCESSOR));
            lines
        }
        Step::Merge(batch) => {
            let mut lines = vec!["merge".to_string()];
            // slots past the count stay away, but for those of malformed operations
            lines.extend(batch.iter().map(|op| {
                let used = op.0.iter().rposition(|word| *word != 0).map_or(0, |last| last + 1);
                line("op", &op.0[..used.max(ROW + 1)])
            }));
            lines
        }
        Step::Picture { clock } => vec!["picture".into(), clock_line(clock)],
        Step::Spot { list, target, clock } => vec![line("spot", &[*list, *target]), clock_line(clock)],
    }
}

/// What came back by the rules, and after each line that is the oracle's too what the oracle has instead.
pub fn outcome_lines(step: &Step, rules: &Outcome, oracle: &Outcome) -> Vec<String> {
    if let Step::Document { .. } = step {
        return vec![];
    }
    let lines = |outcome: &Outcome| {
        let mut lines = vec![line("answer", &outcome.answer)];
        lines.extend(chunk_lines("row", &outcome.rows, ROW));
        lines.extend(chunk_lines("successor", &outcome.successors, SUCCESSOR));
        lines.extend(chunk_lines("entry", &outcome.entries, ENTRY));
        lines
    };
    let mut both = vec![];
    for (rules, oracle) in lines(rules).into_iter().zip(lines(oracle)) {
        let differs = rules != oracle;
        both.push(rules);
        if differs {
            both.push(format!("oracle {oracle}"));
        }
    }
    both
}

/// Runs of at least four lines, one word of which grows by 64 from line to line, in one line each.
pub fn packed(lines: &[String]) -> Vec<String> {
    let mut out = vec![];
    let mut rest = lines;
    while let Some(first) = rest.first() {
        let words = first.split(' ').count();
        let run = |word: usize| 1 + rest.windows(2).take_while(|w| grown(&w[0], word).as_ref() == Some(&w[1])).count();
        let (count, word) = (0..words - 1).map(|word| (run(word), word)).max_by_key(|r| r.0).unwrap_or((1, 0));
        if count >= 4 {
            out.push(format!("run {count} {word} {first}"));
            rest = &rest[count..];
        } else {
            out.push(first.clone());
            rest = &rest[1..];
        }
    }
    out
}

/// The line with one of its numbers 64 greater.
fn grown(line: &str, word: usize) -> Option<String> {
    let mut words: Vec<String> = line.split(' ').map(String::from).collect();
    let number: u64 = words.get(word + 1)?.parse().ok()?;
    words[word + 1] = number.checked_add(64)?.to_string();
    Some(words.join(" "))
}

fn unpacked(list: &str) -> Result<Vec<String>, String> {
    let mut lines = vec![];
    for line in list.lines().filter(|line| !line.starts_with('#')) {
        let Some(run) = line.strip_prefix("run ") else {
            lines.push(line.to_string());
            continue;
        };
        let malformed = || format!("no run: {line}");
        let mut parts = run.splitn(3, ' ');
        let mut number = || parts.next().and_then(|n| n.parse::<usize>().ok()).ok_or_else(malformed);
        let (count, word) = (number()?, number()?);
        let mut next = parts.next().ok_or_else(malformed)?.to_string();
        for _ in 1..count {
            let after = grown(&next, word).ok_or_else(malformed)?;
            lines.push(std::mem::replace(&mut next, after));
        }
        lines.push(next);
    }
    Ok(lines)
}

/// Reads a list: only the inputs are taken apart, what came back is compared as text.
pub fn blocks(list: &str) -> Result<Vec<Block>, String> {
    let lines = unpacked(list)?;
    let mut blocks = vec![];
    let mut own: Vec<&str> = vec![];
    for line in &lines {
        if let Some(name) = line.strip_prefix("start ") {
            blocks.push(Block::Start(name.into()));
        } else if line == "end" {
            blocks.push(block(&std::mem::take(&mut own))?);
        } else {
            own.push(line);
        }
    }
    if own.is_empty() {
        Ok(blocks)
    } else {
        Err(format!("no end after {}", own[0]))
    }
}

fn block(lines: &[&str]) -> Result<Block, String> {
    let answer = lines.iter().position(|line| line.starts_with("answer ")).unwrap_or(lines.len());
    let (input, outcome) = lines.split_at(answer);
    let (mut rules, mut oracle): (Vec<String>, Vec<String>) = (vec![], vec![]);
    for line in outcome {
        if let Some(instead) = line.strip_prefix("oracle ") {
            oracle.pop();
            oracle.push(instead.into());
        } else {
            rules.push(line.to_string());
            oracle.push(line.to_string());
        }
    }
    Ok(Block::Step { step: step(input)?, rules, oracle })
}

fn step(input: &[&str]) -> Result<Step, String> {
    let (head, rest) = input.split_first().ok_or("a step without a call")?;
    let numbers = |word: &str| -> Result<Vec<Vec<u64>>, String> {
        let own = rest.iter().filter_map(|line| line.strip_prefix(word)?.strip_prefix(' '));
        own.map(|line| line.split(' ').map(|n| n.parse().map_err(|_| format!("no number: {n}"))).collect()).collect()
    };
    let clock = || if rest == ["clock none"] { Ok(vec![]) } else { numbers("clock").map(|lines| lines.concat()) };
    match head.split(' ').collect::<Vec<_>>()[..] {
        ["document"] => {
            Ok(Step::Document { rows: numbers("row")?.concat(), successors: numbers("successor")?.concat() })
        }
        ["merge"] => Ok(Step::Merge(numbers("op")?.iter().map(|words| filled_up(words)).collect())),
        ["picture"] => Ok(Step::Picture { clock: clock()? }),
        ["spot", list, target] => {
            let number = |n: &str| n.parse().map_err(|_| format!("no number: {n}"));
            Ok(Step::Spot { list: number(list)?, target: number(target)?, clock: clock()? })
        }
        _ => Err(format!("no call: {head}")),
    }
}

fn filled_up(words: &[u64]) -> Op {
    let mut op = Op([0; OPERATION]);
    op.0[..words.len()].copy_from_slice(words);
    op
}
