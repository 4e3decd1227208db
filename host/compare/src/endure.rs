//! What must hold of the three calls on any input, damaged or not.
use crate::damage::Call;
use crate::layout::*;
use crate::meet::{same_document, same_views};
use crate::memory::Memory;
use crate::reference::row::Row;
use crate::reference::{self, Answer};

/// Refused calls leave everything as it was, accepted ones leave a well-formed document, and where a call is
/// accepted the oracle agrees. `memory` is room for the copy that a call works on.
pub fn endures(call: &Call, memory: &mut Memory) -> Result<(), String> {
    let merged = merge_endures(call, memory).map_err(|e| format!("merge: {e}"))?;
    let pictured = picture_endures(call, memory).map_err(|e| format!("picture: {e}"))?;
    let spotted = spot_endures(call, memory).map_err(|e| format!("spot: {e}"))?;
    let numbers = [merged.number, pictured.number, spotted.number];
    let unsound = numbers.iter().filter(|n| **n == 2).count();
    ensure(
        numbers.contains(&1) || unsound == 0 || unsound == 3,
        "the calls disagree on whether the document is well-formed",
    )
}

fn ensure(holds: bool, sentence: &str) -> Result<(), String> {
    if holds {
        Ok(())
    } else {
        Err(sentence.into())
    }
}

/// The number is one of the call's, and working room is zero after every answer except 1.
fn refusal_is_sound(answer: Answer, numbers: &[u64], before: &Memory, after: &Memory) -> Result<(), String> {
    ensure(numbers.contains(&answer.number), &format!("{answer:?} is none of this call's answers"))?;
    if answer.number == 1 {
        ensure(before.work == after.work, "working room has changed")
    } else {
        ensure(after.work.iter().all(|word| *word == 0), "working room is not zero")
    }
}

fn same_slices(before: &Memory, after: &Memory) -> Result<(), String> {
    ensure(before.rows == after.rows && before.successors == after.successors, "a lent slice has changed")
}

fn merge_endures(call: &Call, memory: &mut Memory) -> Result<Answer, String> {
    memory.clone_from(&call.memory);
    let answer = reference::merge(memory.lent(), &call.batch, call.operation_count);
    refusal_is_sound(answer, &[0, 1, 2, 3, 4, 5, 6, 7, 8, 9], &call.memory, memory)?;
    let [first, second] = answer.values;
    if !answer.is_accepted() {
        same_slices(&call.memory, memory)?;
        let place_fits = if (4..=8).contains(&answer.number) { first < call.operation_count } else { first == 0 };
        ensure(place_fits && second == 0, &format!("{answer:?} has no such place"))?;
        return Ok(answer);
    }
    [memory.row_count, memory.successor_count] = answer.values;
    let (rows, successors) = (memory.row_words().len(), memory.successor_words().len());
    let unused_are_kept = memory.rows[rows..] == call.memory.rows[rows..]
        && memory.successors[successors..] == call.memory.successors[successors..];
    ensure(unused_are_kept, "slots past the counts in use have changed")?;
    let document = memory.document();
    ensure(memory.merge(&[]) == answer && document == memory.document(), "the result is not well-formed")?;
    if oracle::PRESENT && keys_are_text(memory) {
        let mut oracle = oracle::Document::load(call.memory.row_words(), call.memory.successor_words())?;
        oracle.merge(&call.batch)?;
        same_document("damaged", memory, &oracle)?;
    }
    Ok(answer)
}

/// "Keys that are not UTF-8 have no Rust counterpart."
fn keys_are_text(memory: &Memory) -> bool {
    let is_text = |row: &Row| std::str::from_utf8(&row.key_bytes()[..row.key_length() as usize]).is_ok();
    memory.document().rows.iter().all(is_text)
}

fn picture_endures(call: &Call, memory: &mut Memory) -> Result<Answer, String> {
    memory.clone_from(&call.memory);
    let mut output = call.output.clone();
    let answer = reference::picture(memory.lent(), &call.clock, &mut output);
    refusal_is_sound(answer, &[0, 1, 2], &call.memory, memory)?;
    same_slices(&call.memory, memory)?;
    let used = if answer.is_accepted() { answer.values[0] as usize * ENTRY } else { 0 };
    ensure(output[used..] == call.output[used..], "output past the entries has changed")?;
    if answer.is_accepted() && oracle::PRESENT && keys_are_text(memory) {
        let oracle = oracle::Document::load(memory.row_words(), memory.successor_words())?;
        same_views(&memory.document(), &oracle, &call.clock)?;
    }
    Ok(answer)
}

fn spot_endures(call: &Call, memory: &mut Memory) -> Result<Answer, String> {
    memory.clone_from(&call.memory);
    let answer = reference::spot(memory.lent(), &call.clock, call.list, call.target);
    refusal_is_sound(answer, &[0, 1, 2, 10, 12], &call.memory, memory)?;
    same_slices(&call.memory, memory)?;
    if answer.is_accepted() {
        let [element, place] = answer.values;
        let stands = memory.document().rows.iter().any(|row| row.id() == element && row.object() == call.list);
        ensure(place <= memory.row_count && (element == HEAD || stands), "the spot is not in the list")?;
    }
    Ok(answer)
}
