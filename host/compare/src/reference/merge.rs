//! Refusals 3 to 9 and what an accepted batch makes of a document.
use super::checks::{element_missing, malformed, object_missing_or_unfit, predecessor_missing};
use super::document::Document;
use super::order::document_order;
use super::row::{Operation, Row, Successor};
use super::Answer;
use crate::layout::*;
use std::collections::BTreeSet;

/// "The smallest number over the whole batch is given, then the first op with it."
pub fn merged(document: &Document, batch: &[Operation]) -> Result<Document, Answer> {
    if batch.len() > MAX_OPERATIONS {
        return Err(Answer::refused(3, 0));
    }
    let first = |number: u64, fails: &dyn Fn(usize) -> bool| match (0..batch.len()).find(|op| fails(*op)) {
        Some(op) => Err(Answer::refused(number, op as u64)),
        None => Ok(()),
    };
    first(4, &|op| malformed(batch[op]))?;
    let used: BTreeSet<u64> =
        document.rows.iter().map(Row::id).chain(document.successors.iter().map(|s| s.id)).collect();
    let id = |op: usize| batch[op].row().id();
    first(5, &|op| used.contains(&id(op)) || (0..op).any(|earlier| id(earlier) == id(op)))?;

    // "rows for 6 to 8 are those of document and batch together"; a Delete is no row
    let mut rows = document.rows.clone();
    rows.extend(batch.iter().map(Operation::row).filter(|row| row.action() != DELETE));
    first(6, &|op| object_missing_or_unfit(&rows, &batch[op].row()))?;
    first(7, &|op| element_missing(&rows, &batch[op].row()))?;
    first(8, &|op| predecessor_missing(&rows, batch[op]))?;

    let mut successors = document.successors.clone();
    successors.extend(batch.iter().flat_map(|operation| successors_left(&rows, *operation)));
    if rows.len() > MAX_ROWS || successors.len() > MAX_SUCCESSORS {
        return Err(Answer::refused(9, 0));
    }
    successors.sort();
    Ok(Document { rows: document_order(&rows), successors })
}

/// "Every operation becomes a successor of each of its predecessors"; an Increment's entry carries its number
/// "if the predecessor's value is a counter, otherwise none".
fn successors_left(rows: &[Row], operation: Operation) -> Vec<Successor> {
    let row = operation.row();
    let entry = |owner: &u64| {
        let counter = rows.iter().any(|r| r.id() == *owner && r.is_counter());
        let (carries, increment) = if row.action() == INCREMENT && counter { (1, row.value()) } else { (0, 0) };
        Successor { owner: *owner, id: row.id(), carries, increment }
    };
    operation.predecessors().iter().map(entry).collect()
}
