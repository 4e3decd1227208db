//! What the oracle gives where it is known to differ from the rules: exact answers, from docs/DIFFERENCES.md.
use crate::layout::*;
use crate::reference::document::Document;
use crate::reference::row::Row;
use crate::reference::visible::{total, Clock};

/// Entry 1: where the spot's element is the list's last, the place stands before the Increment rows that end the list.
pub fn spot(document: &Document, list: u64, (element, place): (u64, u64)) -> (u64, u64) {
    let rows: Vec<&Row> = document.rows.iter().filter(|row| row.object() == list).collect();
    let last = rows.iter().rev().find(|row| row.is_insert()).map(|row| row.id());
    if last != Some(element) {
        return (element, place);
    }
    let ending = rows.iter().rev().take_while(|row| row.action() == INCREMENT).count();
    (element, place - ending as u64)
}

/// Entry 2: a total that doesn't fit is cut to 64 bits and not marked.
pub fn entry(document: &Document, clock: Clock, mut entry: [u64; ENTRY]) -> [u64; ENTRY] {
    if entry[13] == TOTAL_LOST {
        let row = document.rows.iter().find(|row| row.id() == entry[0]).expect("an entry shows a row");
        entry[10] = total(document, clock, row) as u64;
        entry[13] = 0;
    }
    entry
}
