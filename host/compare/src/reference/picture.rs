//! The picture: all visible rows in document order.
use super::document::Document;
use super::row::{Key, Row};
use super::visible::{total, visible, Clock};
use crate::layout::*;

pub fn entries(document: &Document, clock: Clock) -> Vec<[u64; ENTRY]> {
    let shown: Vec<&Row> = document.rows.iter().filter(|row| visible(document, clock, row)).collect();
    let entry = |(place, row): (usize, &&Row)| {
        let rivals = |rows: &[&Row]| rows.iter().any(|other| other.same_object_and_key(row));
        let later = rivals(&shown[place + 1..]);
        let earlier = rivals(&shown[..place]);
        entry_of(document, clock, row, !later, earlier || later)
    };
    shown.iter().enumerate().map(entry).collect()
}

/// A list row shows its element, an insert's own id; a counter its total, or mark 11 and value 0.
fn entry_of(document: &Document, clock: Clock, row: &Row, winner: bool, conflict: bool) -> [u64; ENTRY] {
    let element = match row.key() {
        Key::Element(element) => element,
        Key::Map { .. } => 0,
    };
    let (value, mark) = if row.is_counter() {
        i64::try_from(total(document, clock, row)).map_or((0, TOTAL_LOST), |total| (total as u64, 0))
    } else {
        (row.value(), 0)
    };
    let mut words = [0; ENTRY];
    words[..4].copy_from_slice(&[row.id(), row.object(), row.key_kind(), element]);
    words[4..8].copy_from_slice(&row.0[4..8]);
    words[8..].copy_from_slice(&[row.action(), row.kind(), value, winner as u64, conflict as u64, mark]);
    words
}
