//! The insertion spot of a list.
use super::document::Document;
use super::row::{Key, Row};
use super::visible::{visible, Clock};
use crate::layout::*;

/// "A visible element has at least one visible row": the list's visible elements, in document order.
pub fn visible_elements(document: &Document, clock: Clock, list: u64) -> Vec<u64> {
    let rows = document.rows.iter().filter(|row| row.object() == list);
    let has_visible_row = |insert: &&Row| {
        document.rows.iter().any(|row| row.same_object_and_key(insert) && visible(document, clock, row))
    };
    rows.filter(|row| row.is_insert()).filter(has_visible_row).map(Row::id).collect()
}

pub fn is_list(document: &Document, object: u64) -> bool {
    document.rows.iter().any(|row| row.id() == object && row.action() == MAKE_LIST)
}

/// Element and place; None where the target is above the visible elements.
pub fn find(document: &Document, clock: Clock, list: u64, target: u64) -> Option<(u64, u64)> {
    if target == 0 {
        // the place of the list's first row, or where that row would stand
        let before = document.rows.iter().filter(|row| row.object() < list).count();
        return Some((HEAD, before as u64));
    }
    let nth = usize::try_from(target - 1).ok()?;
    let element = *visible_elements(document, clock, list).get(nth)?;
    let own = |row: &Row| row.object() == list && row.key() == Key::Element(element);
    let last = document.rows.iter().rposition(own)?;
    Some((element, last as u64 + 1))
}
