//! Checks 4, 6, 7 and 8, each beside its sentence of the rules.
use super::row::{Operation, Row};
use crate::layout::*;

pub fn id_in_range(id: u64) -> bool {
    (1..=MAX_COUNTER).contains(&(id / ACTORS))
}

fn row_with(rows: &[Row], id: u64) -> Option<&Row> {
    rows.iter().find(|row| row.id() == id)
}

/// "null is 0, a boolean 0 or 1"; "an Increment carries a signed number"; Make and Delete use no value.
fn value_fits(row: &Row) -> bool {
    match (row.action(), row.kind()) {
        (SET, NULL) | (MAKE_MAP | MAKE_LIST | DELETE, 0) => row.value() == 0,
        (SET, BOOLEAN) => row.value() <= 1,
        (SET, UNSIGNED | SIGNED | F64 | COUNTER | TIMESTAMP) | (INCREMENT, SIGNED) => true,
        _ => false,
    }
}

/// A map uses a length and as many bytes, a list an element; what the other kind uses is zero.
fn key_fits(row: &Row) -> bool {
    match row.key_kind() {
        0 => {
            let unused = || row.key_bytes()[row.key_length() as usize..].iter().all(|byte| *byte == 0);
            row.named() == 0 && row.key_length() <= MAX_KEY && unused()
        }
        1 => {
            let named = row.named() == HEAD || id_in_range(row.named());
            named && row.key_length() == 0 && row.key_bytes() == [0; 24]
        }
        _ => false,
    }
}

/// Check 4 but for what it says of predecessors: what a document's rows are asked too.
pub fn row_malformed(row: &Row) -> bool {
    let in_range = id_in_range(row.id())
        && (row.object() == ROOT || id_in_range(row.object()))
        && row.insert() <= 1
        && key_fits(row)
        && value_fits(row);
    let never_inserts = matches!(row.action(), DELETE | INCREMENT);
    let head_without_insert = row.has_list_key() && row.named() == HEAD && !row.is_insert();
    !in_range || (never_inserts && row.is_insert()) || head_without_insert
}

/// Check 4: malformed.
pub fn malformed(operation: Operation) -> bool {
    let row = operation.row();
    let count = operation.predecessor_count();
    if row_malformed(&row) || count > MAX_PREDECESSORS as u64 {
        return true;
    }
    let (used, past) = operation.slots().split_at(count as usize);
    let needs_predecessors = matches!(row.action(), DELETE | INCREMENT);
    !used.iter().all(|p| id_in_range(*p))
        || !used.windows(2).all(|pair| pair[0] < pair[1])
        || !past.iter().all(|slot| *slot == 0)
        || (needs_predecessors && used.is_empty())
        || (row.is_insert() && !used.is_empty())
}

/// Check 6: "the object isn't ROOT and no Make row has its id, smaller than the op's;
/// or its kind doesn't fit key and insert flag". A map has map keys and no inserts, a list has list keys.
pub fn object_missing_or_unfit(rows: &[Row], row: &Row) -> bool {
    let list = if row.object() == ROOT {
        false
    } else {
        match row_with(rows, row.object()) {
            Some(make) if make.is_make() && make.id() < row.id() => make.action() == MAKE_LIST,
            _ => return true,
        }
    };
    if list {
        !row.has_list_key()
    } else {
        row.has_list_key() || row.is_insert()
    }
}

/// Check 7: "the element named isn't HEAD and isn't an insert row of that object with a smaller id".
pub fn element_missing(rows: &[Row], row: &Row) -> bool {
    let is_there = |element: &Row| element.is_insert() && element.object() == row.object() && element.id() < row.id();
    row.has_list_key() && row.named() != HEAD && !row_with(rows, row.named()).is_some_and(is_there)
}

/// Check 8: "a predecessor isn't a Set or Make row of the same object and key with a smaller id".
pub fn predecessor_missing(rows: &[Row], operation: Operation) -> bool {
    let row = operation.row();
    let is_there = |p: &Row| p.is_set_or_make() && p.same_object_and_key(&row) && p.id() < row.id();
    !operation.predecessors().iter().all(|id| row_with(rows, *id).is_some_and(is_there))
}
