//! A document, and when it is well-formed.
use super::checks::{element_missing, id_in_range, object_missing_or_unfit, row_malformed};
use super::order::document_order;
use super::row::{Row, Successor};
use crate::layout::*;
use std::collections::{BTreeMap, BTreeSet};

#[derive(Clone, Default, PartialEq, Eq, Debug)]
pub struct Document {
    pub rows: Vec<Row>,
    pub successors: Vec<Successor>,
}

impl Document {
    /// The claimed rows and successors at the slices' beginnings. Claims over the limits are the caller's to refuse.
    pub fn cut(rows: &[u64], row_count: u64, successors: &[u64], successor_count: u64) -> Document {
        Document {
            rows: rows.chunks(ROW).take(row_count as usize).map(Row::cut).collect(),
            successors: successors.chunks(SUCCESSOR).take(successor_count as usize).map(Successor::cut).collect(),
        }
    }

    pub fn successors_of(&self, row: u64) -> impl Iterator<Item = &Successor> {
        self.successors.iter().filter(move |s| s.owner == row)
    }

    /// The place of the row with this id, from 0.
    pub fn place_of(&self, id: u64) -> Option<usize> {
        self.rows.iter().position(|row| row.id() == id)
    }

    /// The section "Well-formed documents", sentence by sentence; the counts are the caller's.
    pub fn well_formed(&self) -> bool {
        let ids: BTreeSet<u64> = self.rows.iter().map(Row::id).collect();
        let rows_stand = self.rows.iter().all(|row| {
            row.action() != DELETE
                && !row_malformed(row)
                && !object_missing_or_unfit(&self.rows, row)
                && !element_missing(&self.rows, row)
        });
        rows_stand
            && ids.len() == self.rows.len()
            && self.rows == document_order(&self.rows)
            && self.successors_stand()
            && self.increments_have_predecessors()
    }

    fn successors_stand(&self) -> bool {
        let rows: BTreeMap<u64, &Row> = self.rows.iter().map(|row| (row.id(), row)).collect();
        let mut owners: BTreeMap<u64, Vec<&Row>> = BTreeMap::new();
        for s in &self.successors {
            let Some(owner) = rows.get(&s.owner) else { return false };
            owners.entry(s.id).or_default().push(owner);
        }
        // the table stands by rows, so "successors strictly ascend" reads over (row, successor)
        let ascend = self.successors.windows(2).all(|w| (w[0].owner, w[0].id) < (w[1].owner, w[1].id));
        let each = self.successors.iter().all(|s| {
            let owner = rows[&s.owner];
            let row = rows.get(&s.id);
            s.id > s.owner
                && owner.action() != INCREMENT
                && id_in_range(s.id)
                && row.is_none_or(|row| !row.is_insert() && row.same_object_and_key(owner))
                && increment_fits(s, owner, row.copied())
        });
        let all_alike = |rows: &Vec<&Row>| rows.iter().all(|row| row.same_object_and_key(rows[0]));
        ascend && each && owners.values().all(|rows| rows.len() <= MAX_PREDECESSORS && all_alike(rows))
    }

    /// "Every Increment row is a successor of some row."
    fn increments_have_predecessors(&self) -> bool {
        let successors: BTreeSet<u64> = self.successors.iter().map(|s| s.id).collect();
        self.rows.iter().filter(|row| row.action() == INCREMENT).all(|row| successors.contains(&row.id()))
    }
}

/// "The increment is present exactly for a counter's Increment successor, with its number;
/// where absent its field is zero."
fn increment_fits(s: &Successor, owner: &Row, row: Option<&Row>) -> bool {
    match row {
        Some(row) if row.action() == INCREMENT && owner.is_counter() => s.carries == 1 && s.increment == row.value(),
        _ => s.carries == 0 && s.increment == 0,
    }
}
