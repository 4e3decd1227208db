//! Clocks, visible rows and what a visible counter shows.
use super::document::Document;
use super::row::{Row, Successor};
use crate::layout::*;

/// An empty slice is no clock: "no clock means that everything is covered".
#[derive(Clone, Copy)]
pub struct Clock<'a>(pub &'a [u64]);

impl Clock<'_> {
    pub fn covers(&self, id: u64) -> bool {
        self.0.is_empty() || id / ACTORS <= self.0[(id % ACTORS) as usize]
    }
}

fn covered<'a>(document: &'a Document, clock: Clock<'a>, row: &Row) -> impl Iterator<Item = &'a Successor> {
    document.successors_of(row.id()).filter(move |s| clock.covers(s.id))
}

/// "Set or Make, its id is covered, and no covered successor lacks an increment."
pub fn visible(document: &Document, clock: Clock, row: &Row) -> bool {
    row.is_set_or_make() && clock.covers(row.id()) && covered(document, clock, row).all(|s| s.carries == 1)
}

/// A counter's "value plus the exact sum of its covered increments".
pub fn total(document: &Document, clock: Clock, counter: &Row) -> i128 {
    let signed = |word: u64| word as i64 as i128;
    let increments = covered(document, clock, counter).filter(|s| s.carries == 1);
    signed(counter.value()) + increments.map(|s| signed(s.increment)).sum::<i128>()
}
