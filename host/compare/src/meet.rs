//! The reference and the oracle on one history: equal, or different as predicted.
use crate::history::History;
use crate::layout::*;
use crate::memory::Memory;
use crate::operation::words;
use crate::predicted;
use crate::reference::document::Document;
use crate::reference::row::Row;
use crate::reference::visible::Clock;
use crate::reference::{picture, spot};
use std::fmt;
use std::ops::AddAssign;

/// What was compared, and how often a predicted difference was met.
#[derive(Clone, Copy, Default, Debug)]
pub struct Met {
    pub merges: u64,
    pub pictures: u64,
    pub spots: u64,
    pub lost_totals: u64,
    pub early_spots: u64,
}

impl AddAssign for Met {
    fn add_assign(&mut self, other: Met) {
        self.merges += other.merges;
        self.pictures += other.pictures;
        self.spots += other.spots;
        self.lost_totals += other.lost_totals;
        self.early_spots += other.early_spots;
    }
}

impl fmt::Display for Met {
    fn fmt(&self, f: &mut fmt::Formatter<'_>) -> fmt::Result {
        write!(f, "{} merges, {} pictures, {} spots equal", self.merges, self.pictures, self.spots)?;
        write!(f, " (as predicted: {} totals that do not fit, {} spots too early)", self.lost_totals, self.early_spots)
    }
}

fn equal<T: PartialEq + fmt::Debug>(what: &str, rules: T, oracle: T) -> Result<(), String> {
    if rules == oracle {
        Ok(())
    } else {
        Err(format!("{what}: by the rules {rules:?}, the oracle gives {oracle:?}"))
    }
}

/// Rows, successors or entries: says only the first that differ.
fn equal_slots(what: &str, width: usize, rules: &[u64], oracle: &[u64]) -> Result<(), String> {
    let (rules, oracle): (Vec<_>, Vec<_>) = (rules.chunks(width).collect(), oracle.chunks(width).collect());
    let slots = rules.len().max(oracle.len());
    (0..slots).try_for_each(|at| equal(&format!("{what}, slot {at}"), rules.get(at), oracle.get(at)))
}

/// Merges each batch by the rules, by the originals' `apply`, by their public call and on a document loaded afresh;
/// looks at the last document under every clock, at the others under the first and one more.
pub fn history(history: &History) -> Result<Met, String> {
    let mut memory = Memory::default();
    let mut applied = oracle::Document::load(&[], &[])?;
    let mut called = applied.clone();
    let mut met = Met::default();
    for (place, batch) in history.batches.iter().enumerate() {
        let mut loaded = oracle::Document::load(memory.row_words(), memory.successor_words())?;
        memory.grow(batch)?;
        let batch = words(batch);
        applied.merge(&batch).map_err(|message| format!("the oracle's merge panics: {message}"))?;
        loaded.merge(&batch)?;
        called.merge_changes(&batch)?;
        for (way, merged) in [("merged", &applied), ("loaded, merged", &loaded), ("merged as changes", &called)] {
            same_document(way, &memory, merged)?;
        }
        met.merges += 1;
        let last = place + 1 == history.batches.len();
        for (at, clock) in history.clocks.iter().enumerate() {
            if last || at == 0 || at == place % history.clocks.len() {
                met += same_views(&memory.document(), &applied, clock)?;
            }
        }
    }
    Ok(met)
}

pub fn same_document(way: &str, memory: &Memory, oracle: &oracle::Document) -> Result<(), String> {
    equal_slots(&format!("{way}: rows"), ROW, memory.row_words(), &oracle.rows())?;
    equal_slots(&format!("{way}: successors"), SUCCESSOR, memory.successor_words(), &oracle.successors())?;
    equal(&format!("{way}: the order, by Op::step"), true, oracle.order_holds())?;
    let document = memory.document();
    let entries = picture::entries(&document, Clock(&[]));
    let winners = entries.iter().filter(|e| e[11] == 1).filter_map(|e| document.place_of(e[0])).collect();
    equal(&format!("{way}: winners, by the top bits"), winners, oracle.winners())
}

/// The picture and every spot of one document under a clock.
pub fn same_views(document: &Document, oracle: &oracle::Document, clock: &[u64]) -> Result<Met, String> {
    let mut met = same_picture(document, oracle, Clock(clock))?;
    for list in document.rows.iter().filter(|row| row.action() == MAKE_LIST).map(Row::id) {
        met += same_spots(document, oracle, Clock(clock), list)?;
    }
    Ok(met)
}

fn same_picture(document: &Document, oracle: &oracle::Document, clock: Clock) -> Result<Met, String> {
    let rules = picture::entries(document, clock);
    let lost = rules.iter().filter(|entry| entry[13] == TOTAL_LOST).count() as u64;
    let expected: Vec<_> = rules.iter().map(|entry| predicted::entry(document, clock, *entry)).collect();
    equal_slots("picture", ENTRY, &expected.concat(), &oracle.picture(clock.0))?;
    let values: Vec<_> = expected.iter().filter_map(|e| Some((document.place_of(e[0])?, e[10]))).collect();
    equal("visible rows, by VisIter", values.iter().map(|v| v.0).collect(), oracle.visible_places(clock.0))?;
    equal("visible values, by VisibleOpIter", values, oracle.visible_values(clock.0))?;
    Ok(Met { pictures: 1, lost_totals: lost, ..Met::default() })
}

/// Every target, the last one above the visible elements.
fn same_spots(document: &Document, oracle: &oracle::Document, clock: Clock, list: u64) -> Result<Met, String> {
    let mut met = Met::default();
    let count = spot::visible_elements(document, clock, list).len();
    for target in 0..=count + 1 {
        let rules = spot::find(document, clock, list, target as u64);
        let expected = rules.map(|found| predicted::spot(document, list, found));
        let given = oracle.spot(list, clock.0, target).map(|(element, place)| (element, place as u64));
        equal(&format!("spot of list {} at target {target}", shown(list)), expected, given)?;
        met.spots += 1;
        met.early_spots += (expected != rules) as u64;
    }
    Ok(met)
}
