//! What is read out of a document: visible rows, the picture, the insertion spot.
use crate::op_set2::op_set::{InsertQuery, OpsFoundIter, VisIter, VisibleOpIter};
use crate::types::{ObjId, SequenceType, TextEncoding};
use crate::words::{clock, id, key_words, value_words, word};
use crate::{AutomergeError, Document};

impl Document {
    /// Places with the top bit, which `Adjust`, `conflicted` and `add_succ` keep up: winners without a clock.
    pub fn winners(&self) -> Vec<usize> {
        let top = &self.0.ops().cols.index.top.0;
        (0..top.len()).filter(|place| top[*place]).collect()
    }

    /// By `VisIter`: with a clock `ScanVisIter::is_visible`, without one the visible bits.
    pub fn visible_places(&self, clock_words: &[u64]) -> Vec<usize> {
        let count = self.0.ops().len();
        let mut places = vec![];
        let mut next = 0;
        for skipped in VisIter::new(self.0.ops(), clock(clock_words).as_ref(), 0..count) {
            next += skipped;
            if next >= count {
                break;
            }
            places.push(next);
            next += 1;
        }
        places
    }

    /// Place and value of each visible row, by `VisibleOpIter` and `Op::scope_to_clock`.
    pub fn visible_values(&self, clock_words: &[u64]) -> Vec<(usize, u64)> {
        let set = self.0.ops();
        VisibleOpIter::new(set.iter_range(&(0..set.len())), clock(clock_words))
            .map(|op| (op.pos, value_words(&op.value)[1]))
            .collect()
    }

    /// The picture from the groups of `OpsFoundIter`, object by object. The mark is always 0.
    pub fn picture(&self, clock_words: &[u64]) -> Vec<u64> {
        let set = self.0.ops();
        let mut words = vec![];
        let mut start = 0;
        while start < set.len() {
            let range = set.obj_range(set.row(start).obj, start);
            start = range.end;
            for found in OpsFoundIter::new(set.iter_range(&range), clock(clock_words)) {
                let count = found.ops.len();
                assert!(count > 0, "OpsFoundIter gave an empty group");
                for (i, op) in found.ops.iter().enumerate() {
                    words.extend([word(op.id), word(op.obj.0)]);
                    words.extend(key_words(&op.elemid_or_key()));
                    words.push(u64::from(op.action));
                    words.extend(value_words(&op.value));
                    words.extend([(i + 1 == count) as u64, (count > 1) as u64, 0]);
                }
            }
        }
        words
    }

    /// `InsertQuery::resolve`: element and place, or None for `InvalidIndex`.
    pub fn spot(&self, object: u64, clock_words: &[u64], target: usize) -> Option<(u64, usize)> {
        let rows = self.0.ops().iter_obj(ObjId(id(object)));
        let unit = TextEncoding::UnicodeCodePoint;
        let mut query =
            InsertQuery::new(rows, target, SequenceType::List, unit, clock(clock_words), Default::default());
        match query.resolve(0) {
            Ok(found) => Some((word(found.elemid.0), found.pos)),
            Err(AutomergeError::InvalidIndex(_)) => None,
            Err(e) => panic!("{e:?}"),
        }
    }
}
