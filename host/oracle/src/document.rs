//! A document of the originals: loading, merging, reading back.
use crate::changes::changes;
use crate::op_set2::change::batch::apply_operations;
use crate::op_set2::op_set::Row;
use crate::panics::message_of;
use crate::words::{change_op, id, operation, row_words, word, OPERATION, ROW, SUCCESSOR};
use crate::{Automerge, Edit, PatchLog};

#[derive(Clone)]
pub struct Document(pub(crate) Automerge);

impl Document {
    /// Rows in document order, successors sorted by (row id, successor id).
    pub fn load(rows: &[u64], successors: &[u64]) -> Result<Self, String> {
        let mut document = Automerge::new();
        let table: Vec<&[u64]> = successors.chunks(SUCCESSOR).collect();
        for row in rows.chunks(ROW) {
            let mut op = change_op(row)?;
            let from = table.partition_point(|s| s[0] < row[0]);
            let own = table[from..].iter().take_while(|s| s[0] == row[0]);
            op.succ = own.map(|s| (id(s[1]), (s[2] == 1).then_some(s[3] as i64))).collect();
            document.ops.push_row(Row::from(&op));
        }
        document.ops.set_index();
        Ok(Document(document))
    }

    /// `BatchApply::apply` on these operations, and the calls that it makes to its patch log.
    pub fn merge(&mut self, operations: &[u64]) -> Result<Vec<Edit>, String> {
        let operations = operations.chunks(OPERATION).map(operation).collect::<Result<Vec<_>, _>>()?;
        let mut log = PatchLog::default();
        message_of(|| apply_operations(&mut self.0, operations, &mut log))?.map_err(|e| e.to_string())?;
        Ok(log.edits)
    }

    /// The crate's public call, `Automerge::apply_changes_batch`, on changes made of these operations.
    pub fn merge_changes(&mut self, operations: &[u64]) -> Result<(), String> {
        let changes = changes(operations)?;
        message_of(|| self.0.apply_changes_batch(changes))?.map_err(|e| e.to_string())
    }

    pub fn rows(&self) -> Vec<u64> {
        let set = self.0.ops();
        (0..set.len()).flat_map(|place| row_words(&set.op(place))).collect()
    }

    /// Sorted by row id; within a row in the originals' own order.
    pub fn successors(&self) -> Vec<u64> {
        let set = self.0.ops();
        let mut places: Vec<usize> = (0..set.len()).collect();
        places.sort_by_key(|place| set.row(*place).id);
        let mut words = vec![];
        for place in places {
            let op = set.op(place);
            for (successor, increment) in op.succ_inc() {
                words.extend([word(op.id), word(successor)]);
                words.extend([increment.is_some() as u64, increment.unwrap_or(0) as u64]);
            }
        }
        words
    }

    /// The originals' own check of the order, `Op::step`.
    pub fn order_holds(&self) -> bool {
        self.0.ops().validate_op_order()
    }
}
