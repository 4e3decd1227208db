//! A row of the op set, its successors in three columns as the original's cursors read them.
use super::{Action, ActorIdx, KeyRef, Op, OpId, ScalarValue};
use crate::op_set2::op::{ChangeOp, SuccCursors};
use crate::types::ObjId;
use hexane::Iter;

#[derive(Debug, Clone)]
pub(crate) struct Row {
    pub(crate) id: OpId,
    pub(crate) obj: ObjId,
    pub(crate) action: Action,
    pub(crate) key: KeyRef<'static>,
    pub(crate) value: ScalarValue<'static>,
    pub(crate) insert: bool,
    succ_actor: Vec<ActorIdx>,
    succ_counter: Vec<u32>,
    succ_inc: Vec<Option<i64>>,
}

impl Row {
    pub(super) fn cursors(&self) -> SuccCursors<'_> {
        let n = self.succ_actor.len();
        SuccCursors {
            len: n,
            succ_actor: Iter::new(&self.succ_actor, 0..n),
            succ_counter: Iter::new(&self.succ_counter, 0..n),
            inc_values: Iter::new(&self.succ_inc, 0..n),
        }
    }
    pub(super) fn op(&self, pos: usize) -> Op<'_> {
        Op {
            pos,
            conflict: false,
            id: self.id,
            action: self.action,
            obj: self.obj,
            key: KeyRef::as_ref(&self.key),
            insert: self.insert,
            value: self.value.clone(),
            expand: false,
            mark_name: None,
            succ_cursors: self.cursors(),
        }
    }
    pub(crate) fn put_succ(&mut self, at: usize, id: OpId, inc: Option<i64>) {
        self.succ_actor.insert(at, id.actoridx());
        self.succ_counter.insert(at, id.counter() as u32);
        self.succ_inc.insert(at, inc);
    }
}

impl From<&ChangeOp> for Row {
    fn from(op: &ChangeOp) -> Self {
        let mut row = Row {
            id: op.bld.id,
            obj: op.bld.obj,
            action: op.bld.action,
            key: op.bld.key.clone(),
            value: op.bld.value.clone(),
            insert: op.bld.insert,
            succ_actor: vec![],
            succ_counter: vec![],
            succ_inc: vec![],
        };
        for (at, (id, inc)) in op.succ.iter().enumerate() {
            row.put_succ(at, *id, *inc);
        }
        row
    }
}
