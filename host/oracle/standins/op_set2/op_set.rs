//! Stand-in for the op set: rows in an arena, their order a list of arena places, successors with
//! their row. op_set/{insert,visible,found_op}.rs are the originals.
use super::op::{ChangeOp, OpLike, OpStepper, SuccInsert};
use crate::exid::ExId;
use crate::types::{self, ActorId, Clock, ObjId, ObjType};
use hexane::Column;
use std::ops::Range;

mod cursors;
mod found_op;
mod insert;
mod names;
mod objects;
mod row;
mod visible;

pub(crate) use super::op::Op;
pub(crate) use super::types::{Action, ActorIdx, KeyRef, MarkData, OpType, ScalarValue};
pub(crate) use crate::types::OpId;
pub(crate) use cursors::{ActionIter, ObjIdIter, OpIdIter, OpIter, SuccIterIter};
pub(crate) use found_op::OpsFoundIter;
pub(crate) use insert::InsertQuery;
pub(crate) use names::*;
pub(crate) use objects::{ObjIndex, ObjInfo};
pub(crate) use row::Row;
pub(crate) use visible::{VisIter, VisibleOpIter};

#[derive(Debug, Clone, Default)]
pub(crate) struct Index {
    pub(crate) visible: Column<bool>,
    pub(crate) top: Column<bool>,
}
#[derive(Debug, Clone, Default)]
pub(crate) struct Cols {
    pub(crate) index: Index,
}
#[derive(Debug, Clone)]
pub(crate) struct OpSet {
    pub(crate) actors: Vec<ActorId>,
    pub(crate) obj_info: ObjIndex,
    pub(crate) cols: Cols,
    rows: Vec<Row>,
    order: Vec<u32>,
}

impl OpSet {
    pub(crate) fn new(actors: Vec<ActorId>) -> Self {
        OpSet { actors, obj_info: ObjIndex::default(), cols: Cols::default(), rows: vec![], order: vec![] }
    }
    pub(crate) fn len(&self) -> usize {
        self.order.len()
    }
    pub(crate) fn row(&self, pos: usize) -> &Row {
        &self.rows[self.order[pos] as usize]
    }
    pub(crate) fn op(&self, pos: usize) -> Op<'_> {
        self.row(pos).op(pos)
    }
    /// For loading a document: a row at the end; its visible and top bits are set by `set_index`.
    pub(crate) fn push_row(&mut self, row: Row) {
        if let Ok(obj_type) = ObjType::try_from(row.action) {
            self.obj_info.insert(row.id, ObjInfo { parent: row.obj, obj_type });
        }
        self.order.push(self.rows.len() as u32);
        self.rows.push(row);
    }
    /// The visible bits from the original's `Op::visible`; top is a key's last visible row.
    pub(crate) fn set_index(&mut self) {
        let ops: Vec<Op<'_>> = (0..self.len()).map(|p| self.op(p)).collect();
        let visible: Vec<bool> = ops.iter().map(Op::visible).collect();
        let group = |p: usize| (ops[p].obj, ops[p].elemid_or_key());
        let hidden = |p: usize| (p + 1..ops.len()).take_while(|q| group(*q) == group(p)).any(|q| visible[q]);
        let top = (0..ops.len()).map(|p| visible[p] && !hidden(p)).collect();
        self.cols.index = Index { visible: Column(visible), top: Column(top) };
    }
    pub(crate) fn lookup_actor(&self, a: &ActorId) -> Option<usize> {
        self.actors.binary_search(a).ok()
    }
    pub(crate) fn get_actor(&self, i: usize) -> &ActorId {
        &self.actors[i]
    }
    pub(crate) fn id_to_exid(&self, id: OpId) -> ExId {
        if id == types::ROOT {
            ExId::Root
        } else {
            ExId::Id(id.counter(), self.get_actor(id.actor()).clone(), id.actor())
        }
    }
    pub(crate) fn to_string(&self, k: KeyRef<'_>) -> String {
        format!("{k:?}")
    }
    pub(crate) fn text(&self, _: &ObjId, _: Option<Clock>) -> String {
        unimplemented!("text is outside the base")
    }
    pub(crate) fn top_ops(&self, obj: &ObjId, clock: Option<Clock>) -> impl Iterator<Item = Op<'_>> {
        OpsFoundIter::new(self.iter_obj(*obj), clock).map(|mut found| {
            let conflict = found.ops.len() > 1;
            let mut op = found.ops.pop().unwrap();
            op.conflict = conflict;
            op
        })
    }
    /// An absent object has an empty range, where its first row would stand.
    pub(crate) fn obj_range(&self, obj: ObjId, from: usize) -> Range<usize> {
        let start = from + self.order[from..].partition_point(|i| self.rows[*i as usize].obj < obj);
        let end = start + self.order[start..].partition_point(|i| self.rows[*i as usize].obj == obj);
        start..end
    }

    // ---- what BatchApply::apply does to the op set ----
    pub(crate) fn conflict(&mut self, pos: usize) {
        self.cols.index.top.0[pos] = false;
    }
    pub(crate) fn expose(&mut self, pos: usize) {
        self.cols.index.top.0[pos] = true;
    }
    /// Back to front, so that each `sub_pos` still holds.
    pub(crate) fn add_succ(&mut self, succ: &[SuccInsert]) {
        for s in succ.iter().rev() {
            self.rows[self.order[s.pos] as usize].put_succ(s.sub_pos, s.id, s.inc);
            if s.inc.is_none() {
                self.cols.index.visible.0[s.pos] = false;
                self.cols.index.top.0[s.pos] = false;
            }
        }
    }
    /// Puts operations in at a place; a Delete leaves no row.
    pub(crate) fn splice(&mut self, pos: usize, ops: &[ChangeOp]) {
        let first = self.rows.len();
        let kept = || ops.iter().filter(|o| o.bld.action != Action::Delete);
        for o in kept() {
            if let Some(info) = o.obj_info() {
                self.obj_info.insert(o.id(), info);
            }
            self.rows.push(Row::from(o));
        }
        let last = self.rows.len();
        self.order.splice(pos..pos, first as u32..last as u32);
        self.cols.index.visible.0.splice(pos..pos, kept().map(OpLike::visible));
        self.cols.index.top.0.splice(pos..pos, kept().map(OpLike::top));
    }
    /// `Op::step` of the original over all rows.
    pub(crate) fn validate_op_order(&self) -> bool {
        let mut s = OpStepper::default();
        self.iter_range(&(0..self.len())).all(|op| op.step(&mut s))
    }
}
