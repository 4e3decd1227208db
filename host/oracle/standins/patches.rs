//! Stand-in for the patch log: writes down each call that the merge makes to it, in order.
use crate::edit::{Edit, Place};
use crate::hydrate::Value;
use crate::marks::MarkSet;
use crate::types::{ActorId, ObjId, OpId, Prop, SequenceType};
use crate::words::word;
use crate::{PatchLogMismatch, TextEncoding};
use std::sync::Arc;

#[derive(Debug, Clone, PartialEq)]
pub struct Patch {
    pub(crate) path: Vec<((), Prop)>,
    pub(crate) action: PatchAction,
}
#[derive(Debug, Clone, PartialEq)]
pub struct PatchAction;

#[derive(Debug, Default)]
pub(crate) struct PatchLog {
    pub(crate) edits: Vec<Edit>,
}

fn key(k: &str) -> Place {
    Place::Key(k.into())
}

impl PatchLog {
    pub(crate) fn inactive() -> Self {
        PatchLog::default()
    }
    pub(crate) fn migrate_actors(&mut self, _: &[ActorId]) -> Result<(), PatchLogMismatch> {
        Ok(())
    }
    pub(crate) fn insert(&mut self, obj: ObjId, index: usize, _: Value, id: OpId, conflict: bool) {
        self.edits.push(Edit::Insert { object: word(obj.0), at: Place::Index(index), id: word(id), conflict })
    }
    fn put(&mut self, obj: ObjId, at: Place, id: OpId, conflict: bool, exposed: bool) {
        self.edits.push(Edit::Put { object: word(obj.0), at, id: word(id), conflict, exposed })
    }
    pub(crate) fn put_map(&mut self, obj: ObjId, k: &str, _: Value, id: OpId, conflict: bool, expose: bool) {
        self.put(obj, key(k), id, conflict, expose)
    }
    pub(crate) fn put_seq(&mut self, obj: ObjId, index: usize, _: Value, id: OpId, conflict: bool, expose: bool) {
        self.put(obj, Place::Index(index), id, conflict, expose)
    }
    pub(crate) fn delete_map(&mut self, obj: ObjId, k: &str) {
        self.edits.push(Edit::Delete { object: word(obj.0), at: key(k), count: 1 })
    }
    pub(crate) fn delete_seq(&mut self, obj: ObjId, index: usize, count: usize) {
        self.edits.push(Edit::Delete { object: word(obj.0), at: Place::Index(index), count })
    }
    pub(crate) fn increment_map(&mut self, obj: ObjId, k: &str, by: i64, id: OpId) {
        self.edits.push(Edit::Increment { object: word(obj.0), at: key(k), by, id: word(id) })
    }
    pub(crate) fn increment_seq(&mut self, obj: ObjId, index: usize, by: i64, id: OpId) {
        self.edits.push(Edit::Increment { object: word(obj.0), at: Place::Index(index), by, id: word(id) })
    }
    pub(crate) fn flag_conflict(&mut self, obj: ObjId, prop: &Prop) {
        let at = match prop {
            Prop::Map(k) => key(k),
            Prop::Seq(index) => Place::Index(*index),
        };
        self.edits.push(Edit::Conflict { object: word(obj.0), at })
    }
    pub(crate) fn splice(&mut self, _: ObjId, _: usize, _: &str, _: Option<Arc<MarkSet>>) {
        unimplemented!("text is outside the base")
    }
    pub(crate) fn mark(&mut self, _: ObjId, _: usize, _: usize, _: &Arc<MarkSet>) {
        unimplemented!("text is outside the base")
    }
    pub(crate) fn replace_seq(
        &mut self, _: ObjId, _: usize, _: &Value, _: Value, _: OpId, _: bool, _: bool,
        _: SequenceType, _: TextEncoding, _: Option<Arc<MarkSet>>,
    ) {
        unimplemented!("text is outside the base")
    }
}
