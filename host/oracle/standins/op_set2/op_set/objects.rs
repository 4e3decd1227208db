//! Stand-in for the index of objects: each object's kind and the object that holds its Make row.
use crate::op_set2::op::{ChangeOp, OpLike};
use crate::types::{ObjId, ObjType, OpId, SmallHashMap};

#[derive(Debug, Clone)]
pub(crate) struct ObjInfo {
    pub(crate) parent: ObjId,
    pub(crate) obj_type: ObjType,
}
#[derive(Debug, Clone, Default)]
pub(crate) struct ObjIndex(SmallHashMap<ObjId, ObjInfo>);
impl ObjIndex {
    pub(crate) fn insert(&mut self, id: OpId, info: ObjInfo) {
        self.0.insert(ObjId(id), info);
    }
    pub(crate) fn object_type(&self, obj: &ObjId) -> Option<ObjType> {
        if obj.is_root() {
            Some(ObjType::Map)
        } else {
            self.0.get(obj).map(|i| i.obj_type)
        }
    }
}

/// batch.rs calls this without `OpLike` in scope, so the crate has it elsewhere too.
impl ChangeOp {
    pub(crate) fn obj_info(&self) -> Option<ObjInfo> {
        OpLike::obj_info(self)
    }
}
