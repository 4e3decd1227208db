//! Stand-ins for the op set's iterators: cursors over ranges of its rows.
use super::{Action, Op, OpId, OpQueryTerm, OpSet};
use crate::iter::tools::Shiftable;
use crate::marks::MarkSet;
use crate::op_set2::op::SuccCursors;
use crate::types::ObjId;
use std::ops::Range;
use std::sync::Arc;

impl OpSet {
    pub(crate) fn iter_obj(&self, obj: ObjId) -> OpIter<'_> {
        self.iter_range(&self.obj_range(obj, 0))
    }
    pub(crate) fn iter_range(&self, range: &Range<usize>) -> OpIter<'_> {
        OpIter { set: self, pos: range.start, range: range.clone() }
    }
    pub(crate) fn obj_id_iter(&self) -> ObjIdIter<'_> {
        ObjIdIter { set: self, pos: 0 }
    }
    pub(crate) fn id_iter_range(&self, r: &Range<usize>) -> OpIdIter<'_> {
        OpIdIter { set: self, range: r.clone() }
    }
    pub(crate) fn action_iter_range(&self, r: &Range<usize>) -> ActionIter<'_> {
        ActionIter { set: self, range: r.clone() }
    }
    pub(crate) fn succ_iter_range(&self, r: &Range<usize>) -> SuccIterIter<'_> {
        SuccIterIter { set: self, range: r.clone() }
    }
}

#[derive(Clone)]
pub(crate) struct OpIter<'a> {
    set: &'a OpSet,
    pos: usize,
    range: Range<usize>,
}
impl std::fmt::Debug for OpIter<'_> {
    fn fmt(&self, f: &mut std::fmt::Formatter<'_>) -> std::fmt::Result {
        write!(f, "OpIter({} of {:?})", self.pos, self.range)
    }
}
impl OpIter<'_> {
    pub(crate) fn pos(&self) -> usize {
        self.pos
    }
    pub(crate) fn end_pos(&self) -> usize {
        self.range.end
    }
}
impl<'a> Iterator for OpIter<'a> {
    type Item = Op<'a>;
    fn next(&mut self) -> Option<Op<'a>> {
        if self.pos < self.range.end {
            self.pos += 1;
            Some(self.set.op(self.pos - 1))
        } else {
            None
        }
    }
}
impl<'a> OpQueryTerm<'a> for OpIter<'a> {
    fn get_marks(&self) -> Option<&Arc<MarkSet>> {
        None
    }
    fn range(&self) -> Range<usize> {
        self.range.clone()
    }
}

#[derive(Clone, Debug)]
pub(crate) struct ObjIdIter<'a> {
    set: &'a OpSet,
    pos: usize,
}
impl ObjIdIter<'_> {
    pub(crate) fn seek_to_value(&mut self, obj: ObjId) -> Range<usize> {
        let r = self.set.obj_range(obj, self.pos);
        self.pos = r.end;
        r
    }
}

macro_rules! column {
    ($name:ident, $item:ty, $row:ident => $e:expr) => {
        #[derive(Clone)]
        pub(crate) struct $name<'a> {
            set: &'a OpSet,
            range: Range<usize>,
        }
        impl std::fmt::Debug for $name<'_> {
            fn fmt(&self, f: &mut std::fmt::Formatter<'_>) -> std::fmt::Result {
                write!(f, "{:?}", self.range)
            }
        }
        impl<'a> Iterator for $name<'a> {
            type Item = $item;
            fn next(&mut self) -> Option<$item> {
                let $row = self.set.row(self.range.next()?);
                Some($e)
            }
        }
        impl<'a> Shiftable for $name<'a> {
            fn shift_next(&mut self, range: Range<usize>) -> Option<$item> {
                self.range = range;
                self.next()
            }
        }
    };
}
column!(OpIdIter, OpId, row => row.id);
column!(ActionIter, Action, row => row.action);
column!(SuccIterIter, SuccCursors<'a>, row => row.cursors());
