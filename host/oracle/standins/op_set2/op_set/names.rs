//! Names that the originals need and that hold no behaviour.
use super::{MarkData, Op, OpId, OpSet};
use crate::iter::tools::{Shiftable, Skipper};
use crate::marks::MarkSet;
use crate::types::{self, Clock, ElemId};
use std::ops::Range;
use std::sync::Arc;

#[derive(Debug, Clone)]
pub(crate) enum MarkIndexBuilder {
    Start(OpId, MarkData<'static>),
    End(OpId),
}
#[derive(Debug, Clone)]
pub(crate) enum ResolvedAction {
    ConflictResolution(types::OpType),
    VisibleUpdate(types::OpType),
}
#[derive(Debug, Clone)]
pub(crate) struct SuccUndo;
pub(crate) struct ReadOpError;
pub(crate) struct TopOps;
pub(crate) trait OpQuery {}

pub(crate) trait OpQueryTerm<'a>: Iterator<Item = Op<'a>> {
    fn get_marks(&self) -> Option<&Arc<MarkSet>>;
    fn range(&self) -> Range<usize>;
}
#[derive(Debug, Clone, Default)]
pub(crate) struct OpsFound<'a> {
    pub(crate) ops: Vec<Op<'a>>,
    pub(crate) end_pos: usize,
    pub(crate) range: Range<usize>,
}
#[derive(Debug, Clone)]
pub(crate) struct QueryNth {
    pub(crate) marks: Option<Arc<MarkSet>>,
    pub(crate) pos: usize,
    pub(crate) elemid: ElemId,
    pub(crate) index: usize,
}

/// Named by iter/tools.rs; not run.
#[derive(Clone, Debug, Default)]
pub(crate) struct TopIter<'a>(std::marker::PhantomData<&'a ()>);
impl<'a> TopIter<'a> {
    pub(crate) fn new(_: &'a OpSet, _: Option<Clock>, _: Range<usize>) -> Self {
        unimplemented!()
    }
}
impl Iterator for TopIter<'_> {
    type Item = usize;
    fn next(&mut self) -> Option<usize> {
        unimplemented!()
    }
}
impl Skipper for TopIter<'_> {}
impl Shiftable for TopIter<'_> {
    fn shift_next(&mut self, _: Range<usize>) -> Option<usize> {
        unimplemented!()
    }
}
