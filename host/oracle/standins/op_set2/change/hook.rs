// The test hook, appended to the copy of batch.rs: `BatchApply::apply` as written, on given operations
// instead of those that it would read out of changes.
pub(crate) fn apply_operations(doc: &mut Automerge, ops: Vec<ChangeOp>, log: &mut PatchLog) -> Result<(), PatchLogMismatch> {
    let mut batch = BatchApply { ops, ..Default::default() };
    batch.apply(doc, log)
}
