//! Operations as changes for the crate's public call.
use crate::types::{ActorId, ChangeHash, ElemId, ObjId, OpId};
use crate::words::{key_string, predecessors, value, OPERATION};
use crate::{Change, ImportKey, ImportOp};
use std::num::NonZeroU64;

/// Operations with following counters of one actor become one change; no change depends on another.
pub(crate) fn changes(operations: &[u64]) -> Result<Vec<Change>, String> {
    let mut sorted: Vec<&[u64]> = operations.chunks(OPERATION).collect();
    sorted.sort_by_key(|o| (o[0] % 64, o[0]));
    let mut changes: Vec<Change> = vec![];
    let mut last = 0;
    for operation in sorted {
        if changes.is_empty() || operation[0] != last + 64 {
            changes.push(started_by(operation[0]));
        }
        last = operation[0];
        let change = changes.last_mut().unwrap();
        let imported = imported(operation, &mut change.actors)?;
        change.ops.push(imported);
    }
    Ok(changes)
}

fn started_by(id: u64) -> Change {
    let mut hash = [0u8; 32];
    hash[..8].copy_from_slice(&id.to_be_bytes());
    Change {
        actors: vec![actor(id)],
        seq: id / 64,
        start_op: NonZeroU64::new(id / 64).unwrap(),
        deps: vec![],
        hash: ChangeHash(hash),
        ops: vec![],
    }
}

fn actor(id: u64) -> ActorId {
    ActorId::from([(id % 64) as u8])
}

/// A change numbers its actors itself, in the order in which it meets them.
fn imported(operation: &[u64], actors: &mut Vec<ActorId>) -> Result<ImportOp, String> {
    let mut local = |id: u64| {
        let a = actor(id);
        let at = actors.iter().position(|b| *b == a).unwrap_or_else(|| {
            actors.push(a);
            actors.len() - 1
        });
        OpId::new(id / 64, at)
    };
    Ok(ImportOp {
        key: match (operation[2], operation[3]) {
            (0, _) => ImportKey::Map(key_string(operation)?),
            (_, 0) => ImportKey::Seq(ElemId::head()),
            (_, element) => ImportKey::Seq(ElemId(local(element))),
        },
        obj: if operation[1] == 0 { ObjId::root() } else { ObjId(local(operation[1])) },
        pred: predecessors(operation).iter().map(|p| local(*p)).collect(),
        action: operation[9],
        val: value(operation)?.into_legacy(),
        mark_name: None,
        expand: false,
        insert: operation[8] != 0,
    })
}
