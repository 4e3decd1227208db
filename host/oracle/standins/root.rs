// Stand-in for the crate's lib.rs. Warnings of the originals are the originals' own.
#[allow(warnings)]
mod automerge;
#[allow(warnings)]
mod change_graph;
#[allow(warnings)]
mod change_queue;
#[allow(warnings)]
mod clock;
#[allow(warnings)]
mod error;
#[allow(warnings)]
mod exid;
#[allow(warnings)]
mod hydrate;
#[allow(warnings)]
mod iter;
#[allow(warnings)]
mod legacy;
#[allow(warnings)]
mod marks;
#[allow(warnings)]
mod op_set2;
#[allow(warnings)]
mod patches;
#[allow(warnings)]
mod storage;
#[allow(warnings)]
mod types;
#[allow(warnings)]
mod value;

pub(crate) use automerge::{Automerge, Change, Cursor, ImportKey, ImportOp, LoadChangeError};
pub(crate) use error::{AutomergeError, PatchLogMismatch};
pub(crate) use patches::{Patch, PatchAction, PatchLog};
pub(crate) use types::{ActorId, ChangeHash, ObjType, Prop, TextEncoding};
pub(crate) use value::{ScalarValue, Value};
