//! The scripts whose answers are recorded: the P cases, the edges, the refusals, random histories.
pub mod demanded;
mod edges;
mod refusals;
mod table;
mod wandering;

pub use refusals::{batches as refused_batches, documents as refused_documents, ground as refused_ground};
pub use table::*;

use crate::script::Script;

pub fn scripts() -> Vec<Script> {
    [table::scripts(), edges::scripts(), refusals::scripts(), wandering::scripts()].concat()
}
