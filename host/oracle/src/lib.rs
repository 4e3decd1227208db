//! automerge 0.11.0's merge, visibility and insertion query, run as published on a Vec-based op set, behind
//! 64-bit words: ids are `counter * 64 + actor`, rows 12 words, operations 29, successors 4, picture entries 14.
//! Nothing here checks its input: where the originals panic, a call gives the panic's message.
//! docs/ORACLE.md lists what is original and what stands in.

// The crates that the originals name: one crate of stand-ins under each of their names.
#[cfg(originals)]
extern crate missing as getrandom;
#[cfg(originals)]
extern crate missing as hex;
#[cfg(originals)]
extern crate missing as hexane;
#[cfg(originals)]
extern crate missing as leb128;
#[cfg(originals)]
extern crate missing as rand;
#[cfg(originals)]
extern crate missing as rustc_hash;
#[cfg(originals)]
extern crate missing as serde;
#[cfg(originals)]
extern crate missing as smol_str;
#[cfg(originals)]
extern crate missing as thiserror;
#[cfg(originals)]
extern crate missing as tinyvec;
#[cfg(originals)]
extern crate missing as unicode_segmentation;

#[cfg(originals)]
include!(concat!(env!("OUT_DIR"), "/tree/root.rs"));

mod edit;
pub use edit::{Edit, Place};

#[cfg(originals)]
mod changes;
#[cfg(originals)]
mod document;
#[cfg(originals)]
mod panics;
#[cfg(originals)]
mod queries;
#[cfg(originals)]
mod words;
#[cfg(originals)]
pub use document::Document;

#[cfg(not(originals))]
mod absent;
#[cfg(not(originals))]
pub use absent::Document;

/// Whether the originals were there when this was built.
pub const PRESENT: bool = cfg!(originals);
