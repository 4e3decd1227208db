//! Documents of maps and lists that merge: the same operations give the same document, however they were cut into
//! batches and in whatever order these came.
//!
//! The calls are those of a static library whose code is proved to meet its contracts (`host/library`); this
//! crate lends them memory and gives their words names. It has no dependency and needs no `unsafe` of its user, and
//! nothing that is handed to it makes it panic.
//!
//! Ship and shore edit apart and merge both ways:
//!
//! ```
//! use gantrysnip::{Clock, Document, Id, Operation};
//! let common: Operation = r#"1@0 set unsigned 4711 in root at "radio""#.parse()?;
//! let ashore: Operation = r#"2@0 delete in root at "radio" over 1@0"#.parse()?;
//! let aboard: Operation = r#"2@1 set counter 12 in root at "crew""#.parse()?;
//!
//! let (mut ship, mut shore) = (Document::new(), Document::new());
//! ship.merge(&[common, aboard])?;
//! shore.merge(&[common, ashore])?;
//! ship.merge(&[ashore])?;
//! shore.merge(&[aboard])?;
//!
//! assert!(ship == shore);
//! let shown: Vec<Id> = ship.picture(&Clock::everything())?.entries().map(|entry| entry.id()).collect();
//! assert_eq!(shown, [aboard.id()]);
//! # Ok::<(), Box<dyn std::error::Error>>(())
//! ```
#![deny(unsafe_code, clippy::indexing_slicing, clippy::unwrap_used, clippy::expect_used, clippy::panic)]

#[allow(unsafe_code)]
pub mod calls;
mod clock;
mod document;
mod history;
mod id;
mod key;
mod operation;
mod picture;
mod refusal;
mod row;
pub mod sizes;
pub mod text;
mod unfit;
mod value;

pub use clock::Clock;
pub use document::{Document, Spot};
pub use id::Id;
pub use key::Key;
pub use operation::Operation;
pub use picture::{Entry, Picture};
pub use refusal::{explanation, Refusal};
pub use row::{Row, Successor};
pub use unfit::Unfit;
pub use value::{Action, Place, Value};

/// The program in docs/USE.md is run as a test.
#[cfg(doctest)]
#[doc = include_str!("../../../docs/USE.md")]
struct Documented;
