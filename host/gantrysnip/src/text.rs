//! Operations as lines of text that a person can write and read; docs/TEXT.md describes the form.
//!
//! ```
//! use gantrysnip::text;
//! let text = "\
//! ## what both knew
//! 1@0  make list            in root  at \"certificates\"
//! 2@0  set unsigned 4711    in 1@0   after head
//! 5@0  delete               in 1@0   on 2@0   over 2@0
//! ";
//! let lines = text::operations(text.as_bytes())?;
//! assert_eq!(lines.iter().map(|line| line.number).collect::<Vec<_>>(), [2, 3, 4]);
//! assert_eq!(lines[2].operation.to_string(), "5@0 delete in 1@0 on 2@0 over 2@0");
//! let bad = text::operations(b"1@0 set unsigned x in root at \"k\"").unwrap_err();
//! assert_eq!(bad.to_string(), "line 1: \"x\" is no whole number from 0 to 18446744073709551615");
//! # Ok::<(), gantrysnip::text::BadLine>(())
//! ```
mod read;
mod tokens;
mod write;

use crate::{Clock, Operation, Unfit};
use std::fmt;
use std::str::FromStr;
pub use write::quoted;

/// An operation and the number of its line, counted from 1.
#[derive(Clone, Copy, Debug, PartialEq, Eq)]
pub struct Line {
    pub number: usize,
    pub operation: Operation,
}

/// A line that is no operation, counted from 1, and why.
#[derive(Clone, Debug, PartialEq, Eq)]
pub struct BadLine {
    pub number: usize,
    pub reason: String,
}

impl fmt::Display for BadLine {
    fn fmt(&self, f: &mut fmt::Formatter<'_>) -> fmt::Result {
        write!(f, "line {}: {}", self.number, self.reason)
    }
}

impl std::error::Error for BadLine {}

/// The operations of a text, one a line; empty lines and what follows a # are left out.
pub fn operations(text: &[u8]) -> Result<Vec<Line>, BadLine> {
    let mut lines = vec![];
    // some editors begin a file with a mark of their own
    let text = text.strip_prefix(b"\xef\xbb\xbf").unwrap_or(text);
    for (number, line) in (1..).zip(text.split(|byte| *byte == b'\n')) {
        let bad = |reason: String| BadLine { number, reason };
        let line = std::str::from_utf8(line).map_err(|_| bad("this is no UTF-8 text".into()))?;
        let operation = read::operation(line).map_err(bad)?;
        lines.extend(operation.map(|operation| Line { number, operation }));
    }
    Ok(lines)
}

/// The text of these operations, a line each; `operations` reads it back.
pub fn written(operations: &[Operation]) -> String {
    operations.iter().map(|operation| format!("{operation}\n")).collect()
}

/// One line, with one operation.
impl FromStr for Operation {
    type Err = BadLine;
    fn from_str(line: &str) -> Result<Operation, BadLine> {
        let bad = |reason: String| BadLine { number: 1, reason };
        read::operation(line).map_err(bad)?.ok_or_else(|| bad("there is no operation".into()))
    }
}

/// `everything`, `nothing`, or the last counter of each actor that is covered, as in `6@0,7@1`.
///
/// ```
/// use gantrysnip::{Clock, Id};
/// let clock: Clock = "6@0,7@1".parse()?;
/// assert!(clock.covers(Id::new(7, 1)?) && !clock.covers(Id::new(7, 0)?));
/// # Ok::<(), gantrysnip::Unfit>(())
/// ```
impl FromStr for Clock {
    type Err = Unfit;
    fn from_str(text: &str) -> Result<Clock, Unfit> {
        read::clock(text)
    }
}
