//! How rows, successors, operations and picture entries lie in slices of 64-bit words, and the documented sizes.

pub const ROW: usize = 12;
pub const OPERATION: usize = 29;
pub const SUCCESSOR: usize = 4;
pub const ENTRY: usize = 14;

pub const MAX_ROWS: usize = 4096;
pub const MAX_SUCCESSORS: usize = 8192;
pub const MAX_OPERATIONS: usize = 256;
pub const MAX_PREDECESSORS: usize = 16;
pub const WORK: usize = 65536;
pub const CLOCK: usize = 64;
pub const MAX_KEY: u64 = 24;

/// An object that is no operation, and an element that is none.
pub const ROOT: u64 = 0;
pub const HEAD: u64 = 0;
pub const ACTORS: u64 = 64;
pub const MAX_COUNTER: u64 = u32::MAX as u64;

pub const MAKE_MAP: u64 = 0;
pub const SET: u64 = 1;
pub const MAKE_LIST: u64 = 2;
pub const DELETE: u64 = 3;
pub const INCREMENT: u64 = 5;

pub const NULL: u64 = 0;
pub const BOOLEAN: u64 = 1;
pub const UNSIGNED: u64 = 3;
pub const SIGNED: u64 = 4;
pub const F64: u64 = 5;
pub const COUNTER: u64 = 8;
pub const TIMESTAMP: u64 = 9;

/// The mark of a visible counter whose total doesn't fit.
pub const TOTAL_LOST: u64 = 11;

pub const fn id(counter: u64, actor: u64) -> u64 {
    counter * ACTORS + actor
}

/// An id as people write it: counter@actor.
pub fn shown(id: u64) -> String {
    format!("{}@{}", id / ACTORS, id % ACTORS)
}

/// The words 4 to 7 of a row: a key's length and its bytes, 8 a word, the first byte highest.
pub fn key_words(bytes: &[u8]) -> [u64; 4] {
    let mut padded = [0u8; 24];
    padded[..bytes.len()].copy_from_slice(bytes);
    let word = |i: usize| u64::from_be_bytes(padded[8 * i..8 * i + 8].try_into().unwrap());
    [bytes.len() as u64, word(0), word(1), word(2)]
}
