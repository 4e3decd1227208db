//! The documented sizes (docs/LAYOUT.md). A test asks the static library for them.

/// Rows of a document, at most.
pub const MAX_ROWS: usize = 4096;
/// Successors of a document, at most.
pub const MAX_SUCCESSORS: usize = 8192;
/// Operations of a batch, at most.
pub const MAX_BATCH: usize = 256;
/// Predecessors of an operation, at most.
pub const MAX_PREDECESSORS: usize = 16;
/// Bytes of a map's key, at most.
pub const MAX_KEY: usize = 24;
/// The greatest counter of an id.
pub const MAX_COUNTER: u64 = 4_294_967_295;
/// Actors are numbered from 0 to one less than this; it is also the count of a clock's words.
pub const ACTORS: usize = 64;

/// Words of a row.
pub const ROW_WORDS: usize = 12;
/// Words of a successor entry.
pub const SUCCESSOR_WORDS: usize = 4;
/// Words of an operation.
pub const OPERATION_WORDS: usize = 29;
/// Words of a picture's entry.
pub const ENTRY_WORDS: usize = 14;
/// Words of the working room.
pub const ROOM_WORDS: usize = 65536;
