//! The calls of the static library on slices of words, as docs/LAYOUT.md lays them out: any lengths, any words and any
//! counts may be given. `Document` is what most programs want. All `unsafe` of this crate is here.
//!
//! What the blocks rely on: a slice parameter of an exported function is two words, pointer and length, and
//! each pair below is that of a slice that is borrowed for the whole call; what is written is borrowed apart from
//! all else, so nothing overlaps; and the functions are proved to end, and to keep to the slices, for any lengths,
//! words and counts.

/// The declarations of crates/exports_c. include/gantrysnip.h says the same in C; a test compares the two.
mod library {
    extern "C" {
        pub fn gantrysnip_merge(
            rows: *mut u64,
            rows_length: usize,
            succs: *mut u64,
            succs_length: usize,
            row_count: u64,
            succ_count: u64,
            batch: *const u64,
            batch_length: usize,
            op_count: u64,
            room: *mut u64,
            room_length: usize,
            answer: *mut u64,
            answer_length: usize,
        ) -> u64;
        pub fn gantrysnip_picture(
            rows: *const u64,
            rows_length: usize,
            succs: *const u64,
            succs_length: usize,
            row_count: u64,
            succ_count: u64,
            clock: *const u64,
            clock_length: usize,
            out: *mut u64,
            out_length: usize,
            room: *mut u64,
            room_length: usize,
            answer: *mut u64,
            answer_length: usize,
        ) -> u64;
        pub fn gantrysnip_spot(
            rows: *const u64,
            rows_length: usize,
            succs: *const u64,
            succs_length: usize,
            row_count: u64,
            succ_count: u64,
            clock: *const u64,
            clock_length: usize,
            object: u64,
            target: u64,
            room: *mut u64,
            room_length: usize,
            answer: *mut u64,
            answer_length: usize,
        ) -> u64;
        pub fn gantrysnip_size(which: u64) -> u64;
    }
}

/// The number, and the two values or the place: what a call writes to a slice of three words.
pub type Answer = [u64; 3];

/// A document to be merged into.
pub struct LentToChange<'a> {
    pub rows: &'a mut [u64],
    pub row_count: u64,
    pub successors: &'a mut [u64],
    pub successor_count: u64,
}

/// A document to be read, and the clock to read it under.
#[derive(Clone, Copy)]
pub struct Lent<'a> {
    pub rows: &'a [u64],
    pub row_count: u64,
    pub successors: &'a [u64],
    pub successor_count: u64,
    pub clock: &'a [u64],
}

pub fn merge(lent: LentToChange, batch: &[u64], operation_count: u64, room: &mut [u64], answer: &mut [u64]) -> u64 {
    unsafe {
        library::gantrysnip_merge(
            lent.rows.as_mut_ptr(),
            lent.rows.len(),
            lent.successors.as_mut_ptr(),
            lent.successors.len(),
            lent.row_count,
            lent.successor_count,
            batch.as_ptr(),
            batch.len(),
            operation_count,
            room.as_mut_ptr(),
            room.len(),
            answer.as_mut_ptr(),
            answer.len(),
        )
    }
}

pub fn picture(lent: Lent, output: &mut [u64], room: &mut [u64], answer: &mut [u64]) -> u64 {
    unsafe {
        library::gantrysnip_picture(
            lent.rows.as_ptr(),
            lent.rows.len(),
            lent.successors.as_ptr(),
            lent.successors.len(),
            lent.row_count,
            lent.successor_count,
            lent.clock.as_ptr(),
            lent.clock.len(),
            output.as_mut_ptr(),
            output.len(),
            room.as_mut_ptr(),
            room.len(),
            answer.as_mut_ptr(),
            answer.len(),
        )
    }
}

pub fn spot(lent: Lent, object: u64, target: u64, room: &mut [u64], answer: &mut [u64]) -> u64 {
    unsafe {
        library::gantrysnip_spot(
            lent.rows.as_ptr(),
            lent.rows.len(),
            lent.successors.as_ptr(),
            lent.successors.len(),
            lent.row_count,
            lent.successor_count,
            lent.clock.as_ptr(),
            lent.clock.len(),
            object,
            target,
            room.as_mut_ptr(),
            room.len(),
            answer.as_mut_ptr(),
            answer.len(),
        )
    }
}

/// What the library says of its sizes, by the numbers of docs/LAYOUT.md; 0 for a number that it has not.
///
/// ```
/// assert_eq!(gantrysnip::calls::size(0), gantrysnip::sizes::MAX_ROWS as u64);
/// ```
pub fn size(which: u64) -> u64 {
    unsafe { library::gantrysnip_size(which) }
}
