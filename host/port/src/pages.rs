//! Words between pages that nobody may touch: a read or a write beyond them ends the program.
use std::{ptr, slice};

/// In bytes: a multiple of every page size in use.
const PAGE: usize = 65536;
const PAGE_WORDS: usize = PAGE / size_of::<u64>();

/// The system's calls, which std is linked to anyway; the numbers are Linux's.
mod system {
    use std::ffi::{c_int, c_long, c_void};
    pub const NO_ACCESS: c_int = 0;
    pub const READ_AND_WRITE: c_int = 3;
    pub const PRIVATE_ANONYMOUS: c_int = 0x22;
    pub const NO_FILE: c_int = -1;
    extern "C" {
        pub fn mmap(
            at: *mut c_void,
            bytes: usize,
            access: c_int,
            kind: c_int,
            file: c_int,
            from: c_long,
        ) -> *mut c_void;
        pub fn mprotect(at: *mut c_void, bytes: usize, access: c_int) -> c_int;
        pub fn munmap(at: *mut c_void, bytes: usize) -> c_int;
    }
}

pub struct Pages {
    first: *mut u64,
    count: usize,
}

impl Pages {
    /// At least this many words, between two closed pages.
    pub fn of(words: usize) -> Pages {
        let count = words.div_ceil(PAGE_WORDS) * PAGE_WORDS;
        let open = count * size_of::<u64>();
        // Sound: new pages of our own, of which those between the first and the last are opened.
        unsafe {
            let bytes = open + 2 * PAGE;
            let start =
                system::mmap(ptr::null_mut(), bytes, system::NO_ACCESS, system::PRIVATE_ANONYMOUS, system::NO_FILE, 0);
            assert!(start as isize != -1, "no pages to be had");
            let first = start.byte_add(PAGE);
            assert!(open == 0 || system::mprotect(first, open, system::READ_AND_WRITE) == 0, "pages do not open");
            Pages { first: first.cast(), count }
        }
    }
    pub fn words(&self) -> &[u64] {
        // Sound: open pages, zero at first, borrowed as `self` is.
        unsafe { slice::from_raw_parts(self.first, self.count) }
    }
    pub fn words_mut(&mut self) -> &mut [u64] {
        // Sound: as above.
        unsafe { slice::from_raw_parts_mut(self.first, self.count) }
    }
}

impl Drop for Pages {
    fn drop(&mut self) {
        // Sound: the pages that `of` was given.
        unsafe { system::munmap(self.first.byte_sub(PAGE).cast(), self.count * size_of::<u64>() + 2 * PAGE) };
    }
}
