//! The sizes that the proved code gives are the documented ones.
use compare::layout::*;
use gantrysnip::calls::size;

#[test]
fn sizes_are_the_documented_ones() {
    let documented =
        [MAX_ROWS, MAX_SUCCESSORS, MAX_OPERATIONS, ROW, SUCCESSOR, OPERATION, ENTRY, WORK, ACTORS as usize];
    for (which, documented) in (0..).zip(documented) {
        assert_eq!(size(which), documented as u64);
    }
    assert_eq!([9, 10, 1 << 32, u64::MAX].map(size), [0; 4]);
}
