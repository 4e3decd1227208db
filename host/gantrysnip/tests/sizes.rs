//! The crate's sizes are those that the static library tells, and those of the reference.
use compare::layout;
use gantrysnip::calls::size;
use gantrysnip::sizes::*;

#[test]
fn sizes_are_those_of_the_library() {
    let own = [
        MAX_ROWS,
        MAX_SUCCESSORS,
        MAX_BATCH,
        ROW_WORDS,
        SUCCESSOR_WORDS,
        OPERATION_WORDS,
        ENTRY_WORDS,
        ROOM_WORDS,
        ACTORS,
    ];
    for (which, own) in (0..).zip(own) {
        assert_eq!(size(which), own as u64);
    }
    assert_eq!([9, 10, u64::MAX].map(size), [0; 3]);
}

#[test]
fn limits_are_those_of_the_reference() {
    assert_eq!(MAX_PREDECESSORS, layout::MAX_PREDECESSORS);
    assert_eq!([MAX_KEY as u64, MAX_COUNTER], [layout::MAX_KEY, layout::MAX_COUNTER]);
}
