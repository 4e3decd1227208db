//! Entry 3 of docs/DIFFERENCES.md: the merge's own arithmetic on the values of patches. Built as usual it wraps;
//! host/overflow builds it with overflow checks, where it stops the merge.
#![cfg_attr(not(originals), allow(unused_imports))]
use compare::layout::*;
use compare::operation::{words, Op};
use oracle::{Document, Edit, Place};

#[test]
#[cfg_attr(not(originals), ignore = "originals absent")]
fn an_increment_beyond_the_greatest_number() {
    let counter = Op::at_key(id(1, 0), ROOT, b"c").set(COUNTER, i64::MAX as u64);
    let increment = Op::at_key(id(2, 0), ROOT, b"c").increment(1).over(&[id(1, 0)]);
    let mut document = Document::load(&[], &[]).unwrap();
    document.merge(&words(&[counter])).unwrap();
    let merged = document.merge(&words(&[increment]));
    if cfg!(debug_assertions) {
        assert_eq!(merged, Err("attempt to add with overflow".into()));
    } else {
        let by_one = Edit::Increment { object: ROOT, at: Place::Key("c".into()), by: 1, id: id(1, 0) };
        assert_eq!(merged, Ok(vec![by_one]));
        assert_eq!(document.successors(), [id(1, 0), id(2, 0), 1, 1]);
    }
}
