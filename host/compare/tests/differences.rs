//! The entries of docs/DIFFERENCES.md: on each smallest input what the rules answer and what the oracle does.
#![cfg_attr(not(originals), allow(dead_code, unused_imports))]
use compare::cases::demanded::{rows, successors};
use compare::cases::{insert, make_list, p10, p12, p7, LIST};
use compare::layout::*;
use compare::memory::Memory;
use compare::operation::{words, Op};
use compare::reference::{self, Answer};
use compare::script::Step;
use oracle::{Document, Edit, Place};

fn set(counter: u64, key: &[u8]) -> Op {
    Op::at_key(id(counter, 0), ROOT, key)
}
fn on(counter: u64, element: u64) -> Op {
    Op::at_element(id(counter, 0), LIST, element)
}
fn list_with_element() -> Vec<Op> {
    vec![make_list(), insert(id(2, 0), HEAD)]
}
fn batch(step: Step) -> Vec<Op> {
    let Step::Merge(batch) = step else { panic!("a merge is meant") };
    batch
}

/// The reference and the oracle on the document that one batch makes.
fn after(before: &[Op]) -> (Memory, Document) {
    let (mut memory, mut oracle) = (Memory::default(), Document::load(&[], &[]).unwrap());
    assert!(memory.merge(before).is_accepted());
    oracle.merge(&words(before)).unwrap();
    (memory, oracle)
}

/// The rules refuse the batch with this number at this place; the oracle leaves these rows and successors, or panics.
fn refused(before: &[Op], batch: &[Op], number: u64, place: u64, oracle_leaves: &str) {
    let (mut memory, mut oracle) = after(before);
    assert_eq!(memory.merge(batch), Answer::refused(number, place));
    let left = match oracle.merge(&words(batch)) {
        Ok(_) => format!("{} | {}", rows(&oracle.rows()), successors(&oracle.successors())),
        Err(message) => format!("panics: {message}"),
    };
    assert_eq!(left.trim(), oracle_leaves);
}

#[test]
#[cfg_attr(not(originals), ignore = "originals absent")]
fn entry_1_spot_before_increments_that_end_the_list() {
    let (mut memory, oracle) = after(&batch(p10()));
    assert_eq!(reference::spot(memory.lent(), &[], LIST, 1), Answer::accepted(id(2, 0), 3));
    assert_eq!(oracle.spot(LIST, &[], 1), Some((id(2, 0), 2)));
}

#[test]
#[cfg_attr(not(originals), ignore = "originals absent")]
fn entry_2_totals_that_do_not_fit() {
    let (mut memory, oracle) = after(&batch(p7()[0].clone()));
    let mut output = [0; 2 * ENTRY];
    assert_eq!(reference::picture(memory.lent(), &[], &mut output), Answer::accepted(1, 0));
    assert_eq!(output[8..ENTRY], [SET, COUNTER, 0, 1, 0, TOTAL_LOST]);
    assert_eq!(oracle.picture(&[])[8..], [SET, COUNTER, i64::MIN as u64, 1, 0, 0]);
}

#[test]
#[cfg_attr(not(originals), ignore = "originals absent")]
fn entry_4_a_delete_s_id_again() {
    let [ground, again, _] = p12();
    refused(&batch(ground), &batch(again), 5, 0, "1@0 2@0 | 1@0<2@0");
}

#[test]
#[cfg_attr(not(originals), ignore = "originals absent")]
fn entry_5_a_row_s_id_again() {
    refused(&[set(1, b"a")], &[set(1, b"a")], 5, 0, "1@0 1@0 |");
    refused(&[], &[set(1, b"a"), set(1, b"b")], 5, 1, "1@0 1@0 |");
}

#[test]
#[cfg_attr(not(originals), ignore = "originals absent")]
fn entry_6_an_unknown_object() {
    let missing = "panics: Obj ObjId(OpId(9, 9)) Missing from Index";
    refused(&[], &[Op::at_key(id(1, 0), id(9, 9), b"k")], 6, 0, missing);
    let later = [Op::at_key(id(1, 0), id(2, 0), b"k"), set(2, b"m").act(MAKE_MAP)];
    refused(&[], &later, 6, 0, "2@0 1@0 |");
}

#[test]
#[cfg_attr(not(originals), ignore = "originals absent")]
fn entry_7_a_key_that_does_not_fit_its_object() {
    refused(&[set(1, b"a")], &[Op::insert_on(id(2, 0), ROOT, HEAD)], 6, 0, "1@0 2@0 |");
    refused(&[make_list()], &[Op::at_key(id(2, 0), LIST, b"k")], 6, 0, "1@0 |");
    let mut inserted = set(1, b"a");
    inserted.0[8] = 1;
    refused(&[], &[inserted], 6, 0, "1@0 |");
}

#[test]
#[cfg_attr(not(originals), ignore = "originals absent")]
fn entry_8_an_insert_on_an_unknown_element() {
    let stopped = "panics: assertion failed: self.entry.is_empty()";
    refused(&[make_list()], &[insert(id(2, 0), id(9, 9))], 7, 0, stopped);
    refused(&[], &[make_list(), insert(id(2, 0), id(3, 0)), insert(id(3, 0), HEAD)], 7, 1, stopped);
    let updated = [list_with_element(), vec![on(3, id(2, 0))]].concat();
    refused(&updated, &[insert(id(4, 0), id(3, 0))], 7, 0, stopped);
}

#[test]
#[cfg_attr(not(originals), ignore = "originals absent")]
fn entry_9_an_update_of_an_unknown_element() {
    let lost = on(9, id(5, 5));
    refused(&list_with_element(), &[lost], 7, 0, "1@0 2@0 |");
    refused(&list_with_element(), &[lost.over(&[id(2, 0)])], 7, 0, "1@0 2@0 | 2@0<9@0");
    let beside = [lost, insert(id(10, 0), HEAD)];
    refused(&list_with_element(), &beside, 7, 0, "panics: called `Option::unwrap()` on a `None` value");
    // followed by an operation of a later object, the lost one is put in with it: a row after all
    let with_map = [list_with_element(), vec![set(3, b"m").act(MAKE_MAP)]].concat();
    let followed = [lost, Op::at_key(id(10, 0), id(3, 0), b"k")];
    refused(&with_map, &followed, 7, 0, "3@0 1@0 2@0 9@0 10@0 |");
}

#[test]
#[cfg_attr(not(originals), ignore = "originals absent")]
fn entry_10_head_without_insert() {
    refused(&list_with_element(), &[on(9, HEAD)], 4, 0, "1@0 2@0 |");
}

#[test]
#[cfg_attr(not(originals), ignore = "originals absent")]
fn entry_11_a_predecessor_under_another_key() {
    let [ground, _, other_key] = p12();
    refused(&batch(ground), &batch(other_key), 8, 0, "1@0 3@0 | 1@0<2@0 1@0<3@0");
    // the first row after the batch's last key is met too, those after it are not
    refused(&[set(1, b"b")], &[set(2, b"a").over(&[id(1, 0)])], 8, 0, "2@0 1@0 | 1@0<2@0");
    let two_on = [set(1, b"b"), set(2, b"c")];
    refused(&two_on, &[set(3, b"a").over(&[id(2, 0)])], 8, 0, "3@0 1@0 2@0 |");
    let two_elements = [list_with_element(), vec![insert(id(3, 0), id(2, 0))]].concat();
    refused(&two_elements, &[on(9, id(2, 0)).over(&[id(3, 0)])], 8, 0, "1@0 2@0 9@0 3@0 | 3@0<9@0");
}

#[test]
#[cfg_attr(not(originals), ignore = "originals absent")]
fn entry_12_a_predecessor_never_met() {
    refused(&[], &[set(1, b"a").over(&[id(9, 9)])], 8, 0, "1@0 |");
    refused(&[], &[set(1, b"a").over(&[id(2, 0)]), set(2, b"a")], 8, 0, "1@0 2@0 | 2@0<1@0");
    let incremented = [set(1, b"a").set(COUNTER, 1), set(2, b"a").increment(1).over(&[id(1, 0)])];
    refused(&incremented, &[set(3, b"a").over(&[id(2, 0)])], 8, 0, "1@0 2@0 3@0 | 1@0<2@0(1) 2@0<3@0");
}

#[test]
#[cfg_attr(not(originals), ignore = "originals absent")]
fn entry_13_malformed_operations() {
    refused(&[], &[set(1, b"a").increment(1)], 4, 0, "1@0 |");
    refused(&[], &[set(1, b"a").act(DELETE)], 4, 0, "|");
    refused(&list_with_element(), &[insert(id(3, 0), HEAD).over(&[id(2, 0)])], 4, 0, "1@0 3@0 2@0 | 2@0<3@0");
    refused(&list_with_element(), &[insert(id(3, 0), HEAD).increment(1)], 4, 0, "1@0 3@0 2@0 |");
    refused(&[set(1, b"a")], &[set(2, b"a").over(&[id(1, 0), id(1, 0)])], 4, 0, "1@0 2@0 | 1@0<2@0 1@0<2@0");
}

#[test]
#[cfg_attr(not(originals), ignore = "originals absent")]
fn entry_14_limits() {
    let (mut memory, mut oracle) = after(&[]);
    let many: Vec<Op> = (1..=257).map(|n| set(n, b"k")).collect();
    assert_eq!(memory.merge(&many), Answer::refused(3, 0));
    oracle.merge(&words(&many)).unwrap();
    assert_eq!(oracle.rows().len() / ROW, 257);
}

#[test]
#[cfg_attr(not(originals), ignore = "originals absent")]
fn entry_15_keys_that_are_not_text() {
    let (mut memory, mut oracle) = after(&[]);
    let batch = [set(1, b"\xff")];
    assert_eq!(memory.merge(&batch), Answer::accepted(1, 0));
    assert_eq!(oracle.merge(&words(&batch)), Err("a key that is not UTF-8 has no Rust counterpart".into()));
}

#[test]
#[cfg_attr(not(originals), ignore = "originals absent")]
fn entry_16_the_index_of_a_patch() {
    let counter = vec![make_list(), insert(id(2, 0), HEAD).set(COUNTER, 1)];
    let (_, mut oracle) = after(&counter);
    let edits = oracle.merge(&words(&[on(3, id(2, 0)).increment(1).over(&[id(2, 0)]), insert(id(5, 0), id(2, 0))]));
    // element 2@0 stays visible at index 0, so the right index of 5@0 is 1
    let wrong = Edit::Insert { object: LIST, at: Place::Index(0), id: id(5, 0), conflict: false };
    assert_eq!(edits.unwrap().last(), Some(&wrong));
}
