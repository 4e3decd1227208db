//! Wrong lengths: 1 comes back, and nothing is written.
use compare::cases::{make_list, LIST};
use compare::damage::{Claim, Slice};
use compare::layout::*;
use compare::memory::Memory;
use compare::operation::Op;
use port::both::Both;
use port::given::Given;

fn with_list() -> Given {
    let mut memory = Memory::default();
    memory.grow(&[make_list()]).unwrap();
    Given::on(&memory).at(LIST, 0).merging(&[Op::insert_on(id(2, 0), LIST, HEAD)])
}

#[test]
fn an_answer_has_3_words() {
    for length in [0, 1, 2, 4, 5, 1000] {
        Both::default().no_room_for_the_answer(&with_list().answering(length)).unwrap();
    }
}

#[test]
fn an_output_one_word_too_short_is_1() {
    let mut given = with_list();
    given.part_mut(Slice::Output).length = ENTRY;
    assert_eq!(Both::default().picture(&given).unwrap().number, 0);
    given.part_mut(Slice::Output).length = ENTRY - 1;
    assert_eq!(Both::default().picture(&given).unwrap().number, 1);
}

#[test]
fn a_claim_over_the_limit_is_2_however_short_the_output() {
    for (claim, values) in [(Claim::Rows, [4097, 1 << 32, u64::MAX]), (Claim::Successors, [8193, 1 << 32, u64::MAX])] {
        for value in values {
            let mut given = with_list();
            given.part_mut(Slice::Output).length = if claim == Claim::Rows { 0 } else { ENTRY };
            *given.claim_mut(claim) = value;
            assert_eq!(Both::default().all(&given).unwrap().map(|answer| answer.number), [2; 3]);
        }
    }
}

#[test]
fn a_batch_has_29_words_for_each_claimed_operation() {
    let numbers = |length: usize, claim: u64| {
        let mut given = with_list();
        given.part_mut(Slice::Batch).length = length;
        *given.claim_mut(Claim::Operations) = claim;
        Both::default().merge(&given).unwrap().number
    };
    assert_eq!(numbers(OPERATION, 1), 0);
    assert_eq!(numbers(0, 0), 0);
    let wrapping = (u64::MAX / 29 + 1).wrapping_mul(29).wrapping_add(1);
    for (length, claim) in [(29, 0), (29, 2), (28, 1), (30, 1), (0, 1), (0, u64::MAX), (29, wrapping), (58, 1)] {
        assert_eq!(numbers(length, claim), 1, "{length} words for a claim of {claim}");
    }
}

#[test]
fn every_other_slice_has_its_size() {
    let sizes = [(Slice::Rows, MAX_ROWS * ROW), (Slice::Successors, MAX_SUCCESSORS * SUCCESSOR), (Slice::Work, WORK)];
    for (slice, size) in sizes {
        for length in [0, 1, size - 1, size + 1, 2 * size] {
            let mut given = with_list();
            given.part_mut(slice).length = length;
            assert_eq!(Both::default().all(&given).unwrap().map(|answer| answer.number), [1; 3]);
        }
    }
}
