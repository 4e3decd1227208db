//! Sizes and claims: refusals 1, 2, 3 and 9, and what comes before what.
use compare::cases::{make_list, LIST};
use compare::layout::*;
use compare::memory::{Memory, FILLER};
use compare::operation::{words, Op};
use compare::reference::{self, Answer};

fn with_list() -> Memory {
    let mut memory = Memory::default();
    assert!(memory.merge(&[make_list()]).is_accepted());
    memory
}

fn merge_number(memory: &mut Memory, batch: &[u64], claim: u64) -> u64 {
    reference::merge(memory.lent(), batch, claim).number
}

#[test]
fn a_batch_has_29_words_for_each_claimed_operation() {
    let mut memory = with_list();
    let batch = words(&[Op::at_key(id(2, 0), ROOT, b"k")]);
    assert_eq!(merge_number(&mut memory, &batch, 2), 1);
    assert_eq!(merge_number(&mut memory, &batch, 0), 1);
    assert_eq!(merge_number(&mut memory, &batch[..28], 1), 1);
    assert_eq!(merge_number(&mut memory, &[], u64::MAX), 1);
    // 29 times this claim is 29 in 64 bits
    assert_eq!(merge_number(&mut memory, &batch, (u64::MAX / 29 + 1).wrapping_mul(29).wrapping_add(1)), 1);
    assert_eq!(merge_number(&mut memory, &batch, 1), 0);
}

#[test]
fn every_lent_slice_has_its_size() {
    let slices: [fn(&mut Memory) -> &mut Vec<u64>; 3] = [|m| &mut m.rows, |m| &mut m.successors, |m| &mut m.work];
    for slice in slices {
        for change in [|length: usize| length - 1, |length| length + 1, |_| 0] {
            let mut memory = with_list();
            let length = change(slice(&mut memory).len());
            slice(&mut memory).resize(length, FILLER);
            memory.work.fill(FILLER);
            assert_eq!(merge_number(&mut memory, &[], 0), 1);
            assert_eq!(reference::picture(memory.lent(), &[], &mut [0; ENTRY]), Answer::refused(1, 0));
            assert_eq!(reference::spot(memory.lent(), &[], LIST, 0), Answer::refused(1, 0));
            assert!(memory.work.iter().all(|word| *word == FILLER), "after 1, working room is as it was");
        }
    }
}

#[test]
fn a_clock_has_64_words_or_none() {
    let mut memory = with_list();
    for length in [1, 63, 65, 128] {
        let clock = vec![0; length];
        assert_eq!(reference::picture(memory.lent(), &clock, &mut [0; ENTRY]), Answer::refused(1, 0));
        assert_eq!(reference::spot(memory.lent(), &clock, LIST, 0), Answer::refused(1, 0));
    }
    assert_eq!(reference::picture(memory.lent(), &[0; CLOCK], &mut [0; ENTRY]), Answer::accepted(0, 0));
    assert_eq!(reference::picture(memory.lent(), &[], &mut [0; ENTRY]), Answer::accepted(1, 0));
}

#[test]
fn claims_over_the_limits_are_2_however_short_the_output() {
    for claim in [4097, 1 << 32, u64::MAX] {
        let mut memory = with_list();
        memory.row_count = claim;
        assert_eq!(reference::picture(memory.lent(), &[], &mut []), Answer::refused(2, 0));
        assert_eq!(merge_number(&mut memory, &[], 0), 2);
    }
    for claim in [8193, u64::MAX] {
        let mut memory = with_list();
        memory.successor_count = claim;
        assert_eq!(merge_number(&mut memory, &[], 0), 2);
        assert_eq!(reference::spot(memory.lent(), &[], LIST, 0), Answer::refused(2, 0));
    }
}

#[test]
fn output_has_an_entry_for_each_claimed_row() {
    let mut memory = with_list();
    let mut short = [7; ENTRY - 1];
    assert_eq!(reference::picture(memory.lent(), &[], &mut short), Answer::refused(1, 0));
    assert_eq!(short, [7; ENTRY - 1]);
    let mut long = [7; ENTRY + 5];
    assert_eq!(reference::picture(memory.lent(), &[], &mut long), Answer::accepted(1, 0));
    assert_eq!(long[ENTRY..], [7; 5]);
}

#[test]
fn the_smaller_number_is_given() {
    let mut memory = with_list();
    memory.row_count = 4097;
    let many = vec![0; 257 * OPERATION];
    assert_eq!(merge_number(&mut memory, &many, 257), 2);
    memory.row_count = 1;
    assert_eq!(merge_number(&mut memory, &many, 257), 3);
    assert_eq!(merge_number(&mut memory, &many[..256 * OPERATION], 256), 4);
    memory.work.pop();
    assert_eq!(merge_number(&mut memory, &many, 257), 1);
}
