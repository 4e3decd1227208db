//! Ids that fall on one slot of the merge's tables (docs/DECISIONS.md): each is still told from the others.
use compare::cases::{make_list, LIST};
use compare::layout::*;
use compare::operation::Op;
use port::player::Player;

/// More than the rows that are guessed for an id.
const ROWS: u64 = 12;

/// All of them on one slot: the ids of one actor whose counters are as far apart as there are slots.
fn on_one_slot(n: u64) -> u64 {
    id(5 + n * MAX_ROWS as u64, 0)
}

fn list_of_rows_on_one_slot() -> Player {
    let mut player = Player::default();
    let rows: Vec<Op> = (0..ROWS).map(|n| Op::insert_on(on_one_slot(n), LIST, HEAD)).collect();
    assert!(player.merge(&[make_list()]).unwrap().is_accepted());
    assert!(player.merge(&rows).unwrap().is_accepted());
    player
}

#[test]
fn each_is_found_as_element_and_as_predecessor() {
    let mut player = list_of_rows_on_one_slot();
    let new = |n: u64| id(100_000 + n, 1);
    let named: Vec<Op> = (0..ROWS)
        .flat_map(|n| {
            let at = on_one_slot(n);
            [Op::insert_on(new(2 * n), LIST, at), Op::at_element(new(2 * n + 1), LIST, at).over(&[at])]
        })
        .collect();
    assert_eq!(player.merge(&named).unwrap().values, [1 + 3 * ROWS, ROWS]);
}

#[test]
fn one_that_is_not_there_is_missed() {
    let mut player = list_of_rows_on_one_slot();
    let there = Op::insert_on(id(100_000, 1), LIST, on_one_slot(0));
    let missing = Op::insert_on(id(100_001, 1), LIST, on_one_slot(ROWS));
    let answer = player.merge(&[there, missing]).unwrap();
    assert_eq!([answer.number, answer.values[0]], [7, 1]);
}

#[test]
fn new_ids_are_told_from_known_ones() {
    let mut player = list_of_rows_on_one_slot();
    let new: Vec<Op> = (ROWS..2 * ROWS).map(|n| Op::insert_on(on_one_slot(n), LIST, HEAD)).collect();
    let mut known = new.clone();
    known[5] = Op::insert_on(on_one_slot(3), LIST, HEAD);
    let answer = player.merge(&known).unwrap();
    assert_eq!([answer.number, answer.values[0]], [5, 5]);
    assert!(player.merge(&new).unwrap().is_accepted());
}
