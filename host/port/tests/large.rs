//! The largest document: one picture, spots along its list, and merges.
use compare::cases::LIST;
use compare::layout::*;
use compare::operation::Op;
use port::large;
use port::player::Player;

#[test]
fn the_large_document_has_one_picture_and_its_spots() {
    let large = large::document(MAX_ROWS).unwrap();
    let elements = large.elements;
    let mut player = Player { memory: large.memory, ..Player::default() };
    assert_eq!([player.memory.row_count, player.memory.successor_count], [MAX_ROWS as u64, 7980]);
    assert!(player.picture(&[]).unwrap().is_accepted());
    for (target, number) in [(0, 0), (elements - 1, 0), (elements, 0), (elements + 1, 10)] {
        assert_eq!(player.spot(LIST, target, &[]).unwrap().number, number);
    }
}

#[test]
fn the_large_document_takes_a_delete_and_no_row() {
    let mut player = Player { memory: large::document(MAX_ROWS).unwrap().memory, ..Player::default() };
    let element = large::element(0);
    let set = Op::at_element(id(9000, 1), LIST, element);
    assert_eq!(player.merge(&[set]).unwrap().number, 9);
    assert_eq!(player.merge(&[set.act(DELETE).over(&[element])]).unwrap().values, [MAX_ROWS as u64, 7981]);
}

#[test]
fn a_full_batch_fills_the_document() {
    let large = large::document(MAX_ROWS - MAX_OPERATIONS).unwrap();
    let batch = large.batch();
    let mut player = Player { memory: large.memory, ..Player::default() };
    assert_eq!(player.merge(&batch).unwrap().values, [MAX_ROWS as u64, 7540]);
}
