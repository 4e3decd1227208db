//! Random histories through the crate and by the reference: the same documents, pictures and spots.
use compare::generate;
use compare::layout::{self, ENTRY};
use compare::memory::Memory;
use compare::operation::Op;
use compare::random::Random;
use compare::reference;
use gantrysnip::{Clock, Document, Id, Operation};

fn operations(batch: &[Op]) -> Vec<Operation> {
    batch.iter().map(|op| Operation::from_words(op.0)).collect()
}

fn clock(words: &[u64]) -> Clock {
    words.try_into().map_or(Clock::everything(), Clock::from_words)
}

fn same_views(document: &Document, memory: &mut Memory, words: &[u64], lists: &[u64]) {
    let mut output = vec![0; layout::MAX_ROWS * ENTRY];
    let answer = reference::picture(memory.lent(), words, &mut output);
    let picture = document.picture(&clock(words)).unwrap();
    assert_eq!(picture.words(), &output[..answer.values[0] as usize * ENTRY]);
    for list in lists {
        for target in [0, 1, 2, 5, 1000] {
            let expected = reference::spot(memory.lent(), words, *list, target);
            match document.spot(&clock(words), Id::from_word(*list), target) {
                Ok(spot) => assert_eq!((0, [spot.after.word(), spot.place as u64]), (expected.number, expected.values)),
                Err(refusal) => assert_eq!(refusal.number(), expected.number),
            }
        }
    }
}

#[test]
fn histories_go_as_by_the_reference() {
    for seed in 0..60 {
        let history = generate::history(&mut Random::new(seed));
        let (mut document, mut memory) = (Document::new(), Memory::default());
        for batch in &history.batches {
            memory.grow(batch).unwrap();
            document.merge(&operations(batch)).unwrap();
            assert_eq!(document.row_words(), memory.row_words());
            assert_eq!(document.successor_words(), memory.successor_words());
        }
        let made = |op: &&Op| op.row().action() == layout::MAKE_LIST;
        let lists: Vec<u64> = history.operations().filter(made).take(3).map(Op::id).chain([0, 63, 64]).collect();
        for words in &history.clocks {
            same_views(&document, &mut memory, words, &lists);
        }
    }
}

#[test]
fn a_document_gives_its_operations_back() {
    for seed in 100..130 {
        let history = generate::history(&mut Random::new(seed));
        let mut all: Vec<Operation> = history.batches.iter().flat_map(|batch| operations(batch)).collect();
        let mut document = Document::new();
        document.merge_all(&all, |_| ()).unwrap();
        all.sort_by_key(Operation::id);
        assert_eq!(document.operations(), all);
        let again = Document::from_words(document.row_words(), document.successor_words());
        assert_eq!(again, Ok(document));
    }
}

#[test]
fn each_cutting_gives_the_same_document() {
    let history = generate::history(&mut Random::new(7));
    let all: Vec<Operation> = history.batches.iter().flat_map(|batch| operations(batch)).collect();
    let (mut at_once, mut in_batches) = (Document::new(), Document::new());
    at_once.merge_all(&all, |_| ()).unwrap();
    history.batches.iter().for_each(|batch| in_batches.merge(&operations(batch)).unwrap());
    assert_eq!(at_once, in_batches);
}
