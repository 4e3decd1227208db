//! Every refusal by its number and place, with the document as it was.
use compare::cases::{refused_batches, refused_documents, refused_ground};
use compare::operation::Op;
use compare::random::Random;
use gantrysnip::sizes::*;
use gantrysnip::{Action, Clock, Document, Id, Key, Operation, Refusal, Unfit, Value};

fn operations(batch: &[Op]) -> Vec<Operation> {
    batch.iter().map(|op| Operation::from_words(op.0)).collect()
}

fn ground() -> Document {
    let mut document = Document::new();
    document.merge(&operations(&refused_ground())).unwrap();
    document
}

fn set(counter: u64) -> Operation {
    let key = Key::new(format!("key {counter}")).unwrap();
    Operation::at_key(Id::new(counter, 0).unwrap(), Id::ROOT, key, Action::Set(Value::Null))
}

#[test]
fn refused_batches_have_their_numbers_and_places() {
    let before = ground();
    for (why, number, place, batch) in refused_batches() {
        let mut document = before.clone();
        let refusal = document.merge(&operations(&batch)).unwrap_err();
        assert_eq!((refusal.number(), refusal.operation()), (number, Some(place as usize)), "{why}");
        assert_eq!(refusal.place(), place as usize);
        assert_eq!(document, before, "{why}");
    }
}

#[test]
fn what_is_no_document_is_refused() {
    for (why, rows, successors) in refused_documents() {
        assert_eq!(Document::from_words(&rows, &successors), Err(Refusal::Document), "{why}");
    }
    assert_eq!(Document::from_words(&[0; ROW_WORDS + 1], &[]), Err(Refusal::Size));
    assert_eq!(Document::from_words(&[], &[0; SUCCESSOR_WORDS - 1]), Err(Refusal::Size));
    assert_eq!(Document::from_words(&[0; ROW_WORDS * (MAX_ROWS + 1)], &[]), Err(Refusal::Document));
}

#[test]
fn long_batches_and_full_documents_are_refused() {
    let batch: Vec<Operation> = (1..=257).map(set).collect();
    let mut document = Document::new();
    assert_eq!(document.merge(&batch), Err(Refusal::Batch));
    document.merge(&batch[..256]).unwrap();
    document.merge(&[]).unwrap();
    let many: Vec<Operation> = (257..=4096).map(set).collect();
    document.merge_all(&many, |_| ()).unwrap();
    assert_eq!(document.merge(&[set(4097)]), Err(Refusal::Full));
    let delete = Operation::new(Id::new(5000, 1).unwrap(), set(1).place(), Action::Delete);
    document.merge(&[delete.over(&[set(1).id()]).unwrap()]).unwrap();
    assert_eq!((document.row_count(), document.successor_count()), (4096, 1));
}

#[test]
fn merge_all_is_all_or_nothing_and_counts_as_given() {
    let mut operations: Vec<Operation> = (1..=600).rev().map(set).collect();
    let mut document = Document::new();
    let stray = Operation::insert(Id::new(590, 1).unwrap(), Id::new(9, 9).unwrap(), Id::HEAD, Action::MakeMap);
    operations.insert(3, stray);
    assert_eq!(document.merge_all(&operations, |_| ()), Err(Refusal::Object { operation: 3 }));
    assert_eq!(document, Document::new());
}

#[test]
fn any_words_are_answered() {
    let mut random = Random::new(1);
    let mut document = ground();
    for round in 0..200 {
        let mut words: Vec<u64> = refused_ground().iter().flat_map(|op| op.0).collect();
        words.truncate(random.below(words.len() + 1));
        for word in words.iter_mut() {
            if random.chance(round % 30) {
                *word = [random.word(), 0, 1, 63, 64, u64::MAX][random.below(6)];
            }
        }
        let _ = document.merge_words(&words);
        let _ = Document::from_words(&words, &words).is_ok();
        let spot = document.spot(&Clock::nothing(), Id::from_word(random.word()), random.word());
        assert!(matches!(spot, Err(Refusal::NoList | Refusal::Target)));
    }
}

#[test]
fn parts_out_of_range_are_not_built() {
    let id = |counter| Id::new(counter, 0).unwrap();
    assert_eq!(Id::new(MAX_COUNTER + 1, 0), Err(Unfit::Counter(MAX_COUNTER + 1)));
    assert_eq!(Id::new(1, 64), Err(Unfit::Actor(64)));
    assert_eq!(set(30).over(&[id(2), id(1), id(2)]), Err(Unfit::Twice(id(2))));
    let many: Vec<Id> = (1..=17).map(id).collect();
    assert_eq!(set(30).over(&many), Err(Unfit::Predecessors(17)));
    assert!(set(30).over(&many[..16]).is_ok());
    assert_eq!(Clock::nothing().with(64, 1), Err(Unfit::Actor(64)));
}

#[test]
fn every_refusal_has_a_number_and_a_sentence() {
    for number in 0..=12 {
        let (sentence, advice) = gantrysnip::explanation(number).unwrap();
        assert!(!sentence.is_empty() && advice.ends_with('.'));
    }
    assert_eq!(
        Refusal::Element { operation: 2 }.to_string(),
        "refused with 7, operation 2 counted from 0: the element that it names is no element of that list"
    );
}
