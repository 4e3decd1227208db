//! Batches and documents that the rules refuse, with the answers they demand, read off the table by hand.
use super::table::{insert, make_list, script, LIST};
use crate::layout::*;
use crate::operation::{words, Op};
use crate::script::{Script, Step};

const MAP: u64 = id(2, 0);
const ELEMENT: u64 = id(3, 0);
const AT_K: u64 = id(4, 0);
const GONE: u64 = id(5, 0);

/// List 1@0 with element 3@0, map 2@0, Set 4@0 at ROOT key "k" that Delete 5@0 has deleted.
pub fn ground() -> Vec<Op> {
    vec![
        make_list(),
        Op::at_key(MAP, ROOT, b"m").act(MAKE_MAP),
        insert(ELEMENT, HEAD),
        Op::at_key(AT_K, ROOT, b"k").set(COUNTER, 1),
        Op::at_key(GONE, ROOT, b"k").act(DELETE).over(&[AT_K]),
    ]
}

fn at_k(counter: u64) -> Op {
    Op::at_key(id(counter, 0), ROOT, b"k")
}
fn on_element(counter: u64) -> Op {
    Op::at_element(id(counter, 0), LIST, ELEMENT)
}
fn with_word(mut op: Op, at: usize, word: u64) -> Op {
    op.0[at] = word;
    op
}

/// (why, number, place, batch), on the document that `ground` makes.
pub fn batches() -> Vec<(&'static str, u64, u64, Vec<Op>)> {
    let good = at_k(20);
    vec![
        ("an id with counter 0", 4, 1, vec![good, with_word(at_k(21), 0, 63)]),
        ("an id with a counter of 33 bits", 4, 0, vec![with_word(good, 0, 1 << 38)]),
        ("an object that is no id", 4, 0, vec![with_word(good, 1, 63)]),
        ("a kind of key 2", 4, 0, vec![with_word(good, 2, 2)]),
        ("an element in a map key", 4, 0, vec![with_word(good, 3, ELEMENT)]),
        ("an element that is no id", 4, 0, vec![with_word(on_element(20), 3, 1 << 38)]),
        ("a key of 25 bytes", 4, 0, vec![with_word(good, 4, 25)]),
        ("a byte past the key", 4, 0, vec![with_word(good, 4, 0)]),
        ("a key length in a list key", 4, 0, vec![with_word(on_element(20), 4, 1)]),
        ("insert flag 2", 4, 0, vec![with_word(good, 8, 2)]),
        ("action 4", 4, 0, vec![good.act(4)]),
        ("value kind 2", 4, 0, vec![good.set(2, 0)]),
        ("null with a value", 4, 0, vec![good.set(NULL, 1)]),
        ("boolean 2", 4, 0, vec![good.set(BOOLEAN, 2)]),
        ("a Make with a value", 4, 0, vec![with_word(good.act(MAKE_MAP), 11, 1)]),
        ("a Delete with a value kind", 4, 0, vec![with_word(at_k(20).act(DELETE).over(&[AT_K]), 10, 1)]),
        ("an Increment that is unsigned", 4, 0, vec![with_word(at_k(20).increment(1).over(&[AT_K]), 10, UNSIGNED)]),
        ("17 predecessors", 4, 0, vec![with_word(good, ROW, 17)]),
        ("a slot past the predecessors", 4, 0, vec![with_word(good, ROW + 1, AT_K)]),
        ("predecessors that do not ascend", 4, 0, vec![good.over(&[GONE, AT_K])]),
        ("a predecessor twice", 4, 0, vec![good.over(&[AT_K, AT_K])]),
        ("a predecessor that is no id", 4, 0, vec![good.over(&[1])]),
        ("a Delete over nothing", 4, 0, vec![good.act(DELETE)]),
        ("an Increment over nothing", 4, 0, vec![good.increment(1)]),
        ("an Increment as an insert", 4, 0, vec![insert(id(20, 0), HEAD).increment(1).over(&[AT_K])]),
        ("an insert over something", 4, 0, vec![insert(id(20, 0), HEAD).over(&[ELEMENT])]),
        ("HEAD without insert", 4, 0, vec![Op::at_element(id(20, 0), LIST, HEAD)]),
        ("a map key inserted, over something", 4, 0, vec![with_word(good, 8, 1).over(&[AT_K])]),
        ("4 comes before 5", 4, 1, vec![at_k(4), with_word(at_k(21), 8, 2)]),
        ("an id earlier in the batch", 5, 2, vec![at_k(20), at_k(21), at_k(20)]),
        ("a row's id", 5, 0, vec![at_k(4)]),
        ("a Delete's id", 5, 1, vec![good, at_k(5)]),
        ("an unknown object", 6, 0, vec![Op::at_key(id(20, 0), id(9, 9), b"k")]),
        ("an object that is a Set", 6, 0, vec![Op::at_key(id(20, 0), AT_K, b"k")]),
        ("an object that is made later", 6, 0, vec![Op::at_key(id(20, 0), id(21, 0), b"k"), at_k(21).act(MAKE_MAP)]),
        ("a list key in a map", 6, 0, vec![Op::insert_on(id(20, 0), MAP, HEAD)]),
        ("a map key in a list", 6, 0, vec![Op::at_key(id(20, 0), LIST, b"k")]),
        ("a map key inserted", 6, 0, vec![with_word(good, 8, 1)]),
        ("6 comes before 7", 6, 1, vec![insert(id(20, 0), id(9, 9)), Op::at_key(id(21, 0), id(9, 9), b"k")]),
        ("an insert on an unknown element", 7, 0, vec![insert(id(20, 0), id(9, 9))]),
        ("an update of an unknown element", 7, 0, vec![Op::at_element(id(20, 0), LIST, id(9, 9))]),
        ("an element with a greater id", 7, 0, vec![insert(id(20, 0), id(21, 0)), insert(id(21, 0), HEAD)]),
        ("an element that is no insert", 7, 1, vec![on_element(20), insert(id(21, 0), id(20, 0))]),
        ("a predecessor under another key", 8, 0, vec![Op::at_key(id(20, 0), ROOT, b"l").over(&[AT_K])]),
        ("a predecessor that is a Delete", 8, 0, vec![good.over(&[GONE])]),
        (
            "a predecessor that is an Increment",
            8,
            1,
            vec![at_k(20).increment(1).over(&[AT_K]), at_k(21).over(&[id(20, 0)])],
        ),
        ("a predecessor never met", 8, 0, vec![good.over(&[id(9, 9)])]),
        ("a predecessor with a greater id", 8, 0, vec![good.over(&[id(21, 0)]), at_k(21)]),
        ("a predecessor of another element", 8, 1, vec![insert(id(20, 0), ELEMENT), on_element(21).over(&[id(20, 0)])]),
    ]
}

/// (why, words of rows, words of successors): none is well-formed.
pub fn documents() -> Vec<(&'static str, Vec<u64>, Vec<u64>)> {
    let rows = |ops: &[Op]| words(ops).chunks(OPERATION).flat_map(|op| op[..ROW].to_vec()).collect::<Vec<u64>>();
    let set = at_k(4);
    let increment = at_k(5).increment(2);
    let counter = set.set(COUNTER, 1);
    let (owner, by) = (id(4, 0), id(5, 0));
    vec![
        ("a Delete row", rows(&[set.act(DELETE)]), vec![]),
        ("a malformed row", rows(&[with_word(set, 8, 2)]), vec![]),
        ("a row in an unknown object", rows(&[Op::at_key(id(4, 0), id(1, 0), b"k")]), vec![]),
        ("a row on an unknown element", rows(&[make_list(), insert(id(4, 0), id(3, 0))]), vec![]),
        ("a row twice", rows(&[set, set]), vec![]),
        ("ids that descend at a key", rows(&[at_k(5), set]), vec![]),
        ("keys that descend", rows(&[Op::at_key(id(5, 0), ROOT, b"l"), set]), vec![]),
        ("objects that descend", rows(&[insert(id(4, 0), HEAD), make_list()]), vec![]),
        ("siblings that ascend", rows(&[make_list(), insert(id(4, 0), HEAD), insert(id(5, 0), HEAD)]), vec![]),
        ("a successor of no row", rows(&[set]), vec![id(3, 0), by, 0, 0]),
        ("a successor twice", rows(&[set]), [[owner, by, 0, 0]; 2].concat()),
        ("successors that descend", rows(&[set]), [[owner, id(6, 0), 0, 0], [owner, by, 0, 0]].concat()),
        ("a successor smaller than its row", rows(&[set]), vec![owner, id(3, 0), 0, 0]),
        ("a successor that is no id", rows(&[set]), vec![owner, 1 << 38, 0, 0]),
        (
            "an Increment row with a successor",
            rows(&[counter, increment]),
            [[owner, by, 1, 2], [by, id(6, 0), 0, 0]].concat(),
        ),
        (
            "a successor that is an insert",
            rows(&[make_list(), insert(id(5, 0), HEAD), insert(id(4, 0), HEAD)]),
            vec![owner, by, 0, 0],
        ),
        ("a successor under another key", rows(&[set, Op::at_key(id(5, 0), ROOT, b"l")]), vec![owner, by, 0, 0]),
        (
            "a Delete under two keys",
            rows(&[set, Op::at_key(id(5, 0), ROOT, b"l")]),
            [[owner, id(6, 0), 0, 0], [by, id(6, 0), 0, 0]].concat(),
        ),
        ("an Increment over nothing", rows(&[counter, increment]), vec![]),
        ("an increment that is missing", rows(&[counter, increment]), vec![owner, by, 0, 0]),
        ("an increment that is another", rows(&[counter, increment]), vec![owner, by, 1, 3]),
        ("an increment of what is no counter", rows(&[set, increment]), vec![owner, by, 1, 2]),
        ("an increment by what is no Increment", rows(&[counter, at_k(5)]), vec![owner, by, 1, 0]),
        ("a number where no increment is", rows(&[set]), vec![owner, by, 0, 7]),
        ("an increment flag 2", rows(&[counter, increment]), vec![owner, by, 2, 2]),
        (
            "17 rows with one successor",
            rows(&(1..=17).map(at_k).collect::<Vec<_>>()),
            (1..=17).flat_map(|n| [id(n, 0), id(20, 0), 0, 0]).collect(),
        ),
    ]
}

pub fn scripts() -> Vec<Script> {
    let no_list = |list| Step::Spot { list, target: 0, clock: vec![] };
    let ground = Step::Merge(ground());
    let mut steps = vec![ground.clone()];
    steps.extend(batches().into_iter().map(|(.., batch)| Step::Merge(batch)));
    let mut unsound = vec![];
    for (_, rows, successors) in documents() {
        unsound.extend([Step::Document { rows, successors }, Step::Merge(vec![])]);
    }
    vec![
        script("refused batches", steps),
        script("documents that are not well-formed", unsound),
        script(
            "spots in what is no list",
            vec![ground, no_list(ROOT), no_list(MAP), no_list(ELEMENT), no_list(id(9, 9))],
        ),
    ]
}
