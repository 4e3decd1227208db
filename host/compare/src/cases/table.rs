//! The P cases. List 1@0 sits at ROOT key "r".
use crate::layout::*;
use crate::operation::Op;
use crate::script::{Script, Step};

pub const LIST: u64 = id(1, 0);

pub fn make_list() -> Op {
    Op::at_key(LIST, ROOT, b"r").act(MAKE_LIST)
}
pub fn insert(at: u64, on: u64) -> Op {
    Op::insert_on(at, LIST, on)
}
/// A Set at ROOT key "c".
fn at_c(at: u64) -> Op {
    Op::at_key(at, ROOT, b"c")
}
pub fn clock(entries: &[(u64, usize)]) -> Vec<u64> {
    let mut clock = vec![0; CLOCK];
    for (counter, actor) in entries {
        clock[*actor] = *counter;
    }
    clock
}
pub fn picture() -> Step {
    Step::Picture { clock: vec![] }
}
pub fn spot(target: u64) -> Step {
    Step::Spot { list: LIST, target, clock: vec![] }
}
pub fn script(name: &str, steps: Vec<Step>) -> Script {
    Script { name: name.into(), steps }
}

pub fn p1() -> Step {
    Step::Merge(vec![make_list(), insert(id(2, 0), HEAD), insert(id(3, 0), id(2, 0)), insert(id(3, 1), id(2, 0))])
}
pub fn p2() -> Step {
    Step::Merge(vec![insert(id(4, 0), HEAD)])
}
pub fn p3() -> Step {
    Step::Merge(vec![insert(id(5, 1), id(3, 1))])
}
pub fn p4() -> Step {
    let on_2 = |at| Op::at_element(at, LIST, id(2, 0)).set(UNSIGNED, at).over(&[id(2, 0)]);
    Step::Merge(vec![on_2(id(6, 0)), on_2(id(6, 1))])
}
pub fn p5() -> Step {
    Step::Merge(vec![Op::at_element(id(7, 0), LIST, id(2, 0)).act(DELETE).over(&[id(6, 1)])])
}
pub fn p6() -> Step {
    let counter = at_c(id(1, 0)).set(COUNTER, 10);
    let add = |at, by| at_c(at).increment(by).over(&[id(1, 0)]);
    Step::Merge(vec![counter, add(id(2, 0), 5), add(id(3, 0), -3)])
}
/// The counter 2^63-1 and its first increment; the second takes the total back into range.
pub fn p7() -> [Step; 2] {
    let greatest = at_c(id(1, 0)).set(COUNTER, i64::MAX as u64);
    let add = |at, by| at_c(at).increment(by).over(&[id(1, 0)]);
    [Step::Merge(vec![greatest, add(id(2, 0), 1)]), Step::Merge(vec![add(id(3, 0), -1)])]
}
pub fn p8() -> Step {
    Step::Merge(vec![at_c(id(1, 0)).set(UNSIGNED, 5), at_c(id(2, 0)).increment(1).over(&[id(1, 0)])])
}
pub fn p9() -> Step {
    let both = [at_c(id(1, 0)).set(COUNTER, 10), at_c(id(1, 1)).set(UNSIGNED, 10)];
    Step::Merge([&both[..], &[at_c(id(2, 0)).increment(1).over(&[id(1, 0), id(1, 1)])]].concat())
}
pub fn p10() -> Step {
    let counter = insert(id(2, 0), HEAD).set(COUNTER, 10);
    let increment = Op::at_element(id(3, 0), LIST, id(2, 0)).increment(1).over(&[id(2, 0)]);
    Step::Merge(vec![make_list(), counter, increment])
}
pub fn p11() -> Step {
    Step::Merge(vec![make_list()])
}
/// A Set at "c" and its Delete 2@0; then that id again; then a predecessor under another key.
pub fn p12() -> [Step; 3] {
    [
        Step::Merge(vec![at_c(id(1, 0)), at_c(id(2, 0)).act(DELETE).over(&[id(1, 0)])]),
        Step::Merge(vec![at_c(id(2, 0))]),
        Step::Merge(vec![Op::at_key(id(3, 0), ROOT, b"d").over(&[id(1, 0)])]),
    ]
}

pub fn scripts() -> Vec<Script> {
    let look = |step: Step| vec![step, picture()];
    let list = vec![p1(), picture(), p2(), p3(), p4(), picture(), p5(), picture()];
    let spots = (0..=5).map(spot).collect();
    let first_only = Step::Picture { clock: clock(&[(2, 0)]) };
    let [p7_first, p7_second] = p7();
    vec![
        script("P1 P2 P3 P4 P5", [list, spots].concat()),
        script("P6", vec![p6(), picture(), first_only]),
        script("P7", vec![p7_first, picture(), p7_second, picture()]),
        script("P8", look(p8())),
        script("P9", look(p9())),
        script("P10", vec![p10(), spot(0), spot(1), spot(2)]),
        script("P11", vec![p11(), spot(0), spot(1)]),
        script("P12", p12().to_vec()),
    ]
}
