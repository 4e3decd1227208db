//! What the rules say of the P cases, the edges and the refusals, written down by hand. Whoever can play steps is asked.
use super::*;
use crate::layout::*;
use crate::script::{Outcome, Step};

/// Plays steps from the empty document on, and gives what each of them gave.
pub type Play<'a> = &'a mut dyn FnMut(&[Step]) -> Vec<Outcome>;

/// A test for each group of cases, asked of a function that plays steps.
#[macro_export]
macro_rules! demanded_tests {
    ($play:expr) => {
        $crate::demanded_tests! { $play =>
            p1_p2_p3_the_order_of_siblings: the_order_of_siblings,
            p4_p5_a_conflict_and_its_end: a_conflict_and_its_end,
            p6_p7_totals: totals,
            p8_p9_increments_of_what_is_no_counter: increments_of_what_is_no_counter,
            p10_p11_spots: spots,
            p12_refused: ids_and_predecessors_refused,
            the_edges: edges,
            refused_batches_and_documents: refused,
        }
    };
    ($play:expr => $($test:ident: $cases:ident,)*) => {
        $(
            #[test]
            fn $test() {
                $crate::cases::demanded::$cases(&mut $play);
            }
        )*
    };
}

fn last(play: Play, steps: &[Step]) -> Outcome {
    play(steps).pop().unwrap()
}

/// The ids of rows, in document order.
pub fn rows(words: &[u64]) -> String {
    words.chunks(ROW).map(|row| shown(row[0])).collect::<Vec<_>>().join(" ")
}

/// Each successor entry as row<successor, with its increment in brackets.
pub fn successors(words: &[u64]) -> String {
    let entry = |s: &[u64]| {
        let increment = if s[2] == 1 { format!("({})", s[3] as i64) } else { String::new() };
        format!("{}<{}{increment}", shown(s[0]), shown(s[1]))
    };
    words.chunks(SUCCESSOR).map(entry).collect::<Vec<_>>().join(" ")
}

/// A picture as id, value, winner, conflict, mark.
fn seen(outcome: &Outcome) -> Vec<(String, i64, bool, bool, u64)> {
    let entry = |e: &[u64]| (shown(e[0]), e[10] as i64, e[11] == 1, e[12] == 1, e[13]);
    outcome.entries.chunks(ENTRY).map(entry).collect()
}

fn show(id: &str, value: i64, winner: bool, conflict: bool, mark: u64) -> (String, i64, bool, bool, u64) {
    (id.into(), value, winner, conflict, mark)
}

/// P1, P2, P3.
pub fn the_order_of_siblings(play: Play) {
    let mut whole = |steps: &[Step]| rows(&last(play, steps).rows);
    assert_eq!(whole(&[p1()]), "1@0 2@0 3@1 3@0");
    assert_eq!(whole(&[p1(), p2()]), "1@0 4@0 2@0 3@1 3@0");
    assert_eq!(whole(&[p1(), p2(), p3()]), "1@0 4@0 2@0 3@1 5@1 3@0");
}

/// P4, P5.
pub fn a_conflict_and_its_end(play: Play) {
    let element = id(2, 0);
    let mut of_element = |steps: &[Step]| {
        let outcome = last(play, &[steps, &[picture()]].concat());
        let own = outcome.entries.chunks(ENTRY).filter(|e| e[3] == element).map(|e| (shown(e[0]), e[11], e[12]));
        own.collect::<Vec<_>>()
    };
    let four = [p1(), p2(), p3(), p4()];
    assert_eq!(of_element(&four), [("6@0".to_string(), 0, 1), ("6@1".to_string(), 1, 1)]);
    let five = [&four[..], &[p5()]].concat();
    assert_eq!(of_element(&five), [("6@0".to_string(), 1, 0)]);
    assert_eq!(rows(&last(play, &five).rows), rows(&last(play, &four).rows));
    assert_eq!(successors(&last(play, &five).successors), "2@0<6@0 2@0<6@1 6@1<7@0");
}

/// P6, P7.
pub fn totals(play: Play) {
    let first_only = Step::Picture { clock: clock(&[(2, 0)]) };
    assert_eq!(seen(&last(play, &[p6(), picture()])), [show("1@0", 12, true, false, 0)]);
    assert_eq!(seen(&last(play, &[p6(), first_only])), [show("1@0", 15, true, false, 0)]);
    let [first, second] = p7();
    assert_eq!(seen(&last(play, &[first.clone(), picture()])), [show("1@0", 0, true, false, TOTAL_LOST)]);
    assert_eq!(seen(&last(play, &[first, second, picture()])), [show("1@0", i64::MAX, true, false, 0)]);
}

/// P8, P9.
pub fn increments_of_what_is_no_counter(play: Play) {
    assert_eq!(successors(&last(play, &[p8()]).successors), "1@0<2@0");
    assert_eq!(seen(&last(play, &[p8(), picture()])), []);
    assert_eq!(successors(&last(play, &[p9()]).successors), "1@0<2@0(1) 1@1<2@0");
    assert_eq!(seen(&last(play, &[p9(), picture()])), [show("1@0", 11, true, false, 0)]);
}

/// P10, P11.
pub fn spots(play: Play) {
    assert_eq!(last(play, &[p10(), spot(1)]).answer, [0, id(2, 0), 3]);
    assert_eq!(last(play, &[p11(), spot(0)]).answer, [0, HEAD, 1]);
    assert_eq!(last(play, &[p11(), spot(1)]).answer, [10, 0, 0]);
}

/// P12.
pub fn ids_and_predecessors_refused(play: Play) {
    let [ground, again, other_key] = p12();
    assert_eq!(last(play, &[ground.clone(), again]).answer, [5, 0, 0]);
    assert_eq!(last(play, &[ground, other_key]).answer, [8, 0, 0]);
}

pub fn edges(play: Play) {
    // the answers that the last steps of an edge's script give
    let mut edge = |name: &str, count: usize| {
        let script = scripts().into_iter().find(|script| script.name == name).unwrap();
        let answers: Vec<[u64; 3]> = play(&script.steps).iter().map(|outcome| outcome.answer).collect();
        answers[answers.len() - count..].to_vec()
    };
    assert_eq!(edge("empty document, empty batch", 3), [[0; 3], [0; 3], [12, 0, 0]]);
    assert_eq!(edge("4095 rows and one Set, then one more", 3), [[0, 4095, 0], [0, 4096, 0], [9, 0, 0]]);
    assert_eq!(edge("4096 rows and a Delete", 2), [[0, 4096, 0], [0, 4096, 1]]);
    assert_eq!(edge("batch of 256", 1), [[0, 256, 0]]);
    assert_eq!(edge("batch of 257", 1), [[3, 0, 0]]);
    let full = edge("8192 successors, then a Delete, then a Set", 3);
    assert_eq!(full, [[0, 528, 8192], [9, 0, 0], [0, 529, 8192]]);
    assert_eq!(edge("17 rows of one key, a Delete of 16 of them", 1), [[0, 17, 16]]);
}

pub fn refused(play: Play) {
    let ground = Step::Merge(refused_ground());
    for (why, number, place, batch) in refused_batches() {
        assert_eq!(last(play, &[ground.clone(), Step::Merge(batch)]).answer, [number, place, 0], "{why}");
    }
    for (why, rows, successors) in refused_documents() {
        let document = Step::Document { rows, successors };
        assert_eq!(last(play, &[document, Step::Merge(vec![])]).answer, [2, 0, 0], "{why}");
    }
}
