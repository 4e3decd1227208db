//! One call by the proved code and by the reference: answers, every word of every lent slice, and what lies around it.
use crate::fenced::Fenced;
use crate::given::{Given, Part};
use compare::damage::{Claim, Slice};
use compare::layout::*;
use compare::memory::FILLER;
use compare::reference::{self, Answer};
use gantrysnip::calls;

const SLICES: [Slice; 6] = [Slice::Rows, Slice::Successors, Slice::Work, Slice::Batch, Slice::Clock, Slice::Output];

/// The room that both work in, used again for each call.
#[derive(Default)]
pub struct Both {
    /// Lent to the proved code.
    lent: [Fenced; 6],
    answer: Fenced,
    /// Lent to the reference.
    rows: Room,
    successors: Room,
    work: Room,
    output: Room,
}

/// A slice for the reference, which writes no other words than its answer tells.
#[derive(Default)]
struct Room {
    words: Vec<u64>,
    /// From this word on they are `FILLER`.
    rest: usize,
}

impl Room {
    fn hold(&mut self, Part { used, length }: &Part) {
        if self.words.len() != *length {
            self.words.clear();
            self.words.resize(*length, FILLER);
        }
        let used = &used[..used.len().min(*length)];
        self.words[..used.len()].copy_from_slice(used);
        let rest = self.rest.min(*length);
        if used.len() < rest {
            self.words[used.len()..rest].fill(FILLER);
        }
        self.rest = used.len();
    }
    /// The first words, which the reference has written.
    fn written(&mut self, count: usize) -> &[u64] {
        self.rest = self.rest.max(count);
        &self.words[..count]
    }
}

/// What the proved code has made of a document.
pub struct Document<'a> {
    pub rows: &'a [u64],
    pub successors: &'a [u64],
}

impl Both {
    pub fn merge(&mut self, given: &Given) -> Result<Answer, String> {
        self.lend(given);
        self.merged(given)
    }

    pub fn picture(&mut self, given: &Given) -> Result<Answer, String> {
        self.lend(given);
        self.pictured(given)
    }

    pub fn spot(&mut self, given: &Given) -> Result<Answer, String> {
        self.lend(given);
        self.spotted(given)
    }

    /// Spot, picture and merge on the same slices: the first two leave the document as it is.
    pub fn all(&mut self, given: &Given) -> Result<[Answer; 3], String> {
        self.lend(given);
        let spotted = self.spotted(given)?;
        self.lend_anew(given);
        let pictured = self.pictured(given)?;
        self.lend_anew(given);
        Ok([spotted, pictured, self.merged(given)?])
    }

    /// What the last merge left, which was accepted with this answer.
    pub fn document(&self, answer: Answer) -> Document<'_> {
        let [rows, successors] = answer.values.map(|count| count as usize);
        Document {
            rows: &self.lent(Slice::Rows).words()[..rows * ROW],
            successors: &self.lent(Slice::Successors).words()[..successors * SUCCESSOR],
        }
    }

    /// What the last picture wrote.
    pub fn entries(&self, answer: Answer) -> &[u64] {
        &self.lent(Slice::Output).words()[..answer.values[0] as usize * ENTRY]
    }

    fn lent(&self, slice: Slice) -> &Fenced {
        &self.lent[slice as usize]
    }

    fn lend(&mut self, given: &Given) {
        for slice in SLICES {
            let Part { used, length } = given.part(slice);
            self.lent[slice as usize].hold(used, *length);
        }
        self.answer.hold(&[], given.answer);
        self.rows.hold(given.part(Slice::Rows));
        self.successors.hold(given.part(Slice::Successors));
        self.work.hold(given.part(Slice::Work));
        self.output.hold(given.part(Slice::Output));
    }

    /// What every call writes, as it was.
    fn lend_anew(&mut self, given: &Given) {
        for slice in [Slice::Work, Slice::Output] {
            self.lent[slice as usize].hold(&[], given.part(slice).length);
        }
        self.answer.hold(&[], given.answer);
    }

    fn merged(&mut self, given: &Given) -> Result<Answer, String> {
        let batch = self.lent[Slice::Batch as usize].words();
        let lent = lent_to_reference(given, &mut self.rows.words, &mut self.successors.words, &mut self.work.words);
        let expected = reference::merge(lent, batch, given.claim(Claim::Operations));
        let first = self.real_merge(given);
        let [mut rows, mut successors] = [Slice::Rows, Slice::Successors].map(|slice| given.part(slice).used.clone());
        if expected.is_accepted() {
            let [row_count, successor_count] = expected.values.map(|count| count as usize);
            rows = given.part(Slice::Rows).after(self.rows.written(row_count * ROW));
            successors = given.part(Slice::Successors).after(self.successors.written(successor_count * SUCCESSOR));
        }
        self.answered(given, expected, first)
            .and_then(|_| self.left(Slice::Rows, &rows))
            .and_then(|_| self.left(Slice::Successors, &successors))
            .and_then(|_| self.left(Slice::Output, &[]))
            .map_err(|e| format!("merge: {e}"))?;
        Ok(expected)
    }

    fn pictured(&mut self, given: &Given) -> Result<Answer, String> {
        let clock = self.lent[Slice::Clock as usize].words();
        let lent = lent_to_reference(given, &mut self.rows.words, &mut self.successors.words, &mut self.work.words);
        let expected = reference::picture(lent, clock, &mut self.output.words);
        let first = self.real_picture(given);
        let entries = if expected.is_accepted() { expected.values[0] as usize } else { 0 };
        let written = self.output.written(entries * ENTRY).to_vec();
        self.answered(given, expected, first)
            .and_then(|_| self.document_is(given))
            .and_then(|_| self.left(Slice::Output, &written))
            .map_err(|e| format!("picture: {e}"))?;
        Ok(expected)
    }

    fn spotted(&mut self, given: &Given) -> Result<Answer, String> {
        let clock = self.lent[Slice::Clock as usize].words();
        let lent = lent_to_reference(given, &mut self.rows.words, &mut self.successors.words, &mut self.work.words);
        let expected = reference::spot(lent, clock, given.claim(Claim::List), given.claim(Claim::Target));
        let first = self.real_spot(given);
        self.answered(given, expected, first)
            .and_then(|_| self.document_is(given))
            .and_then(|_| self.left(Slice::Output, &[]))
            .map_err(|e| format!("spot: {e}"))?;
        Ok(expected)
    }

    fn real_merge(&mut self, given: &Given) -> u64 {
        let [rows, successors, work, batch, ..] = &mut self.lent;
        let lent = calls::LentToChange {
            rows: rows.words_mut(),
            row_count: given.claim(Claim::Rows),
            successors: successors.words_mut(),
            successor_count: given.claim(Claim::Successors),
        };
        let count = given.claim(Claim::Operations);
        calls::merge(lent, batch.words(), count, work.words_mut(), self.answer.words_mut())
    }

    fn real_picture(&mut self, given: &Given) -> u64 {
        let [rows, successors, work, _, clock, output] = &mut self.lent;
        let lent = lent_to_read(given, rows, successors, clock);
        calls::picture(lent, output.words_mut(), work.words_mut(), self.answer.words_mut())
    }

    fn real_spot(&mut self, given: &Given) -> u64 {
        let [rows, successors, work, _, clock, _] = &mut self.lent;
        let lent = lent_to_read(given, rows, successors, clock);
        let [list, target] = [Claim::List, Claim::Target].map(|claim| given.claim(claim));
        calls::spot(lent, list, target, work.words_mut(), self.answer.words_mut())
    }

    /// The answer is the expected one, working room is zero except after 1, batch and clock are as they were.
    fn answered(&self, given: &Given, expected: Answer, first: u64) -> Result<(), String> {
        let words = [expected.number, expected.values[0], expected.values[1]];
        let given_words = self.answer.words();
        ensure(self.answer.is(&words), || format!("the proved code answers {given_words:?}, the reference {words:?}"))?;
        ensure(first == words[0], || format!("{first} came back, and {words:?} was written"))?;
        self.left(Slice::Work, if expected.number == 1 { &[] } else { &[0; WORK] })?;
        self.left(Slice::Batch, &given.part(Slice::Batch).used)?;
        self.left(Slice::Clock, &given.part(Slice::Clock).used)
    }

    fn left(&self, slice: Slice, words: &[u64]) -> Result<(), String> {
        ensure(self.lent(slice).is(words), || {
            format!("{slice:?}: a word, or one around them, is not what it should be")
        })
    }

    fn document_is(&self, given: &Given) -> Result<(), String> {
        self.left(Slice::Rows, &given.part(Slice::Rows).used)?;
        self.left(Slice::Successors, &given.part(Slice::Successors).used)
    }

    /// An answer of a length other than 3: each call gives 1 and writes nothing.
    pub fn no_room_for_the_answer(&mut self, given: &Given) -> Result<(), String> {
        self.lend(given);
        let firsts = [self.real_spot(given), self.real_picture(given), self.real_merge(given)];
        ensure(firsts == [1; 3], || format!("an answer of {} words gives {firsts:?}", given.answer))?;
        ensure(self.answer.is(&[]), || "the answer's words have changed".into())?;
        SLICES.into_iter().try_for_each(|slice| self.left(slice, &given.part(slice).used))
    }
}

fn lent_to_reference<'a>(
    given: &Given,
    rows: &'a mut [u64],
    successors: &'a mut [u64],
    work: &'a mut [u64],
) -> reference::Lent<'a> {
    let [row_count, successor_count] = [Claim::Rows, Claim::Successors].map(|claim| given.claim(claim));
    reference::Lent { rows, row_count, successors, successor_count, work }
}

fn lent_to_read<'a>(given: &Given, rows: &'a Fenced, successors: &'a Fenced, clock: &'a Fenced) -> calls::Lent<'a> {
    calls::Lent {
        rows: rows.words(),
        row_count: given.claim(Claim::Rows),
        successors: successors.words(),
        successor_count: given.claim(Claim::Successors),
        clock: clock.words(),
    }
}

fn ensure(holds: bool, sentence: impl FnOnce() -> String) -> Result<(), String> {
    if holds {
        Ok(())
    } else {
        Err(sentence())
    }
}
