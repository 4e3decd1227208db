//! What the rules say of every history, asked of the reference alone.
use crate::generate::cut;
use crate::history::History;
use crate::layout::*;
use crate::memory::{Memory, FILLER, REFUSED};
use crate::operation::Op;
use crate::random::Random;
use crate::reference::document::Document;
use crate::reference::row::Operation;
use crate::reference::visible::Clock;
use crate::reference::{merge, picture, spot};

pub fn hold(history: &History) -> Result<(), String> {
    let mut memory = Memory::default();
    history.batches.iter().try_for_each(|batch| memory.grow(batch))?;
    slots_past_the_counts_are_kept(&memory)?;
    let document = memory.document();
    let operations: Vec<Op> = history.operations().copied().collect();
    let mut random = Random::new(operations.len() as u64);
    if merged(&Document::default(), &cut(&mut random, &operations))? != document {
        return Err("another cutting gives another document".into());
    }
    spots_are_where_inserts_go(&document)?;
    let closed = history.clocks.iter().map(|clock| Clock(clock)).filter(|clock| is_closed(*clock, &operations));
    closed.into_iter().try_for_each(|clock| shows_covered_alone(&operations, &document, clock))
}

fn slots_past_the_counts_are_kept(memory: &Memory) -> Result<(), String> {
    let (rows, successors) = (memory.row_words().len(), memory.successor_words().len());
    let kept = memory.rows[rows..].iter().chain(&memory.successors[successors..]).all(|word| *word == FILLER);
    kept.then_some(()).ok_or("slots past the counts in use have changed".into())
}

/// Merges as the rules define them, without lent memory.
fn merged<B: AsRef<[Op]>>(document: &Document, batches: &[B]) -> Result<Document, String> {
    batches.iter().try_fold(document.clone(), |document, batch| {
        let operations: Vec<Operation> = batch.as_ref().iter().map(|op| Operation(&op.0)).collect();
        merge::merged(&document, &operations).map_err(|refusal| format!("{REFUSED}: {refusal:?}"))
    })
}

/// "It is where the merge puts an insert on that element whose id exceeds all others."
fn spots_are_where_inserts_go(document: &Document) -> Result<(), String> {
    let greatest = id(MAX_COUNTER, ACTORS - 1);
    for list in document.rows.iter().filter(|row| row.action() == MAKE_LIST).map(|row| row.id()) {
        for target in 0.. {
            let Some((element, place)) = spot::find(document, Clock(&[]), list, target) else { break };
            let after = merged(document, &[[Op::insert_on(greatest, list, element)]])?;
            if after.place_of(greatest) != Some(place as usize) {
                return Err(format!("an insert on {} does not go to the spot {place}", shown(element)));
            }
        }
    }
    Ok(())
}

/// Whether a clock covers all that its covered operations refer to.
fn is_closed(clock: Clock, operations: &[Op]) -> bool {
    let covered = operations.iter().filter(|op| clock.covers(op.id()));
    covered.flat_map(Op::references).all(|id| clock.covers(id))
}

/// "Two documents with the same covered operations have the same picture": the second has no others.
fn shows_covered_alone(operations: &[Op], document: &Document, clock: Clock) -> Result<(), String> {
    let mut covered: Vec<Op> = operations.iter().copied().filter(|op| clock.covers(op.id())).collect();
    // what an operation refers to has a smaller id
    covered.sort_by_key(Op::id);
    let batches: Vec<&[Op]> = covered.chunks(MAX_OPERATIONS).collect();
    let alone = merged(&Document::default(), &batches)?;
    if picture::entries(&alone, Clock(&[])) == picture::entries(document, clock) {
        Ok(())
    } else {
        Err(format!("the picture under the clock {:?} is not that of the covered operations", clock.0))
    }
}
