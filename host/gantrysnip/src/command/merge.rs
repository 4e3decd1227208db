//! `merge`: the operations of all files, merged.
use super::{arguments::Arguments, fine, input::Input, table::Table, tell, Failure, Outcome};
use gantrysnip::sizes::MAX_BATCH;
use gantrysnip::{text, Document, Operation, Row, Successor};

pub fn run(arguments: &Arguments) -> Result<Outcome, Failure> {
    let input = Input::read(arguments.some_files()?)?;
    let document = input.document()?;
    let count = input.operations.len();
    let repeated = if input.repeated > 0 { format!(", {} of them more than once", input.repeated) } else { "".into() };
    tell(&format!(
        "merged {count} operations{repeated}, batches: {}, rows: {}, successors: {}",
        count.div_ceil(MAX_BATCH),
        document.row_count(),
        document.successor_count()
    ));
    if arguments.has("--rows") {
        fine(rows(&document))
    } else {
        fine(text::written(&document.operations()))
    }
}

/// Rows in document order and successors by row, as the engine keeps them.
fn rows(document: &Document) -> String {
    let mut table = Table::new(&["row", "what"]);
    for (place, row) in document.rows().enumerate() {
        table.line([place.to_string(), row_line(&row)]);
    }
    let mut successors = Table::new(&["successor", "what"]);
    for (place, successor) in document.successors().enumerate() {
        successors.line([place.to_string(), successor_line(&successor)]);
    }
    format!("{table}\n{successors}")
}

pub fn row_line(row: &Row) -> String {
    let action = row.action().map(|action| Operation::new(row.id(), row.place(), action).to_string());
    action.unwrap_or_else(|| format!("{:?}", row.words()))
}

pub fn successor_line(successor: &Successor) -> String {
    let adds = successor.increment().map_or(String::new(), |by| format!(", adding {by}"));
    format!("{} over {}{adds}", successor.id(), successor.row())
}
