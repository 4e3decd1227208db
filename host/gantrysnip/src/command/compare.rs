//! `compare`: whether two files of operations make the same document, and what differs first if not.
use super::merge::{row_line, successor_line};
use super::{arguments::Arguments, fine, input::Input, Failure, Outcome, REFUSED};
use gantrysnip::{Document, Operation};

struct Side {
    name: String,
    document: Document,
}

pub fn run(arguments: &Arguments) -> Result<Outcome, Failure> {
    let [a, b] = &arguments.files[..] else {
        return Err(arguments.misused("two files are compared"));
    };
    let side = |name: &String| {
        let document = Input::read(std::slice::from_ref(name))?.document()?;
        Ok::<Side, Failure>(Side { name: name.clone(), document })
    };
    let (a, b) = (side(a)?, side(b)?);
    if a.document == b.document {
        let (rows, successors) = (a.document.row_count(), a.document.successor_count());
        let operations = a.document.operations().len();
        return fine(format!("equal: {operations} operations, {rows} rows, {successors} successors\n"));
    }
    Ok(Outcome { text: differences(&a, &b), status: REFUSED })
}

fn differences(a: &Side, b: &Side) -> String {
    let lines = |lines: fn(&Document) -> Vec<String>| [lines(&a.document), lines(&b.document)];
    let rows = lines(|document| document.rows().map(|row| row_line(&row)).collect());
    let successors = lines(|document| document.successors().map(|entry| successor_line(&entry)).collect());
    let operation = first_operation(&a.document.operations(), &b.document.operations());
    let operation = operation.map(|both| told("the first operation that differs, by id", a, b, both));
    let row = first_place(&rows).map(|(at, both)| told(&format!("row {at}, counted from 0"), a, b, both));
    let successor = first_place(&successors);
    let successor = successor.map(|(at, both)| told(&format!("successor {at}, counted from 0"), a, b, both));
    ["different\n".into()].into_iter().chain(operation).chain(row).chain(successor).collect()
}

fn told(what: &str, a: &Side, b: &Side, [in_a, in_b]: [Option<String>; 2]) -> String {
    let line = |side: &Side, line: Option<String>| format!("  {}: {}\n", side.name, line.unwrap_or("none".into()));
    format!("{what}\n{}{}", line(a, in_a), line(b, in_b))
}

fn first_place([a, b]: &[Vec<String>; 2]) -> Option<(usize, [Option<String>; 2])> {
    let at = (0..a.len().max(b.len())).find(|at| a.get(*at) != b.get(*at))?;
    Some((at, [a.get(at).cloned(), b.get(at).cloned()]))
}

/// Both lists ascend by id: the smallest id under which they differ.
fn first_operation(a: &[Operation], b: &[Operation]) -> Option<[Option<String>; 2]> {
    let at = (0..a.len().max(b.len())).find(|at| a.get(*at) != b.get(*at))?;
    let (in_a, in_b) = (a.get(at), b.get(at));
    let least = in_a.into_iter().chain(in_b).map(Operation::id).min()?;
    Some([in_a, in_b].map(|operation| operation.filter(|found| found.id() == least).map(Operation::to_string)))
}
