//! Why an operation was refused, in words about the operations that it names. The refusal itself is the engine's.
use gantrysnip::{Action, Id, Operation, Place, Refusal};

/// None where there is no more to say than the refusal does.
pub fn of(refusal: Refusal, operation: &Operation, all: &[Operation]) -> Option<String> {
    match refusal {
        Refusal::Malformed { .. } => malformed(operation).map(String::from),
        Refusal::Object { .. } => object(operation, all),
        Refusal::Element { .. } => element(operation, all),
        Refusal::Predecessor { .. } => operation.predecessors().find_map(|id| predecessor(operation, id, all)),
        _ => None,
    }
}

fn malformed(operation: &Operation) -> Option<&'static str> {
    let insert = matches!(operation.place(), Place::Insert { .. });
    let over = operation.predecessors().next().is_some();
    match operation.action()? {
        Action::Delete if insert => Some("A delete is no insert: on names the element."),
        Action::Increment(_) if insert => Some("An increment is no insert: on names the element."),
        Action::Delete if !over => Some("A delete is over at least one operation."),
        Action::Increment(_) if !over => Some("An increment is over at least one operation."),
        _ if insert && over => Some("An insert is over nothing."),
        _ => None,
    }
}

fn found(id: Id, all: &[Operation]) -> Option<&Operation> {
    all.iter().find(|other| other.id() == id)
}

/// What is wrong with `id` for an operation that may name only smaller ones that are there.
fn absent(operation: &Operation, id: Id, all: &[Operation]) -> Option<String> {
    if found(id, all).is_none() {
        Some(format!("No operation of the input has the id {id}."))
    } else if id >= operation.id() {
        Some(format!("{id} is not smaller than {}.", operation.id()))
    } else {
        None
    }
}

fn object(operation: &Operation, all: &[Operation]) -> Option<String> {
    let id = operation.row().object();
    let keyed = matches!(operation.place(), Place::Key { .. });
    if id == Id::ROOT {
        return (!keyed).then(|| "Root is a map: it has keys and no elements.".into());
    }
    absent(operation, id, all).or_else(|| match found(id, all)?.action()? {
        Action::MakeMap if !keyed => Some(format!("{id} is a map: it has keys and no elements.")),
        Action::MakeList if keyed => Some(format!("{id} is a list: it has elements and no keys.")),
        Action::MakeMap | Action::MakeList => None,
        _ => Some(format!("{id} makes neither a map nor a list.")),
    })
}

fn element(operation: &Operation, all: &[Operation]) -> Option<String> {
    let (Place::Element { list, element: id } | Place::Insert { list, after: id }) = operation.place() else {
        return None;
    };
    absent(operation, id, all).or_else(|| match found(id, all)?.place() {
        Place::Insert { list: other, .. } if other == list => None,
        Place::Insert { list: other, .. } => Some(format!("{id} is an element of {other}.")),
        _ => Some(format!("{id} is no insert, so no element has its name.")),
    })
}

fn predecessor(operation: &Operation, id: Id, all: &[Operation]) -> Option<String> {
    absent(operation, id, all).or_else(|| {
        let other = found(id, all)?;
        let at = |operation: &Operation| match operation.row().element() {
            Some(element) => Place::Element { list: operation.row().object(), element },
            None => operation.place(),
        };
        match other.action()? {
            Action::Delete => Some(format!("{id} is a delete, and nothing is over a delete.")),
            Action::Increment(_) => Some(format!("{id} is an increment, and nothing is over an increment.")),
            _ if at(other) != at(operation) => Some(format!("{id} stands at another key or element.")),
            _ => None,
        }
    })
}
