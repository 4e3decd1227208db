//! One line written.
use crate::{Action, Id, Operation, Place, Value};
use std::fmt::{self, Write};

/// The line of the text form. An operation that has none (the merge refuses it) is written as its words.
impl fmt::Display for Operation {
    fn fmt(&self, f: &mut fmt::Formatter<'_>) -> fmt::Result {
        match plain(self) {
            Some(line) => f.write_str(&line),
            None => {
                f.write_str("words")?;
                self.words().iter().try_for_each(|word| write!(f, " {word}"))
            }
        }
    }
}

/// None where the parts do not give the same words again, or an id is none.
fn plain(operation: &Operation) -> Option<String> {
    let over: Vec<Id> = operation.predecessors().collect();
    let (place, action) = (operation.place(), operation.action()?);
    let again = Operation::new(operation.id(), place, action).over(&over).ok()?;
    let (object, named) = match place {
        Place::Key { map, .. } => (map, None),
        Place::Element { list, element } => (list, Some(element)),
        Place::Insert { list, after } => (list, Some(after).filter(|after| *after != Id::HEAD)),
    };
    let object = Some(object).filter(|object| *object != Id::ROOT);
    let ids = [operation.id()].into_iter().chain(object).chain(named).chain(over.iter().copied());
    if again != *operation || !ids.into_iter().all(Id::is_operation) {
        return None;
    }
    let mut line = format!("{} {action} in {}", operation.id(), object.map_or("root".into(), |id| id.to_string()));
    match place {
        Place::Key { key, .. } => line += &format!(" at {key}"),
        Place::Element { element, .. } => line += &format!(" on {element}"),
        Place::Insert { .. } => line += &named.map_or(" after head".into(), |id| format!(" after {id}")),
    }
    if !over.is_empty() {
        line += " over";
        over.iter().for_each(|id| line += &format!(" {id}"));
    }
    Some(line)
}

impl fmt::Display for Action {
    fn fmt(&self, f: &mut fmt::Formatter<'_>) -> fmt::Result {
        match self {
            Action::MakeMap => f.write_str("make map"),
            Action::MakeList => f.write_str("make list"),
            Action::Set(value) => write!(f, "set {value}"),
            Action::Delete => f.write_str("delete"),
            Action::Increment(by) => write!(f, "increment {by}"),
        }
    }
}

impl fmt::Display for Value {
    fn fmt(&self, f: &mut fmt::Formatter<'_>) -> fmt::Result {
        match self {
            Value::Null => f.write_str("null"),
            Value::Boolean(value) => write!(f, "{value}"),
            Value::Unsigned(value) => write!(f, "unsigned {value}"),
            Value::Signed(value) => write!(f, "signed {value}"),
            Value::Counter(value) => write!(f, "counter {value}"),
            Value::Timestamp(value) => write!(f, "timestamp {value}"),
            // what is no number has many bits for one name
            Value::F64(bits) if f64::from_bits(*bits).is_nan() => write!(f, "bits {bits:#x}"),
            Value::F64(bits) => write!(f, "float {:?}", f64::from_bits(*bits)),
        }
    }
}

/// Bytes in quotes: plain text as it is, all else as \xNN.
pub fn quoted(bytes: &[u8]) -> String {
    let mut text = String::from('"');
    for chunk in bytes.utf8_chunks() {
        for character in chunk.valid().chars() {
            match character {
                '"' | '\\' => text.extend(['\\', character]),
                // what does not show, or turns the line round, would deceive a reader
                _ if is_plain(character) => text.push(character),
                _ => character.encode_utf8(&mut [0; 4]).bytes().for_each(|byte| hexadecimal(&mut text, byte)),
            }
        }
        chunk.invalid().iter().for_each(|byte| hexadecimal(&mut text, *byte));
    }
    text.push('"');
    text
}

fn is_plain(character: char) -> bool {
    character == ' ' || (character.is_alphanumeric() || character.is_ascii_punctuation())
}

fn hexadecimal(text: &mut String, byte: u8) {
    // writing to a String does not fail
    let _ = write!(text, "\\x{byte:02x}");
}
