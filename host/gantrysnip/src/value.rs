//! Values, places and actions: what an operation does, and where.
use crate::{Id, Key};

/// A value of a Set.
#[derive(Clone, Copy, Debug, PartialEq, Eq, Hash)]
pub enum Value {
    Null,
    Boolean(bool),
    Unsigned(u64),
    Signed(i64),
    /// The bits of an f64, which the engine never computes with; see [`Value::float`].
    F64(u64),
    Counter(i64),
    Timestamp(i64),
}

/// Where an operation applies.
#[derive(Clone, Copy, Debug, PartialEq, Eq, Hash)]
pub enum Place {
    /// A key of a map, which is [`Id::ROOT`] or the id of the operation that made it.
    Key { map: Id, key: Key },
    /// An element of a list, named by the id of its insert.
    Element { list: Id, element: Id },
    /// A new element of a list, after another one or after [`Id::HEAD`].
    Insert { list: Id, after: Id },
}

/// What an operation does there.
#[derive(Clone, Copy, Debug, PartialEq, Eq, Hash)]
pub enum Action {
    MakeMap,
    MakeList,
    Set(Value),
    /// Needs at least one predecessor, and is no insert.
    Delete,
    /// Needs at least one predecessor, and is no insert. It raises those that are counters and overwrites the others.
    Increment(i64),
}

const MAKE_MAP: u64 = 0;
const SET: u64 = 1;
const MAKE_LIST: u64 = 2;
const DELETE: u64 = 3;
const INCREMENT: u64 = 5;
const SIGNED: u64 = 4;

impl Value {
    /// The bits of this number.
    ///
    /// ```
    /// assert_eq!(gantrysnip::Value::float(1.0), gantrysnip::Value::F64(0x3ff0_0000_0000_0000));
    /// ```
    pub fn float(number: f64) -> Value {
        Value::F64(number.to_bits())
    }

    /// Words 10 and 11 of a row: the kind and the value.
    pub(crate) fn words(self) -> [u64; 2] {
        match self {
            Value::Null => [0, 0],
            Value::Boolean(value) => [1, value as u64],
            Value::Unsigned(value) => [3, value],
            Value::Signed(value) => [SIGNED, value as u64],
            Value::F64(bits) => [5, bits],
            Value::Counter(value) => [8, value as u64],
            Value::Timestamp(value) => [9, value as u64],
        }
    }

    /// None for a kind that there is not.
    pub(crate) fn from_words(kind: u64, value: u64) -> Option<Value> {
        Some(match kind {
            0 => Value::Null,
            1 => Value::Boolean(value != 0),
            3 => Value::Unsigned(value),
            SIGNED => Value::Signed(value as i64),
            5 => Value::F64(value),
            8 => Value::Counter(value as i64),
            9 => Value::Timestamp(value as i64),
            _ => return None,
        })
    }
}

impl Action {
    /// Words 9 to 11 of a row.
    pub(crate) fn words(self) -> [u64; 3] {
        match self {
            Action::MakeMap => [MAKE_MAP, 0, 0],
            Action::MakeList => [MAKE_LIST, 0, 0],
            Action::Delete => [DELETE, 0, 0],
            Action::Increment(by) => [INCREMENT, SIGNED, by as u64],
            Action::Set(value) => {
                let [kind, word] = value.words();
                [SET, kind, word]
            }
        }
    }

    /// None for an action or a kind of value that there is not.
    pub(crate) fn from_words(action: u64, kind: u64, value: u64) -> Option<Action> {
        Some(match action {
            MAKE_MAP => Action::MakeMap,
            MAKE_LIST => Action::MakeList,
            DELETE => Action::Delete,
            INCREMENT => Action::Increment(value as i64),
            SET => Action::Set(Value::from_words(kind, value)?),
            _ => return None,
        })
    }
}
