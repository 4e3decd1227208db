//! A row, an operation and a successor entry by the names of their words.
use crate::layout::*;

#[derive(Clone, Copy, PartialEq, Eq, Debug)]
pub struct Row(pub [u64; ROW]);

/// What rows of one object compete for: a map's key or a list's element. The derived order of map keys is byte
/// order: of two that agree when filled up with zeros the shorter comes first.
#[derive(Clone, Copy, PartialEq, Eq, PartialOrd, Ord, Debug)]
pub enum Key {
    Map { bytes: [u8; 24], length: u64 },
    Element(u64),
}

impl Row {
    pub fn cut(words: &[u64]) -> Row {
        Row(words[..ROW].try_into().unwrap())
    }
    pub fn id(&self) -> u64 {
        self.0[0]
    }
    pub fn object(&self) -> u64 {
        self.0[1]
    }
    pub fn key_kind(&self) -> u64 {
        self.0[2]
    }
    pub fn has_list_key(&self) -> bool {
        self.key_kind() == 1
    }
    /// The element that a list row names; an insert is placed after it.
    pub fn named(&self) -> u64 {
        self.0[3]
    }
    pub fn key_length(&self) -> u64 {
        self.0[4]
    }
    pub fn key_bytes(&self) -> [u8; 24] {
        let mut bytes = [0; 24];
        for (eight, word) in bytes.chunks_mut(8).zip(&self.0[5..8]) {
            eight.copy_from_slice(&word.to_be_bytes());
        }
        bytes
    }
    pub fn insert(&self) -> u64 {
        self.0[8]
    }
    pub fn is_insert(&self) -> bool {
        self.insert() == 1
    }
    pub fn action(&self) -> u64 {
        self.0[9]
    }
    pub fn kind(&self) -> u64 {
        self.0[10]
    }
    pub fn value(&self) -> u64 {
        self.0[11]
    }
    pub fn is_make(&self) -> bool {
        matches!(self.action(), MAKE_MAP | MAKE_LIST)
    }
    pub fn is_set_or_make(&self) -> bool {
        self.action() == SET || self.is_make()
    }
    pub fn is_counter(&self) -> bool {
        self.action() == SET && self.kind() == COUNTER
    }
    pub fn key(&self) -> Key {
        if !self.has_list_key() {
            Key::Map { bytes: self.key_bytes(), length: self.key_length() }
        } else if self.is_insert() {
            Key::Element(self.id())
        } else {
            Key::Element(self.named())
        }
    }
    pub fn same_object_and_key(&self, other: &Row) -> bool {
        self.object() == other.object() && self.key() == other.key()
    }
}

/// An operation: the words of its row, the count of its predecessors, their slots.
#[derive(Clone, Copy)]
pub struct Operation<'a>(pub &'a [u64]);

impl<'a> Operation<'a> {
    pub fn row(&self) -> Row {
        Row::cut(self.0)
    }
    pub fn predecessor_count(&self) -> u64 {
        self.0[ROW]
    }
    pub fn slots(&self) -> &'a [u64] {
        &self.0[ROW + 1..]
    }
    /// Of an operation that isn't malformed.
    pub fn predecessors(&self) -> &'a [u64] {
        &self.slots()[..self.predecessor_count() as usize]
    }
}

/// A successor: the row it belongs to, its id, whether it carries an increment, and that increment.
#[derive(Clone, Copy, PartialEq, Eq, PartialOrd, Ord, Debug)]
pub struct Successor {
    pub owner: u64,
    pub id: u64,
    pub carries: u64,
    pub increment: u64,
}

impl Successor {
    pub fn cut(words: &[u64]) -> Successor {
        Successor { owner: words[0], id: words[1], carries: words[2], increment: words[3] }
    }
    pub fn words(&self) -> [u64; SUCCESSOR] {
        [self.owner, self.id, self.carries, self.increment]
    }
}

#[cfg(test)]
mod tests {
    use super::*;
    use crate::operation::Op;

    #[test]
    fn map_keys_stand_in_byte_order() {
        let mut keys: Vec<Vec<u8>> = vec![vec![]];
        for length in 1..=3 {
            let longer = |key: &Vec<u8>| [0, 1, 255].map(|byte| [&key[..], &[byte]].concat());
            keys.extend(keys.iter().filter(|key| key.len() + 1 == length).flat_map(longer).collect::<Vec<_>>());
        }
        let key = |bytes: &[u8]| Op::at_key(id(1, 0), ROOT, bytes).row().key();
        for a in &keys {
            for b in &keys {
                assert_eq!(key(a).cmp(&key(b)), a.cmp(b), "{a:?} {b:?}");
            }
        }
    }
}
