//! Operations written by hand: where, what, over what.
use crate::layout::*;
use crate::reference::row::{Operation, Row};
use std::fmt;

#[derive(Clone, Copy, PartialEq, Eq)]
pub struct Op(pub [u64; OPERATION]);

impl Op {
    /// A Set of null at a map's key.
    pub fn at_key(id: u64, map: u64, key: &[u8]) -> Op {
        let mut op = Op([0; OPERATION]);
        op.0[..2].copy_from_slice(&[id, map]);
        op.0[4..8].copy_from_slice(&key_words(key));
        op.act(SET)
    }
    /// A Set of null on a list's element.
    pub fn at_element(id: u64, list: u64, element: u64) -> Op {
        let mut op = Op([0; OPERATION]);
        op.0[..4].copy_from_slice(&[id, list, 1, element]);
        op.act(SET)
    }
    /// An insert of null after a list's element.
    pub fn insert_on(id: u64, list: u64, element: u64) -> Op {
        let mut op = Op::at_element(id, list, element);
        op.0[8] = 1;
        op
    }
    pub fn act(mut self, action: u64) -> Op {
        self.0[9..12].copy_from_slice(&[action, 0, 0]);
        self
    }
    pub fn set(mut self, kind: u64, value: u64) -> Op {
        self.0[9..12].copy_from_slice(&[SET, kind, value]);
        self
    }
    pub fn increment(mut self, by: i64) -> Op {
        self.0[9..12].copy_from_slice(&[INCREMENT, SIGNED, by as u64]);
        self
    }
    pub fn over(mut self, predecessors: &[u64]) -> Op {
        self.0[ROW] = predecessors.len() as u64;
        self.0[ROW + 1..].fill(0);
        self.0[ROW + 1..][..predecessors.len()].copy_from_slice(predecessors);
        self
    }
    pub fn id(&self) -> u64 {
        self.0[0]
    }
    pub fn row(&self) -> Row {
        Operation(&self.0).row()
    }
    pub fn predecessors(&self) -> &[u64] {
        Operation(&self.0).predecessors()
    }
    /// The ids of operations that this one refers to: its object, the element it names, its predecessors.
    pub fn references(&self) -> Vec<u64> {
        let mut ids = vec![self.row().object(), self.row().named()];
        ids.extend(self.predecessors());
        ids.retain(|id| *id != ROOT && *id != HEAD);
        ids
    }
}

pub fn words(batch: &[Op]) -> Vec<u64> {
    batch.iter().flat_map(|op| op.0).collect()
}

impl fmt::Display for Op {
    fn fmt(&self, f: &mut fmt::Formatter<'_>) -> fmt::Result {
        let row = self.row();
        let id = |id: u64, none: &str| if id == 0 { none.into() } else { shown(id) };
        match row.action() {
            MAKE_MAP => write!(f, "Make map {}", shown(row.id()))?,
            MAKE_LIST => write!(f, "Make list {}", shown(row.id()))?,
            SET => write!(f, "Set {} (kind {}, {})", shown(row.id()), row.kind(), row.value() as i64)?,
            INCREMENT => write!(f, "Increment {} by {}", shown(row.id()), row.value() as i64)?,
            _ => write!(f, "Delete {}", shown(row.id()))?,
        }
        write!(f, " in {}", id(row.object(), "ROOT"))?;
        match (row.has_list_key(), row.is_insert()) {
            (false, _) => {
                let bytes = row.key_bytes();
                let length = row.key_length().min(MAX_KEY) as usize;
                write!(f, " at key {:?}", String::from_utf8_lossy(&bytes[..length]))?
            }
            (true, true) => write!(f, " inserted on {}", id(row.named(), "HEAD"))?,
            (true, false) => write!(f, " on element {}", id(row.named(), "HEAD"))?,
        }
        let over: Vec<String> = self.predecessors().iter().map(|p| shown(*p)).collect();
        if over.is_empty() {
            Ok(())
        } else {
            write!(f, ", over {}", over.join(" "))
        }
    }
}
