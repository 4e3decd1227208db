//! A call that the merge makes to its patch log.

#[derive(Clone, Debug, PartialEq)]
pub enum Edit {
    Insert { object: u64, at: Place, id: u64, conflict: bool },
    Put { object: u64, at: Place, id: u64, conflict: bool, exposed: bool },
    Delete { object: u64, at: Place, count: usize },
    Increment { object: u64, at: Place, by: i64, id: u64 },
    Conflict { object: u64, at: Place },
}

#[derive(Clone, Debug, PartialEq)]
pub enum Place {
    Key(String),
    Index(usize),
}
