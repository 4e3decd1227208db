//! Ids, keys, values and rows of the originals as words, and back.
use crate::op_set2::op::{ChangeOp, OpBuilder};
use crate::op_set2::op_set::Op;
use crate::op_set2::types::{Action, KeyRef, ScalarValue as Scalar};
use crate::types::{Clock, ElemId, ObjId, OpId};
use std::borrow::Cow;

pub(crate) const ROW: usize = 12;
pub(crate) const OPERATION: usize = 29;
pub(crate) const SUCCESSOR: usize = 4;

pub(crate) fn id(word: u64) -> OpId {
    OpId::new(word / 64, (word % 64) as usize)
}

pub(crate) fn word(id: OpId) -> u64 {
    id.counter() * 64 + id.actor() as u64
}

/// An empty slice is no clock. The original's clock has 32-bit counters; so have ids, so the cut changes nothing.
pub(crate) fn clock(words: &[u64]) -> Option<Clock> {
    let cut = |counter: &u64| (*counter).min(u32::MAX as u64) as u32;
    (!words.is_empty()).then(|| Clock(words.iter().map(cut).collect()))
}

pub(crate) fn key_string(row: &[u64]) -> Result<String, String> {
    let mut bytes: Vec<u8> = row[5..8].iter().flat_map(|w| w.to_be_bytes()).collect();
    bytes.truncate(row[4] as usize);
    String::from_utf8(bytes).map_err(|_| "a key that is not UTF-8 has no Rust counterpart".into())
}

fn key(row: &[u64]) -> Result<KeyRef<'static>, String> {
    Ok(match row[2] {
        0 => KeyRef::Map(Cow::Owned(key_string(row)?)),
        _ => KeyRef::Seq(ElemId(id(row[3]))),
    })
}

pub(crate) fn key_words(key: &KeyRef<'_>) -> [u64; 6] {
    match key {
        KeyRef::Map(s) => {
            let mut bytes = [0u8; 24];
            bytes[..s.len()].copy_from_slice(s.as_bytes());
            let w = |i: usize| u64::from_be_bytes(bytes[8 * i..8 * i + 8].try_into().unwrap());
            [0, 0, s.len() as u64, w(0), w(1), w(2)]
        }
        KeyRef::Seq(e) => [1, word(e.0), 0, 0, 0, 0],
    }
}

pub(crate) fn value(row: &[u64]) -> Result<Scalar<'static>, String> {
    let n = row[11];
    Ok(match row[10] {
        0 => Scalar::Null,
        1 => Scalar::Boolean(n != 0),
        3 => Scalar::Uint(n),
        4 => Scalar::Int(n as i64),
        5 => Scalar::F64(f64::from_bits(n)),
        8 => Scalar::Counter(n as i64),
        9 => Scalar::Timestamp(n as i64),
        kind => return Err(format!("the value kind {kind} is outside the base")),
    })
}

pub(crate) fn value_words(value: &Scalar<'_>) -> [u64; 2] {
    match value {
        Scalar::Null => [0, 0],
        Scalar::Boolean(b) => [1, *b as u64],
        Scalar::Uint(n) => [3, *n],
        Scalar::Int(n) => [4, *n as u64],
        Scalar::F64(n) => [5, n.to_bits()],
        Scalar::Counter(n) => [8, *n as u64],
        Scalar::Timestamp(n) => [9, *n as u64],
        other => panic!("a value outside the base: {other:?}"),
    }
}

pub(crate) fn row_words(op: &Op<'_>) -> [u64; ROW] {
    let mut words = [0; ROW];
    words[..2].copy_from_slice(&[word(op.id), word(op.obj.0)]);
    words[2..8].copy_from_slice(&key_words(&op.key));
    words[8..10].copy_from_slice(&[op.insert as u64, u64::from(op.action)]);
    words[10..].copy_from_slice(&value_words(&op.value));
    words
}

/// An operation without predecessors: also a row of a document, made ready for the original.
pub(crate) fn change_op(row: &[u64]) -> Result<ChangeOp, String> {
    let bld = OpBuilder {
        id: id(row[0]),
        obj: ObjId(id(row[1])),
        key: key(row)?,
        action: Action::try_from(row[9]).map_err(|e| e.to_string())?,
        value: value(row)?,
        mark_name: None,
        expand: false,
        insert: row[8] != 0,
        pred: vec![],
    };
    Ok(ChangeOp { pos: None, subsort: 0, conflicted: false, succ: vec![], bld })
}

pub(crate) fn operation(words: &[u64]) -> Result<ChangeOp, String> {
    let mut op = change_op(words)?;
    op.bld.pred = predecessors(words).iter().map(|p| id(*p)).collect();
    Ok(op)
}

pub(crate) fn predecessors(operation: &[u64]) -> &[u64] {
    &operation[13..13 + operation[12] as usize]
}
