//! How long the calls take on documents of 256 to 4,096 rows, beside the oracle in the same run. The library that is
//! linked may be the copy whose check of the document is left out (host/bench): that is found out first.
pub mod figures;
pub mod plot;
pub mod tables;

use crate::large::{self, Large};
use compare::cases::LIST;
use compare::layout::*;
use compare::memory::Memory;
use compare::operation::{words, Op};
use figures::{Call, Figure};
use gantrysnip::calls::{self, Lent, LentToChange};
use std::time::Instant;

const RUNS: usize = 100;
const ROWS: [usize; 6] = [256, 512, 1024, 2048, 3840, 4096];

/// A line for each figure.
pub fn run() -> Result<(), String> {
    let checked = checks_documents()?;
    for (document, made) in [("crowded", large::document as fn(usize) -> _), ("flat", large::flat)] {
        for rows in ROWS {
            let large: Large = made(rows)?;
            let mut bench = Bench::of(&large)?;
            bench.merges_right(&large)?;
            for (call, times) in bench.turns(checked)? {
                println!("{}", Figure { checked, document: document.into(), rows, call, times: quartiles(times) });
            }
        }
    }
    Ok(())
}

/// Two keys in the wrong order: refused with 2 by a library that checks, and nothing that a picture could stumble over.
fn checks_documents() -> Result<bool, String> {
    let mut memory = Memory::default();
    memory.grow(&[b"a", b"b"].map(|key| Op::at_key(id(key[0].into(), 0), ROOT, key)))?;
    memory.rows[..2 * ROW].rotate_left(ROW);
    match Bench::with(&memory, vec![], 0)?.pictured() {
        2 => Ok(true),
        0 => Ok(false),
        other => Err(format!("a document in the wrong order is answered with {other}")),
    }
}

/// What the calls of one document work in.
struct Bench<'a> {
    memory: &'a Memory,
    batch: Vec<u64>,
    too_many: Vec<u64>,
    far: u64,
    loaded: Option<oracle::Document>,
    /// The document that is merged into, as it was before each merge.
    rows: Vec<u64>,
    successors: Vec<u64>,
    output: Vec<u64>,
    work: Vec<u64>,
}

impl Bench<'_> {
    fn of(large: &Large) -> Result<Bench<'_>, String> {
        Bench::with(&large.memory, words(&large.batch()), large.elements - 10)
    }

    fn with(memory: &Memory, batch: Vec<u64>, far: u64) -> Result<Bench<'_>, String> {
        let load = || oracle::Document::load(memory.row_words(), memory.successor_words());
        Ok(Bench {
            memory,
            batch,
            too_many: vec![0; OPERATION * (MAX_OPERATIONS + 1)],
            far,
            loaded: oracle::PRESENT.then(load).transpose()?,
            rows: memory.rows.clone(),
            successors: memory.successors.clone(),
            output: vec![0; MAX_ROWS * ENTRY],
            work: vec![0; WORK],
        })
    }

    /// Where there is room for it, the merge gives what the reference gives.
    fn merges_right(&mut self, large: &Large) -> Result<(), String> {
        if !self.has_room() {
            return Ok(());
        }
        let mut expected = large.memory.clone();
        expected.grow(&large.batch())?;
        self.time(Call::Merge)?;
        let same = self.rows == expected.rows && self.successors == expected.successors;
        same.then_some(()).ok_or("the merge is not the reference's".into())
    }

    fn has_room(&self) -> bool {
        self.memory.row_count as usize + MAX_OPERATIONS <= MAX_ROWS
    }

    /// In each turn all calls, so that they meet the same machine. Each of them twice, and the second is timed, so that
    /// none pays for the memory that another left in the caches; where there is a check, that goes over it all before.
    fn turns(&mut self, checked: bool) -> Result<Vec<(Call, Vec<f64>)>, String> {
        let wanted = |call: &Call| match call {
            Call::Merge => self.has_room(),
            Call::OracleMerge => self.has_room() && self.loaded.is_some(),
            Call::OraclePicture | Call::OracleSpot => self.loaded.is_some(),
            Call::Check | Call::Picture | Call::Spot => true,
        };
        let mut told: Vec<(Call, Vec<f64>)> = Call::ALL.into_iter().filter(wanted).map(|call| (call, vec![])).collect();
        for _ in 0..RUNS {
            for (call, times) in &mut told {
                if !checked {
                    self.time(*call)?;
                }
                times.push(self.time(*call)?);
            }
        }
        Ok(told)
    }

    /// In ms. The check cannot be called from outside: a merge of 257 operations is refused as soon as it is done.
    fn time(&mut self, call: Call) -> Result<f64, String> {
        match call {
            Call::Check => self.merge(&self.too_many.clone(), 3),
            Call::Merge => self.merge(&self.batch.clone(), 0),
            Call::Picture => timed(0, || self.pictured()),
            Call::Spot => timed(0, || self.spotted()),
            Call::OracleMerge | Call::OraclePicture | Call::OracleSpot => self.time_of_oracle(call),
        }
    }

    fn merge(&mut self, batch: &[u64], number: u64) -> Result<f64, String> {
        self.rows.copy_from_slice(&self.memory.rows);
        self.successors.copy_from_slice(&self.memory.successors);
        let lent = LentToChange {
            rows: &mut self.rows,
            row_count: self.memory.row_count,
            successors: &mut self.successors,
            successor_count: self.memory.successor_count,
        };
        let count = (batch.len() / OPERATION) as u64;
        timed(number, || calls::merge(lent, batch, count, &mut self.work, &mut [0; 3]))
    }

    fn pictured(&mut self) -> u64 {
        calls::picture(lent(self.memory), &mut self.output, &mut self.work, &mut [0; 3])
    }

    fn spotted(&mut self) -> u64 {
        calls::spot(lent(self.memory), LIST, self.far, &mut self.work, &mut [0; 3])
    }

    /// On a loaded document; the merge on a copy of it. Making the originals' operations out of words is in its time.
    fn time_of_oracle(&self, call: Call) -> Result<f64, String> {
        let loaded = self.loaded.as_ref().ok_or("there is no oracle")?;
        match call {
            Call::OracleMerge => {
                let mut merged = loaded.clone();
                timed(0, || merged.merge(&self.batch).map_or(1, |_| 0))
            }
            Call::OraclePicture => timed(0, || loaded.picture(&[]).is_empty() as u64),
            _ => timed(0, || loaded.spot(LIST, &[], self.far as usize).is_none() as u64),
        }
    }
}

fn lent(memory: &Memory) -> Lent<'_> {
    Lent {
        rows: &memory.rows,
        row_count: memory.row_count,
        successors: &memory.successors,
        successor_count: memory.successor_count,
        clock: &[],
    }
}

/// Of a call that should give this number.
fn timed(expected: u64, call: impl FnOnce() -> u64) -> Result<f64, String> {
    let started = Instant::now();
    let number = call();
    let time = started.elapsed().as_secs_f64() * 1e3;
    (number == expected).then_some(time).ok_or(format!("{number} came back instead of {expected}"))
}

fn quartiles(mut times: Vec<f64>) -> [f64; 3] {
    times.sort_by(f64::total_cmp);
    [1, 2, 3].map(|quarter| times[times.len() * quarter / 4])
}
