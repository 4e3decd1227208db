//! Well-formed documents up to the limits: of 4,096 rows with 7,980 successors and a list of 2,000 elements, or of the
//! same kind with fewer rows; and a batch of 256 operations for them. Their ids are by all actors, at random.
use compare::cases::{make_list, LIST};
use compare::layout::*;
use compare::memory::Memory;
use compare::operation::Op;
use compare::random::Random;

/// Of 4,096 rows.
const ELEMENTS: u64 = 2000;

/// Elements that are set seven times over, each Set over all before it: 28 successors each.
const CROWDED: u64 = 285;
const SETS: u64 = 7;

/// Of the operations of the batch: no id of the document is as great.
const FIRST_NEW: u64 = 10_000;

pub struct Large {
    pub memory: Memory,
    /// All of them visible.
    pub elements: u64,
}

pub fn document(rows: usize) -> Result<Large, String> {
    let share = |whole: u64| whole * rows as u64 / MAX_ROWS as u64;
    let elements = share(ELEMENTS);
    let mut operations = vec![make_list()];
    for n in 0..elements {
        let on = if n == 0 { HEAD } else { element(n - 1) };
        operations.push(Op::insert_on(element(n), LIST, on));
    }
    for n in 0..share(CROWDED) {
        let at = element(n * SETS);
        let mut before = vec![at];
        for _ in 0..SETS {
            let own = own(operations.len() as u64 + 1);
            operations.push(Op::at_element(own, LIST, at).over(&before));
            before.push(own);
        }
    }
    while operations.len() < rows {
        let own = own(operations.len() as u64 + 1);
        operations.push(Op::at_key(own, ROOT, format!("key {own}").as_bytes()));
    }
    let mut memory = Memory::default();
    for batch in operations.chunks(MAX_OPERATIONS) {
        memory.grow(batch)?;
    }
    Ok(Large { memory, elements })
}

/// A document that is quickly checked, so that what else a call does is seen: every element is inserted on HEAD, half of
/// the rows are elements and half are keys of ROOT, and there is no successor.
pub fn flat(rows: usize) -> Result<Large, String> {
    let elements = rows as u64 / 2;
    let mut operations = vec![make_list()];
    operations.extend((0..elements).map(|n| Op::insert_on(element(n), LIST, HEAD)));
    operations.extend((elements..rows as u64 - 1).map(|n| Op::at_key(element(n), ROOT, format!("key {n}").as_bytes())));
    let mut memory = Memory::default();
    for batch in operations.chunks(MAX_OPERATIONS) {
        memory.grow(batch)?;
    }
    Ok(Large { memory, elements })
}

pub fn element(n: u64) -> u64 {
    own(n + 2)
}

fn own(counter: u64) -> u64 {
    id(counter, Random::new(counter).word() % ACTORS)
}

impl Large {
    /// 128 inserts all over the list, each second on the one before; 64 Sets of elements, 64 Sets of new keys; shuffled.
    pub fn batch(&self) -> Vec<Op> {
        let mut random = Random::new(self.memory.row_count);
        let mut batch = vec![];
        for n in 0..MAX_OPERATIONS as u64 {
            let new = own(FIRST_NEW + n);
            let at = element(random.word() % self.elements);
            batch.push(match n % 4 {
                0 => Op::insert_on(new, LIST, at),
                1 => Op::insert_on(new, LIST, own(FIRST_NEW + n - 1)),
                2 => Op::at_element(new, LIST, at).over(&[at]),
                _ => Op::at_key(new, ROOT, format!("new {n}").as_bytes()),
            });
        }
        random.shuffle(&mut batch);
        batch
    }
}
