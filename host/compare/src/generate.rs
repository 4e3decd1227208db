//! Random histories that the rules accept: up to 6 actors, maps, lists, nested objects, counters, conflicts.
mod clocks;
mod cut;

use crate::history::History;
use crate::layout::*;
use crate::operation::Op;
use crate::random::Random;
use std::collections::BTreeSet;

pub use clocks::clocks;
pub use cut::cut;

const KEYS: &[&[u8]] = &[b"a", b"ab", b"b", b"r", b"", b"\0", "\u{e9}\u{4e2d}".as_bytes(), b"abcdefghijklmnopqrstuvwx"];
const EDGES: &[u64] = &[0, 1, 10, 1 << 63, (1 << 63) - 1, u64::MAX, u64::MAX - 2, 1 << 62];

pub fn history(random: &mut Random) -> History {
    let operations = operations(random);
    let batches = cut(random, &operations);
    let clocks = clocks(random, &operations);
    History { batches, clocks }
}

/// Operations in an order in which each comes after all that it refers to.
pub fn operations(random: &mut Random) -> Vec<Op> {
    let size = match random.below(100) {
        0..70 => 1 + random.below(30),
        70..96 => 30 + random.below(60),
        _ => 100 + random.below(200),
    };
    let mut growing = Growing::new(random);
    for _ in 0..size {
        growing.grow(random);
    }
    growing.made
}

struct Growing {
    made: Vec<Op>,
    used: BTreeSet<u64>,
    actors: Vec<u64>,
    first_counter: u64,
    /// How many of the keys above are in use: few make conflicts.
    keys: usize,
    /// In percent: how often a list op is an insert, how often a value is an edge.
    inserts: usize,
    edges: usize,
}

impl Growing {
    fn new(random: &mut Random) -> Growing {
        let actors = (0..1 + random.below(6)).map(|_| random.word() % ACTORS).collect();
        let first_counter = *random.pick(&[1, 1, 1, 1, 700, MAX_COUNTER - 2000]);
        let keys = 1 + random.below(KEYS.len());
        let (inserts, edges) = (20 + random.below(70), *random.pick(&[0, 20, 80]));
        Growing { made: vec![], used: BTreeSet::new(), actors, first_counter, keys, inserts, edges }
    }

    fn grow(&mut self, random: &mut Random) {
        let place = self.place(random);
        let mut op = if place.row().is_insert() { self.valued(random, place) } else { self.acting(random, place) };
        op.0[0] = self.fresh_id(random, &op);
        self.used.insert(op.id());
        self.made.push(op);
    }

    /// An object and a key, an element or an insert in it; the id is still 0.
    fn place(&self, random: &mut Random) -> Op {
        let objects: Vec<&Op> = self.made.iter().filter(|op| op.row().is_make()).collect();
        let object = (!objects.is_empty() && random.chance(75)).then(|| *random.pick(&objects));
        match object {
            Some(make) if make.row().action() == MAKE_LIST => self.place_in_list(random, make.id()),
            _ => Op::at_key(0, object.map_or(ROOT, Op::id), KEYS[random.below(self.keys)]),
        }
    }

    fn place_in_list(&self, random: &mut Random, list: u64) -> Op {
        let in_list = |op: &&Op| op.row().object() == list && op.row().is_insert();
        let elements: Vec<u64> = self.made.iter().filter(in_list).map(Op::id).collect();
        if elements.is_empty() || (random.chance(self.inserts) && random.chance(25)) {
            Op::insert_on(0, list, HEAD)
        } else if random.chance(self.inserts) {
            Op::insert_on(0, list, *random.pick(&elements))
        } else {
            Op::at_element(0, list, *random.pick(&elements))
        }
    }

    /// Any action, over some of the Set and Make rows at its place.
    fn acting(&self, random: &mut Random, place: Op) -> Op {
        let row = place.row();
        let rival = |op: &&Op| op.row().is_set_or_make() && op.row().same_object_and_key(&row);
        let rivals: Vec<&Op> = self.made.iter().filter(rival).collect();
        let mut over: Vec<u64> = match random.below(4) {
            0 => rivals.iter().filter(|_| random.chance(50)).map(|op| op.id()).collect(),
            1 => rivals.last().iter().map(|op| op.id()).collect(),
            _ => rivals.iter().map(|op| op.id()).filter(|id| !self.overwritten(*id)).collect(),
        };
        over.sort();
        over.truncate(MAX_PREDECESSORS);
        match random.below(100) {
            0..18 if !over.is_empty() => place.act(DELETE).over(&over),
            18..50 if !over.is_empty() => place.increment(self.number(random) as i64).over(&over),
            chance if chance % 5 == 0 => self.valued(random, place),
            _ => self.valued(random, place).over(&over),
        }
    }

    fn overwritten(&self, id: u64) -> bool {
        let by = |op: &Op| op.predecessors().contains(&id) && op.row().action() != INCREMENT;
        self.made.iter().any(by)
    }

    fn valued(&self, random: &mut Random, place: Op) -> Op {
        match random.below(20) {
            0..2 => place.act(MAKE_MAP),
            2..5 => place.act(MAKE_LIST),
            5..13 => place.set(COUNTER, self.number(random)),
            13 => place.set(NULL, 0),
            14 => place.set(BOOLEAN, random.word() % 2),
            other => place.set([UNSIGNED, SIGNED, F64, TIMESTAMP, UNSIGNED][other - 15], self.number(random)),
        }
    }

    fn number(&self, random: &mut Random) -> u64 {
        if random.chance(self.edges) {
            *random.pick(EDGES)
        } else {
            (random.below(21) as u64).wrapping_sub(10)
        }
    }

    /// Above all that the operation refers to, of a random actor, mostly with a small counter: actors run side by side.
    fn fresh_id(&self, random: &mut Random, op: &Op) -> u64 {
        let above = op.references().into_iter().max().unwrap_or(0);
        let actor = *random.pick(&self.actors);
        let mut counter = (above / ACTORS).max(self.first_counter) + random.below(4) as u64;
        while id(counter, actor) <= above || self.used.contains(&id(counter, actor)) {
            counter += 1;
        }
        id(counter, actor)
    }
}
