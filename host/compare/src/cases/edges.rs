//! The edges: documents and batches at the limits.
use super::table::{make_list, picture, script, spot, LIST};
use crate::layout::*;
use crate::operation::Op;
use crate::script::{Script, Step};

fn set(counter: u64) -> Op {
    Op::at_key(id(counter, 0), ROOT, b"k")
}

fn in_batches(ops: Vec<Op>, size: usize) -> Vec<Step> {
    ops.chunks(size).map(|batch| Step::Merge(batch.to_vec())).collect()
}

/// Sets of null at one key of ROOT, ids from 1@0 on.
fn sets(count: u64) -> Vec<Step> {
    in_batches((1..=count).map(set).collect(), MAX_OPERATIONS)
}

fn with(mut steps: Vec<Step>, more: Vec<Step>) -> Vec<Step> {
    steps.extend(more);
    steps
}

/// 300 inserts, each on the one before or all on HEAD.
fn long_list(name: &str, on: impl Fn(u64) -> u64) -> Script {
    let inserts = (2..302).map(|n| Op::insert_on(id(n, 0), LIST, on(n))).collect();
    let steps = with(vec![Step::Merge(vec![make_list()])], in_batches(inserts, 200));
    script(name, with(steps, vec![spot(0), spot(1), spot(150), spot(300), spot(301)]))
}

pub fn scripts() -> Vec<Script> {
    let one = |counter| Step::Merge(vec![set(counter)]);
    let delete = |counter, over: &[u64]| Step::Merge(vec![set(counter).act(DELETE).over(over)]);
    let batch = |count| Step::Merge((1..=count).map(set).collect());
    // 16 Sets, each overwritten by 512 others: 8,192 successors
    let sixteen: Vec<u64> = (1..=16).map(|n| id(n, 0)).collect();
    let overwriting = (17..529).map(|n| set(n).over(&sixteen)).collect();
    let successors = with(sets(16), in_batches(overwriting, MAX_OPERATIONS));
    vec![
        script("empty document, empty batch", vec![Step::Merge(vec![]), picture(), spot(0)]),
        script("4095 rows and one Set, then one more", with(sets(4095), vec![one(5000), one(5001)])),
        script("4096 rows and a Delete", with(sets(4096), vec![delete(5000, &[id(7, 0)])])),
        script("batch of 256", vec![batch(256)]),
        script("batch of 257", vec![batch(257)]),
        script(
            "8192 successors, then a Delete, then a Set",
            with(successors, vec![delete(5000, &[id(500, 0)]), one(5000)]),
        ),
        script("17 rows of one key, a Delete of 16 of them", with(sets(17), vec![delete(50, &sixteen)])),
        script("least and greatest ids", vec![ids_at_the_ends(), picture()]),
        script("keys of 0 to 24 bytes in byte order", vec![keys(), picture()]),
        long_list("a list grown at its end", |n| if n == 2 { HEAD } else { id(n - 1, 0) }),
        long_list("a list grown at HEAD", |_| HEAD),
    ]
}

fn ids_at_the_ends() -> Step {
    let ends = [id(1, 0), id(1, 63), id(MAX_COUNTER, 0), id(MAX_COUNTER, 63)];
    Step::Merge(ends.iter().rev().map(|at| Op::at_key(*at, ROOT, b"k")).collect())
}

fn keys() -> Step {
    let keys: [&[u8]; 9] =
        [b"", b"\0", b"\0\0", b"a", b"a\0", b"ab", b"b", "\u{e9}".as_bytes(), b"abcdefghijklmnopqrstuvwx"];
    Step::Merge((1..).zip(keys.iter().rev()).map(|(n, key)| Op::at_key(id(n, 0), ROOT, key)).collect())
}
