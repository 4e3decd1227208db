//! The proved code against the recorded answers and the reference; host/port-gate calls it.
use port::bench::figures::{self, Figure};
use port::bench::{plot, tables};
use port::generated::{self, Compared};
use port::replay::{self, Replayed};
use port::{bench, long};
use std::time::{Instant, SystemTime, UNIX_EPOCH};
use std::{env, fs, process};

const FIXED_SEED: u64 = 2024;
const HISTORIES: u64 = 1000;
const DAMAGED: usize = 2;
const NOISE: u64 = 500;

fn main() {
    let arguments: Vec<String> = env::args().skip(1).collect();
    let words: Vec<&str> = arguments.iter().map(String::as_str).collect();
    let done = match words[..] {
        ["check", list] => check(list),
        ["long", seed, count, damaged] => at_scale([seed, count, damaged]),
        ["bench"] => bench::run(),
        ["tables", list] => figures(list).map(|figures| print!("{}", tables::told(&figures))),
        ["plot", list] => figures(list).map(|figures| print!("{}", plot::drawn(&figures))),
        _ => Err("port: check LIST, long SEED COUNT DAMAGED, bench, tables LIST or plot LIST".into()),
    };
    if let Err(sentence) = done {
        eprintln!("{sentence}");
        process::exit(1);
    }
}

fn text_of(list: &str) -> Result<String, String> {
    fs::read_to_string(list).map_err(|e| format!("{list}: {e}"))
}

fn figures(list: &str) -> Result<Vec<Figure>, String> {
    figures::read(&text_of(list)?)
}

/// Each line that begins with `ok` is one thing that passed.
fn check(list: &str) -> Result<(), String> {
    let started = Instant::now();
    let Replayed { merges, pictures, spots, documents } = replay::replayed(&text_of(list)?)?;
    println!("ok: recorded: {merges} merges, {pictures} pictures, {spots} spots, {documents} documents");
    let now = SystemTime::now().duration_since(UNIX_EPOCH).map_or(1, |since| since.as_secs());
    for (which, seed) in [("fixed", FIXED_SEED), ("fresh", now * 1_000_000)] {
        let Compared { merges, refused, pictures, spots } = generated::histories(seed, HISTORIES)?;
        println!(
            "ok: {HISTORIES} histories, {which} seed {seed}: {merges} merges ({refused} of them refused), \
             {pictures} pictures, {spots} spots"
        );
        let damaged = generated::damages(seed, DAMAGED)?;
        println!("ok: {damaged} damaged inputs, {which} seed {seed}, each through all three calls");
        generated::noise(seed, NOISE)?;
        println!("ok: {NOISE} inputs of noise, {which} seed {seed}, each through all three calls");
    }
    println!("{} s", started.elapsed().as_secs());
    Ok(())
}

fn at_scale(numbers: [&str; 3]) -> Result<(), String> {
    let [seed, count, damaged] = numbers.map(|n| n.parse::<u64>().map_err(|_| format!("{n} is no number")));
    let started = Instant::now();
    long::run(seed?, count?, damaged?)?;
    println!("{} s", started.elapsed().as_secs());
    Ok(())
}
