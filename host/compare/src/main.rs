//! The comparison as a program; host/gate and the other commands of host/ call it.
use compare::{falsify, mutation, recorded, run};
use std::time::{Instant, SystemTime, UNIX_EPOCH};
use std::{env, fs, process};

const FIXED_SEED: u64 = 2024;
const QUICK: u64 = 1500;
const DAMAGED: usize = 4;

fn main() {
    let arguments: Vec<String> = env::args().skip(1).collect();
    let words: Vec<&str> = arguments.iter().map(String::as_str).collect();
    let done = match words[..] {
        ["quick", list] => quick(list),
        ["long", seed, count] => long(seed, count),
        ["record", list] => record(list),
        ["mutate", list, originals, ref only @ ..] => mutation::check(list, originals, only),
        ["falsify", list, crates, scratch, "words", ref files @ ..] => falsify::made_up(list, crates, scratch, files),
        ["falsify", list, crates, scratch, ref only @ ..] => falsify::listed(list, crates, scratch, only),
        _ => Err("compare: quick LIST, long SEED COUNT, record LIST, mutate LIST ORIGINALS [NUMBER ..] or \
            falsify LIST CRATES SCRATCH [words [FILE ..] | NUMBER ..]"
            .into()),
    };
    if let Err(sentence) = done {
        eprintln!("{sentence}");
        process::exit(1);
    }
}

/// The gate's part. Each line that begins with `ok` is one thing that passed.
fn quick(list: &str) -> Result<(), String> {
    if !oracle::PRESENT {
        println!(
            "The originals are absent: the reference alone is run, and the recorded answers stand for the oracle."
        );
    }
    recorded_answers(list)?;
    let now = SystemTime::now().duration_since(UNIX_EPOCH).map_or(1, |since| since.as_secs());
    for (which, seed) in [("fixed", FIXED_SEED), ("fresh", now * 1_000_000)] {
        let met = run::histories(seed, QUICK, false)?;
        let found = if oracle::PRESENT { met.to_string() } else { "what the rules say of every history holds".into() };
        println!("ok: {QUICK} histories, {which} seed {seed}: {found}");
        let calls = run::damages(seed, DAMAGED)?;
        println!("ok: {calls} damaged calls, {which} seed {seed}");
    }
    Ok(())
}

fn recorded_answers(list: &str) -> Result<(), String> {
    let text = fs::read_to_string(list).map_err(|e| format!("{list}: {e}"))?;
    let whom = if oracle::PRESENT { "reference and oracle" } else { "reference alone" };
    let steps = recorded::replayed(&text).map_err(|e| format!("The recorded answers no longer match: {e}"))?;
    println!("ok: {steps} recorded answers, {whom}");
    if oracle::PRESENT {
        if recorded::made_anew()? != text {
            return Err("The recorded answers are not what host/record makes now.".into());
        }
        println!("ok: the recorded list is what host/record makes");
    }
    Ok(())
}

fn long(seed: &str, count: &str) -> Result<(), String> {
    let number = |n: &str| n.parse::<u64>().map_err(|_| format!("{n} is no number"));
    let started = Instant::now();
    if !oracle::PRESENT {
        println!("The originals are absent: the reference alone is run.");
    }
    let met = run::histories(number(seed)?, number(count)?, true)?;
    println!("ok: {count} histories, seed {seed}, {} s: {met}", started.elapsed().as_secs());
    println!("ok: {} damaged calls, seed {seed}", run::damages(number(seed)?, DAMAGED)?);
    Ok(())
}

fn record(list: &str) -> Result<(), String> {
    if !oracle::PRESENT {
        return Err("The originals are absent: there is no oracle whose answers could be recorded.".into());
    }
    let made = recorded::made_anew()?;
    fs::write(list, &made).map_err(|e| format!("{list}: {e}"))?;
    println!("{} recorded answers in {list}", recorded::replayed(&made)?);
    Ok(())
}
