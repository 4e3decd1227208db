//! The comparison at scale: the proved code beside the reference and the oracle, from a seed, with progress.
//! Each history has a seed of its own, so that one that fails can be run again alone.
use crate::damaged;
use crate::player::Player;
use crate::progress::Progress;
use compare::history::History;
use compare::layout::*;
use compare::meet::Met;
use compare::operation::words;
use compare::random::Random;
use compare::reference::row::Row;
use compare::reference::visible::Clock;
use compare::{generate, predicted, shrink};
use std::fmt;

/// Histories until merges, pictures and spots are `count` each.
pub fn histories(seed: u64, count: u64) -> Result<Met, String> {
    let mut player = Player::default();
    let mut met = Met::default();
    let mut progress = Progress::default();
    for own in (0..).map(|n| seed.wrapping_add(n)) {
        if met.merges.min(met.pictures).min(met.spots) >= count {
            break;
        }
        let history = generate::history(&mut Random::new(own));
        met += played(&mut player, own, &history).map_err(|e| failure(own, history, &e))?;
        progress.tell(|| format!("{} histories from seed {seed}: {met}", own.wrapping_sub(seed) + 1));
    }
    Ok(met)
}

fn failure(own: u64, history: History, error: &str) -> String {
    let fails = |h: &History| played(&mut Player::default(), own, h);
    let alike = |e: String| e.contains("is refused") == error.contains("is refused");
    let small = shrink::smallest(history, |h| fails(h).is_err_and(alike));
    let now = fails(&small).err().unwrap_or_default();
    format!("history {own} fails: {error}\nsmallest:\n{small}which fails: {now}\nagain: host/port-long {own} 1 0")
}

/// Merges each batch; after each a picture and a spot under a clock, after the last under all of them.
fn played(player: &mut Player, own: u64, history: &History) -> Result<Met, String> {
    let mut random = Random::new(own);
    let mut oracle = oracle::PRESENT.then(|| oracle::Document::load(&[], &[])).transpose()?;
    let mut met = Met::default();
    player.start();
    for (place, batch) in history.batches.iter().enumerate() {
        let answer = player.merge(batch)?;
        if !answer.is_accepted() {
            return Err(format!("batch {place} is refused: {answer:?}"));
        }
        if let Some(oracle) = &mut oracle {
            oracle.merge(&words(batch))?;
            equal("rows", player.memory.row_words(), &oracle.rows())?;
            equal("successors", player.memory.successor_words(), &oracle.successors())?;
        }
        met.merges += 1;
        let last = place + 1 == history.batches.len();
        let clocks = if last { &history.clocks[..] } else { std::slice::from_ref(random.pick(&history.clocks)) };
        for clock in clocks {
            met += pictured(player, oracle.as_ref(), clock)?;
            met += spotted(player, oracle.as_ref(), &mut random, clock)?;
        }
    }
    Ok(met)
}

fn equal<T: PartialEq + fmt::Debug + ?Sized>(what: &str, port: &T, oracle: &T) -> Result<(), String> {
    if port == oracle {
        Ok(())
    } else {
        Err(format!("{what}: the proved code gives {port:?}, the oracle {oracle:?}"))
    }
}

fn pictured(player: &mut Player, oracle: Option<&oracle::Document>, clock: &[u64]) -> Result<Met, String> {
    let answer = player.picture(clock)?;
    let mut entries = player.both.entries(answer).to_vec();
    let mut met = Met { pictures: 1, ..Met::default() };
    let Some(oracle) = oracle else { return Ok(met) };
    let document = player.memory.document();
    for entry in entries.chunks_mut(ENTRY).filter(|entry| entry[13] == TOTAL_LOST) {
        let as_predicted = predicted::entry(&document, Clock(clock), entry.try_into().unwrap());
        entry.copy_from_slice(&as_predicted);
        met.lost_totals += 1;
    }
    equal("picture", &entries, &oracle.picture(clock))?;
    Ok(met)
}

/// In one of the document's lists, or in ROOT where it has none: that is 12, and the oracle has no such answer.
fn spotted(
    player: &mut Player,
    oracle: Option<&oracle::Document>,
    random: &mut Random,
    clock: &[u64],
) -> Result<Met, String> {
    let document = player.memory.document();
    let lists: Vec<u64> = document.rows.iter().filter(|row| row.action() == MAKE_LIST).map(Row::id).collect();
    let list = if lists.is_empty() { ROOT } else { *random.pick(&lists) };
    let most = *random.pick(&[2, 5, 20]);
    let target = random.below(most + 1);
    let answer = player.spot(list, target as u64, clock)?;
    let mut met = Met { spots: 1, ..Met::default() };
    let Some(oracle) = oracle.filter(|_| list != ROOT) else { return Ok(met) };
    let found = answer.is_accepted().then_some((answer.values[0], answer.values[1]));
    let as_predicted = found.map(|found| predicted::spot(&document, list, found));
    let given = oracle.spot(list, clock, target).map(|(element, place)| (element, place as u64));
    equal("spot", &as_predicted, &given)?;
    met.early_spots += (as_predicted != found) as u64;
    Ok(met)
}

/// Both, with their totals.
pub fn run(seed: u64, count: u64, damages: u64) -> Result<(), String> {
    let whom = if oracle::PRESENT { "reference and oracle" } else { "the reference alone: the originals are absent" };
    println!("the proved code beside {whom}, seed {seed}");
    let met = histories(seed, count)?;
    println!("ok: histories from seed {seed}: {met}");
    let answers = damaged::inputs(seed, damages)?;
    println!("ok: {damages} damaged inputs from seed {seed}, each through all three calls; {answers}");
    Ok(())
}
