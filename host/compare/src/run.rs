//! Many histories in a row, from a seed, with progress; a failure is shrunk and can be run again.
use crate::damage::Call;
use crate::endure::endures;
use crate::history::History;
use crate::meet::{self, Met};
use crate::memory::{Memory, REFUSED};
use crate::random::Random;
use crate::{generate, invariants, shrink};
use std::time::Instant;

fn check(history: &History) -> Result<Met, String> {
    invariants::hold(history)?;
    if oracle::PRESENT {
        meet::history(history)
    } else {
        Ok(Met::default())
    }
}

/// Histories `seed`, `seed + 1`, ..: the failing one can be run again alone.
pub fn histories(seed: u64, count: u64, progress: bool) -> Result<Met, String> {
    let mut met = Met::default();
    let started = Instant::now();
    for done in 0..count {
        let own = seed.wrapping_add(done);
        let history = generate::history(&mut Random::new(own));
        met += check(&history).map_err(|e| failure(own, history, &e))?;
        if progress && (done + 1) % 1000 == 0 {
            println!("{} of {count} histories, {} s, {met}", done + 1, started.elapsed().as_secs());
        }
    }
    Ok(met)
}

fn failure(seed: u64, history: History, error: &str) -> String {
    // a refusal is shrunk to a refusal, anything else to a history that is not refused
    let alike = |e: String| e.starts_with(REFUSED) == error.starts_with(REFUSED);
    let small = shrink::smallest(history, |h| check(h).is_err_and(alike));
    let now = check(&small).err().unwrap_or_default();
    let cut = |text: &str| text.chars().take(600).collect::<String>();
    format!(
        "history {seed} fails: {}\nsmallest:\n{small}which fails: {}\nagain: host/compare-long {seed} 1",
        cut(error),
        cut(&now)
    )
}

/// All damages of one place in the calls of `count` small histories; gives the number of damaged calls.
pub fn damages(seed: u64, count: usize) -> Result<u64, String> {
    let small = |call: &Call| call.memory.row_count >= 3 && call.memory.row_count <= 8 && call.operation_count <= 3;
    let calls = (0..).filter_map(|own| {
        let own = seed.wrapping_add(own);
        let call = Call::last_of(&generate::history(&mut Random::new(own)))?;
        small(&call).then_some((own, call))
    });
    let failure = |own: u64, what: String, e: String| {
        format!("the last call of history {own}, {what}: {e}\nagain: host/compare-long {seed} 0")
    };
    let mut room = Memory::default();
    let mut done = 0;
    for (own, call) in calls.take(count) {
        endures(&call, &mut room).map_err(|e| failure(own, "undamaged".into(), e))?;
        let mut damaged = call.clone();
        for damage in call.damages() {
            damaged.suffer(damage);
            endures(&damaged, &mut room).map_err(|e| failure(own, format!("{damage:?}"), e))?;
            call.restore(&mut damaged);
            done += 1;
        }
    }
    Ok(done)
}
