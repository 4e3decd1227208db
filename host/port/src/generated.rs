//! Generated histories and damaged inputs, by the proved code and by the reference.
use crate::both::Both;
use crate::given::Given;
use crate::player::Player;
use compare::damage::{Call, Claim, Damage, Slice};
use compare::generate;
use compare::history::History;
use compare::layout::*;
use compare::memory::Memory;
use compare::operation::Op;
use compare::random::Random;

/// Rows, successors and operations of noise, and what is claimed of them.
const NOISY: usize = 40;
const CLAIMS: &[u64] = &[0, 1, 39, 40, 41, 4095, 4096, 4097, 8192, 8193, 1 << 32, 1 << 63, u64::MAX - 1, u64::MAX];

#[derive(Default)]
pub struct Compared {
    pub merges: u64,
    pub refused: u64,
    pub pictures: u64,
    pub spots: u64,
}

/// Histories `seed`, `seed + 1`, ..: all merges, pictures under all clocks, spots in lists and in what is none.
pub fn histories(seed: u64, count: u64) -> Result<Compared, String> {
    let mut player = Player::default();
    let mut done = Compared::default();
    for own in (0..count).map(|n| seed.wrapping_add(n)) {
        let mut random = Random::new(own);
        let history = generate::history(&mut random);
        player.start();
        played(&mut player, &mut random, &history, &mut done).map_err(|e| format!("history {own}: {e}\n{history}"))?;
    }
    Ok(done)
}

fn played(player: &mut Player, random: &mut Random, history: &History, done: &mut Compared) -> Result<(), String> {
    let look_after = random.below(history.batches.len());
    for (place, batch) in history.batches.iter().enumerate() {
        // out of turn: often refused, since what it refers to is not there yet, or since it was merged before
        let answer = player.try_merge(random.pick::<Vec<Op>>(&history.batches))?;
        done.refused += !answer.is_accepted() as u64;
        let answer = player.merge(batch)?;
        if !answer.is_accepted() {
            return Err(format!("batch {place} is refused: {answer:?}"));
        }
        done.merges += 2;
        if place == look_after {
            looked_at(player, random, history, done)?;
        }
    }
    Ok(())
}

fn looked_at(player: &mut Player, random: &mut Random, history: &History, done: &mut Compared) -> Result<(), String> {
    let makes = history.operations().filter(|op| op.row().action() == MAKE_LIST).map(Op::id);
    let lists: Vec<u64> = makes.chain([ROOT]).collect();
    for clock in &history.clocks {
        player.picture(clock)?;
        done.pictures += 1;
        let list = *random.pick(&lists);
        let far = *random.pick(&[0, 20, 1 << 32, u64::MAX]);
        let any = history.batches[0][0].id();
        for (list, target) in [(list, random.below(6) as u64), (list, far), (any, 1)] {
            player.spot(list, target, clock)?;
            done.spots += 1;
        }
    }
    Ok(())
}

/// All damages of one place in what the calls of `count` small histories are lent; gives their number.
pub fn damages(seed: u64, count: usize) -> Result<u64, String> {
    let small = |call: &Call| {
        call.memory.row_count >= 3 && call.memory.row_count <= 8 && call.operation_count <= 3 && call.list != ROOT
    };
    let calls = (0..).filter_map(|own| {
        let own = seed.wrapping_add(own);
        let call = Call::last_of(&generate::history(&mut Random::new(own)))?;
        small(&call).then_some((own, call))
    });
    let mut both = Both::default();
    let mut done = 0;
    for (own, call) in calls.take(count) {
        let before = Given::of(&call);
        let mut given = before.clone();
        for damage in call.damages().into_iter().chain(short_output(&call)) {
            given.suffer(damage);
            both.all(&given).map_err(|e| format!("the last call of history {own}, {damage:?}: {e}"))?;
            given.recover(damage, &before);
            done += 1;
        }
        for length in [0, 1, 2, 4, 64] {
            both.no_room_for_the_answer(&before.clone().answering(length))?;
        }
    }
    Ok(done)
}

/// The output just large enough, and one word less.
pub fn short_output(call: &Call) -> [Damage; 2] {
    let least = ENTRY * call.memory.row_count as usize;
    [Damage::Length(Slice::Output, least), Damage::Length(Slice::Output, least.saturating_sub(1))]
}

/// Words that are no document and no batch at all, under claims of every size.
pub fn noise(seed: u64, count: u64) -> Result<(), String> {
    let mut both = Both::default();
    let mut random = Random::new(seed);
    for _ in 0..count {
        let given = noisy(&mut random);
        both.all(&given).map_err(|e| format!("noise of seed {seed}: {e}"))?;
    }
    Ok(())
}

pub fn noisy(random: &mut Random) -> Given {
    let mut given = Given::on(&Memory::default()).at(random.word() % 130, random.word());
    let operations = random.below(NOISY);
    // noise on an empty document, where the batch is looked at, or in the document itself
    if random.chance(70) {
        for (slice, words) in [(Slice::Rows, NOISY * ROW), (Slice::Successors, NOISY * SUCCESSOR)] {
            given.part_mut(slice).used = noise_words(random, words);
        }
        *given.claim_mut(Claim::Rows) = *random.pick(CLAIMS);
        *given.claim_mut(Claim::Successors) = *random.pick(CLAIMS);
    }
    let batch = given.part_mut(Slice::Batch);
    batch.used = noise_words(random, operations * OPERATION);
    batch.length = batch.used.len();
    *given.claim_mut(Claim::Operations) = if random.chance(80) { operations as u64 } else { *random.pick(CLAIMS) };
    given.part_mut(Slice::Output).length = *random.pick(&[0, 1, NOISY, NOISY + 1, MAX_ROWS]) * ENTRY;
    given
}

fn noise_words(random: &mut Random, count: usize) -> Vec<u64> {
    (0..count).map(|_| if random.chance(50) { random.word() % 130 } else { random.word() }).collect()
}
