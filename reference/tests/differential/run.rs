//! Long runs: episodes of many turns, each from a start of its own.

use crate::bench::{Alter, Bench, Start, Turn};
use crate::generator::Generator;
use crate::rng::Rng;
use crate::situations::Met;
use crate::table::Tally;
use crate::watch::{watched, Watch};

const WORKERS: u64 = 2;

/// A run that ends with a disagreement.
#[derive(Clone, Debug)]
pub struct Failure {
    pub seed: u64,
    pub episode: u64,
    /// The calls that its worker had made, this one included.
    pub calls: u64,
    pub start: Start,
    pub turns: Vec<Turn>,
    pub why: String,
}

/// At least so many calls by all workers together, or the first disagreement found.
pub fn run(seed: u64, calls: u64, alter: Alter) -> Result<Tally, Box<Failure>> {
    let share = calls.div_ceil(WORKERS);
    let parts = watched(WORKERS, move |worker, watch| {
        episodes(seed, worker, share, alter, watch)
    });
    let mut all = Tally::new();
    for part in parts {
        all.add(&part?);
    }
    Ok(all)
}

/// Every second episode of two workers, and so on.
fn episodes(
    seed: u64,
    worker: u64,
    calls: u64,
    alter: Alter,
    watch: &Watch,
) -> Result<Tally, Box<Failure>> {
    let mut tally = Tally::new();
    let mut episode = worker;
    while tally.calls < calls && watch.begins(worker, episode) {
        if let Err(failure) = play(seed, episode, alter, &mut tally) {
            watch.stop();
            return Err(failure);
        }
        episode += WORKERS;
    }
    Ok(tally)
}

fn play(seed: u64, episode: u64, alter: Alter, tally: &mut Tally) -> Result<(), Box<Failure>> {
    let own_seed = Rng::new(seed.wrapping_add(episode << 32)).seed();
    let (mut generator, start, length) = Generator::of_episode(own_seed, episode);
    let mut bench = Bench::new(&start, alter);
    let mut turns = Vec::new();
    for _ in 0..length {
        let turn = generator.turn(&bench);
        turns.push(turn);
        let turn = &turns[turns.len() - 1];
        match bench.take(turn) {
            Ok(taken) => tally.count(&Met {
                before: &taken.before,
                after: &taken.after,
                call: &turn.call,
                outcome: &taken.outcome,
                writes: turn.writes.len(),
                stepped: taken.stepped,
            }),
            Err(why) => {
                return Err(Box::new(Failure {
                    seed,
                    episode,
                    calls: tally.calls + 1,
                    start,
                    turns,
                    why,
                }))
            }
        }
    }
    Ok(())
}

/// The place and the reason of the first disagreement.
pub fn replayed(start: &Start, turns: &[Turn], alter: Alter) -> Option<(usize, String)> {
    let mut bench = Bench::new(start, alter);
    turns.iter().enumerate().find_map(|(place, turn)| {
        let why = bench.take(turn).err()?;
        Some((place, why))
    })
}
