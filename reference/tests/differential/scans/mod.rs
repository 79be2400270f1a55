//! 02, L11: histories of writes and takes of scans. Of every call that is accepted
//! every cut is tried: the power comes back, and takes find what waits.

mod cuts;
mod history;
mod list;
mod played;
mod setup;
mod tally;

use crate::bench::Start;
use crate::rng::Rng;
use crate::run::Failure;
use crate::watch::{watched, Watch};
use history::History;
use reference::interface::flat;
use tally::Tally;

const WORKERS: u64 = 2;

/// So many histories by all workers together, or the first failure found.
pub fn histories(seed: u64, number: u64) -> Result<Tally, Box<Failure>> {
    let parts = watched(WORKERS, move |worker, watch| {
        of_worker(seed, number, worker, watch)
    });
    let mut all = Tally::default();
    for part in parts {
        all.add(&part?);
    }
    Ok(all)
}

fn of_worker(seed: u64, number: u64, worker: u64, watch: &Watch) -> Result<Tally, Box<Failure>> {
    let mut tally = Tally::default();
    let mut history = worker;
    while history < number && watch.begins(worker, history) {
        if let Err(failure) = play(seed, history, &mut tally) {
            watch.stop();
            return Err(failure);
        }
        history += WORKERS;
    }
    Ok(tally)
}

fn play(seed: u64, number: u64, tally: &mut Tally) -> Result<(), Box<Failure>> {
    let mut rng = Rng::new(seed.wrapping_add(number << 32));
    let setup = setup::draw(&mut rng);
    let start = Start {
        controller: flat::Controller::default(),
        max_data_pages: setup.data_pages,
        image_seed: rng.seed(),
    };
    let mut history = History::new(rng, setup, &start, tally);
    history.play().map_err(|broken| {
        Box::new(Failure {
            seed,
            episode: number,
            calls: tally.calls,
            start,
            turns: broken.turns,
            why: broken.why,
        })
    })
}
