//! Workers that are watched: the first failure stops all, and a call that
//! never ends is told instead of waited for.

use std::sync::atomic::{AtomicBool, AtomicU64, Ordering::Relaxed};
use std::sync::mpsc::{channel, Receiver, RecvTimeoutError};
use std::sync::Arc;
use std::time::{Duration, Instant};

/// The longest time that a worker may stay on one episode.
const TIME_LIMIT: Duration = Duration::from_secs(30);
const LOOK_EVERY: Duration = Duration::from_millis(500);
/// Where a worker is that has ended.
const NOWHERE: u64 = u64::MAX;

/// What the workers tell and are told.
pub struct Watch {
    stop: AtomicBool,
    /// The episode that each worker is at.
    at: Vec<AtomicU64>,
}

impl Watch {
    /// A worker begins an episode; false if it is to stop.
    pub fn begins(&self, worker: u64, episode: u64) -> bool {
        self.at[worker as usize].store(episode, Relaxed);
        !self.stop.load(Relaxed)
    }

    pub fn stop(&self) {
        self.stop.store(true, Relaxed);
    }
}

/// A worker that panics stops the others.
struct StopOnPanic<'a>(&'a Watch);

impl Drop for StopOnPanic<'_> {
    fn drop(&mut self) {
        if std::thread::panicking() {
            self.0.stop();
        }
    }
}

/// Where each worker was seen last, and since when it has been there.
struct Seen(Vec<(u64, Instant)>);

impl Seen {
    fn look(&mut self, watch: &Watch) {
        for (seen, at) in self.0.iter_mut().zip(&watch.at) {
            let at = at.load(Relaxed);
            if at != seen.0 {
                *seen = (at, Instant::now());
            }
            let hangs = at != NOWHERE && seen.1.elapsed() > TIME_LIMIT;
            assert!(!hangs, "a call of episode {at} never ends");
        }
    }
}

/// What each worker gives, in any order. Panics if one panics or hangs.
pub fn watched<T: Send + 'static>(
    workers: u64,
    work: impl Fn(u64, &Watch) -> T + Send + Sync + 'static,
) -> Vec<T> {
    let watch = Arc::new(Watch {
        stop: AtomicBool::new(false),
        at: (0..workers).map(|_| AtomicU64::new(0)).collect(),
    });
    let work = Arc::new(work);
    let (sender, receiver) = channel();
    for worker in 0..workers {
        let (sender, work, watch) = (sender.clone(), work.clone(), watch.clone());
        std::thread::spawn(move || {
            let guard = StopOnPanic(&watch);
            let given = work(worker, &watch);
            drop(guard);
            watch.begins(worker, NOWHERE);
            sender.send(given)
        });
    }
    drop(sender);
    let mut seen = Seen(vec![(NOWHERE, Instant::now()); workers as usize]);
    let one = |_| awaited(&receiver, &watch, &mut seen);
    (0..workers).map(one).collect()
}

fn awaited<T>(receiver: &Receiver<T>, watch: &Watch, seen: &mut Seen) -> T {
    loop {
        match receiver.recv_timeout(LOOK_EVERY) {
            Ok(given) => return given,
            Err(RecvTimeoutError::Disconnected) => panic!("a worker panicked"),
            Err(RecvTimeoutError::Timeout) => seen.look(watch),
        }
    }
}

#[test]
fn a_worker_that_panics_stops_the_others() {
    let caught = crate::panics::caught(|| {
        watched(2, |worker, watch| {
            assert_ne!(worker, 1, "this worker panics");
            (0..).find(|&episode| !watch.begins(worker, episode))
        })
    });
    assert_eq!(caught.err().as_deref(), Some("a worker panicked"));
}
