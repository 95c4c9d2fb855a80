//! Contestants that take turns, so that a busy machine disturbs all alike, each with its best time.

use std::time::{Duration, Instant};

/// One way of doing a job.
pub struct Contestant<'a> {
    pub name: String,
    /// The bytes that its speed counts.
    pub bytes: usize,
    /// The bytes of memory it is lent or takes beside the log.
    pub memory: usize,
    /// Does the job once, and says how long that took, or none where it can no longer.
    turn: Box<dyn FnMut() -> Option<Duration> + 'a>,
    pub best: Option<Duration>,
}

impl<'a> Contestant<'a> {
    pub fn new(name: &str, bytes: usize, memory: usize, mut job: impl FnMut() + 'a) -> Contestant<'a> {
        let turn = move || {
            let start = Instant::now();
            job();
            Some(start.elapsed())
        };
        Contestant::timed_elsewhere(name, bytes, memory, turn)
    }

    /// A contestant that takes its own time.
    pub fn timed_elsewhere(
        name: &str,
        bytes: usize,
        memory: usize,
        turn: impl FnMut() -> Option<Duration> + 'a,
    ) -> Contestant<'a> {
        Contestant { name: name.to_string(), bytes, memory, turn: Box::new(turn), best: None }
    }

    /// Megabytes (10^6 bytes) a second, at its best.
    pub fn speed(&self) -> Option<f64> {
        self.best.map(|best| self.bytes as f64 / best.as_secs_f64() / 1e6)
    }
}

/// Lets each take its turn, that many times.
pub fn run(contestants: &mut [Contestant], rounds: usize) {
    for _ in 0..rounds {
        for contestant in contestants.iter_mut() {
            let took = (contestant.turn)();
            contestant.best = [contestant.best, took].into_iter().flatten().min();
        }
    }
}
