//! A random trial for each call, fixed by the noise it is given.

mod boards;
mod lists;
mod passes;

use noise::Noise;

/// A call's trial, which gives the number answered, and the numbers that the call can answer on a log that fits in memory.
#[derive(Clone, Copy)]
pub struct Round {
    pub call: &'static str,
    pub trial: fn(&mut Noise) -> u32,
    pub numbers: &'static [usize],
}

/// Every trial.
pub const ALL: [Round; 10] = [
    Round { call: "fresh", trial: passes::fresh, numbers: &[0, 1] },
    Round { call: "block", trial: passes::block, numbers: &[0, 1, 2, 3, 4, 5] },
    Round { call: "close", trial: passes::close, numbers: &[0, 1, 3, 4, 5] },
    Round { call: "cut_log", trial: passes::cut_log, numbers: &[0, 1, 5] },
    Round { call: "segment", trial: boards::segment, numbers: &[0, 1, 6, 7] },
    Round { call: "record", trial: boards::record, numbers: &[0, 1, 6, 7] },
    Round { call: "merge", trial: boards::merge, numbers: &[0, 1, 2, 5, 7, 8, 9] },
    Round { call: "amend", trial: lists::amend, numbers: &[0, 1, 5, 10, 11] },
    Round { call: "write_sheet", trial: lists::write_sheet, numbers: &[0, 1, 5, 10] },
    Round { call: "read_sheet", trial: lists::read_sheet, numbers: &[0, 5, 10, 12, 13, 14, 15] },
];

/// Says which round failed, so that it can be run alone.
struct Telling {
    call: &'static str,
    seed: u64,
}

impl Drop for Telling {
    fn drop(&mut self) {
        if std::thread::panicking() {
            eprintln!("{} differs in the round of seed {}", self.call, self.seed);
        }
    }
}

/// Runs that many rounds of a call, and counts how often each number was answered. The first has this seed; each later one has for
/// its seed the first number of the noise before it, so that runs from neighbouring seeds go different ways.
pub fn run(round: &Round, mut seed: u64, rounds: u64) -> [u64; 18] {
    let mut answered = [0; 18];
    for _ in 0..rounds {
        let _telling = Telling { call: round.call, seed };
        answered[(round.trial)(&mut Noise::new(seed)) as usize] += 1;
        seed = Noise::new(seed).number();
    }
    answered
}
