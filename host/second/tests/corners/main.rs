//! Places where document 01 is easily misread, each with an example.

mod boards;
mod lists;
mod passes;
mod sheets;

use second::{Counts, Settings};

/// Marks stand after each 1 that has 47 zeros before it.
const WIDE: Settings = Settings { bits: 31, target: 1, minimum: 48, maximum: 200 };

/// A log of zeros but for ones just below these offsets.
fn log_with_ones(length: usize, offsets: &[usize]) -> Vec<u8> {
    let mut log = vec![0; length];
    for p in offsets {
        log[p - 1] = 1;
    }
    log
}

fn counts(front: u64, recut: u64, back: u64) -> Counts {
    Counts { front, recut, back }
}

fn list(settings: &Settings, length: usize) -> Vec<u64> {
    vec![9; length / settings.minimum as usize + 1]
}
