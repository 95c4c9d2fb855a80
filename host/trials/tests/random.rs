//! Random trials of each call, seeded. Each number that a call can answer must have come up.

use trials::rounds::{ALL, run};

fn agree(call: &str, rounds: u64) {
    let round = ALL.iter().find(|round| round.call == call).expect("a call");
    let answered = run(round, 1, rounds);
    let came_up: Vec<usize> = (0..answered.len()).filter(|&number| answered[number] > 0).collect();
    assert_eq!(came_up, round.numbers, "{answered:?}");
}

#[test]
fn fresh() {
    agree("fresh", 50_000);
}

#[test]
fn block() {
    agree("block", 120_000);
}

#[test]
fn close() {
    agree("close", 100_000);
}

#[test]
fn cut_log() {
    agree("cut_log", 80_000);
}

#[test]
fn segment() {
    agree("segment", 60_000);
}

#[test]
fn record() {
    agree("record", 60_000);
}

#[test]
fn merge() {
    agree("merge", 400_000);
}

#[test]
fn amend() {
    agree("amend", 80_000);
}

#[test]
fn write_sheet() {
    agree("write_sheet", 150_000);
}

#[test]
fn read_sheet() {
    agree("read_sheet", 150_000);
}
