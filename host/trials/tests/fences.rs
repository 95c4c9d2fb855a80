//! No call reads or writes outside the memory it is lent: each random trial again with that memory right after a page that may not
//! be touched, and right before one. A call that did would end these tests with a signal.

use std::os::unix::process::ExitStatusExt;
use std::process::Command;
use thrunglow::Settings;
use trials::lent::{Place, lending};
use trials::rounds::{ALL, run};
use trials::{compare, ways};

/// How a program that touches this byte ends: what it printed, and the signal that ended it.
fn trespass(act: &str, side: &str) -> (String, Option<i32>) {
    let done = Command::new(env!("CARGO_BIN_EXE_trespass")).args([act, side]).output().expect("the program starts");
    (String::from_utf8(done.stdout).expect("text"), done.status.signal())
}

#[test]
fn a_fence_ends_who_touches_it() {
    const SEGMENTATION_FAULT: i32 = 11;
    for act in ["read", "write"] {
        assert_eq!(trespass(act, "within"), ("touched\n".to_string(), None));
        for side in ["before", "after"] {
            assert_eq!(trespass(act, side), (String::new(), Some(SEGMENTATION_FAULT)), "{act} {side}");
        }
    }
}

/// Every call that is lent memory, on right inputs and on such that are refused: each number that it can answer comes up.
fn every_call(place: Place) {
    for round in ALL.iter().filter(|round| round.call != "fresh") {
        let answered = lending(place, || run(round, 1_000_000, 4_000));
        let came_up: Vec<usize> = (0..answered.len()).filter(|&number| answered[number] > 0).collect();
        assert_eq!(came_up, round.numbers, "{}: {answered:?}", round.call);
    }
}

#[test]
fn memory_right_after_a_fence() {
    every_call(Place::AfterFence);
}

#[test]
fn memory_right_before_a_fence() {
    every_call(Place::BeforeFence);
}

/// Logs of whole pages have a fence at both ends; so has a sheet of 508 cuts.
#[test]
fn whole_pages_between_fences() {
    let settings = Settings { bits: 5, target: 7, minimum: 48, maximum: 200 };
    for pages in 1..=3 {
        let log = noise::Noise::new(pages).bytes(4_096 * pages as usize);
        lending(Place::AfterFence, || {
            let cuts = ways::whole(settings, &log);
            assert_eq!(ways::in_blocks(settings, [&log[..]]), cuts);
            for size in [64, 1_000, 4_096] {
                assert_eq!(ways::in_segments(settings, &log, size), cuts);
            }
            for at in [0, 100, log.len() as u64] {
                assert_eq!(ways::amended(settings, &cuts, [at, 0, 0], &log).1, cuts);
            }
        });
    }
    let list: Vec<u64> = (1..=508).map(|k| 100 * k).collect();
    let (outcome, sheet) = lending(Place::AfterFence, || compare::write_sheet(settings, true, &list, &[7; 4_096]));
    assert_eq!((outcome.number, outcome.count), (0, 4_096));
    assert_eq!(lending(Place::AfterFence, || compare::read_sheet(&sheet, true, &[7; 512])).0.number, 0);
}
