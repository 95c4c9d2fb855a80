//! Numbers near 2^40 and 2^64, and logs of more bytes than 2^40.

use noise::Noise;
use std::ffi::c_void;
use thrunglow::raw::{self, Amendment, Outcome};
use thrunglow::{Carry, Settings};
use trials::compare;
use trials::inputs::EXTREMES;

const TIGHT: Settings = Settings { bits: 31, target: 1, minimum: 48, maximum: 200 };
/// Pieces of one length, the greatest there is.
const LONG: Settings = Settings { bits: 31, target: 1, minimum: 1 << 24, maximum: 1 << 24 };
const LONGEST: u64 = 1 << 40;

#[test]
fn segments_and_bays() {
    let log = [1; 300];
    for size in EXTREMES.into_iter().chain([150]) {
        for index in EXTREMES {
            for room in EXTREMES {
                compare::segment(TIGHT, &log, size, room, index, &[7; 20]);
                compare::segment(TIGHT, &[], size, room, index, &[]);
            }
            compare::record(TIGHT, &log, size, index, &[7; 10]);
        }
    }
}

#[test]
fn boards_of_any_numbers() {
    for n in EXTREMES.into_iter().chain([300]) {
        for size in EXTREMES {
            for room in EXTREMES {
                compare::merge(TIGHT, n, size, room, &[1, 0, 7], &[7; 9]);
                compare::merge(TIGHT, n, size, room, &[], &[7]);
            }
        }
    }
}

#[test]
fn the_longest_board() {
    let size = 1 << 24;
    let board = [1, 0].repeat(65_537);
    let list = vec![7; 65_538];
    for n in [LONGEST - 1, LONGEST, LONGEST + 1] {
        for bays in [65_535, 65_536, 65_537] {
            compare::merge(LONG, n, size, 2, &board[..2 * bays], &list[..65_537]);
        }
        compare::merge(LONG, n, size, 2, &board, &list[..65_535]);
        compare::merge(LONG, n, size, 2, &board, &list[..65_536]);
        compare::merge(LONG, n, size, 2, &board, &list);
    }
}

/// A bay for each segment of the longest log, with one offset in it; some offsets are cuts, some too near, and some cuts are forced.
#[test]
fn offsets_up_to_the_longest_log() {
    let size = 1 << 24;
    let settings = Settings { minimum: 1 << 22, maximum: 3 << 22, ..TIGHT };
    let mut noise = Noise::new(1);
    let offsets: Vec<u64> = (0..LONGEST / size).map(|k| k * size + noise.between(1 << 22, 3 << 22)).collect();
    let board: Vec<u64> = offsets.iter().flat_map(|&offset| [2, 0, offset]).collect();
    let (outcome, list) = compare::merge(settings, LONGEST, size, 3, &board, &vec![7; 262_145]);
    let cuts = &list[..outcome.count as usize];
    let listed = cuts.iter().filter(|cut| offsets.binary_search(cut).is_ok()).count();
    assert!(listed > 1_000 && cuts.len() - listed > 1_000, "{outcome:?}, {listed} offsets");
}

#[test]
fn edits_of_any_numbers() {
    let log = [1; 60];
    for old in [&[][..], &[50], &[100, 150], &[LONGEST], &[u64::MAX]] {
        for at in EXTREMES.into_iter().chain([50]) {
            for removed in EXTREMES.into_iter().chain([50]) {
                for added in EXTREMES.into_iter().chain([10, 60]) {
                    compare::amend(TIGHT, old, [at, removed, added], &log, &[7; 2]);
                }
                // The new length wraps onto the true one.
                let old_length = old.last().copied().unwrap_or(0);
                let added = 60_u64.wrapping_sub(old_length).wrapping_add(removed);
                compare::amend(TIGHT, old, [at, removed, added], &log, &[7; 2]);
            }
        }
    }
}

/// A list of the longest pieces that ends at `end`.
fn long_list(end: u64) -> Vec<u64> {
    let mut list: Vec<u64> = (1..=end >> 24).map(|k| k << 24).collect();
    if list.last() != Some(&end) {
        list.push(end);
    }
    list
}

#[test]
fn the_longest_lists() {
    let log = [1; 60];
    for end in [LONGEST - 1, LONGEST, LONGEST + 1] {
        let old = long_list(end);
        compare::amend(LONG, &old, [50, end - 60, 10], &log, &[7; 2]);
        compare::amend(LONG, &old, [50, end - 60, 11], &log, &[7; 2]);
        compare::amend(LONG, &old, [end, 0, 1], &log, &[7; 2]);
        let sheet = compare::write_sheet(LONG, true, &old, &vec![7; 8 * old.len() + 32]).1;
        compare::read_sheet(&sheet, true, &vec![7; old.len()]);
    }
}

#[test]
fn the_most_cuts_of_a_sheet() {
    let settings = Settings { maximum: 48, ..TIGHT };
    for count in [1_048_575, 1_048_576, 1_048_577] {
        let list: Vec<u64> = (1..=count).map(|k| 48 * k).collect();
        let bytes = vec![7; 8 * list.len() + 32];
        let (outcome, sheet) = compare::write_sheet(settings, false, &list, &bytes);
        assert_eq!(outcome.number, if count <= 1_048_576 { 0 } else { 16 });
        compare::write_sheet(settings, false, &list, &bytes[1..]);
        compare::read_sheet(&sheet, false, &vec![7; list.len()]);
        let mut unformed = list;
        unformed[1_000] -= 1;
        compare::write_sheet(settings, false, &unformed, &bytes);
    }
}

#[test]
fn carries_near_the_longest_log() {
    for taken in [LONGEST - 100, LONGEST - 48, LONGEST - 1, LONGEST, LONGEST + 1, u64::MAX - 99, u64::MAX] {
        for since in EXTREMES.into_iter().chain([99, 199, 200, 201, taken]) {
            let carry = Carry { settings: TIGHT, taken, since, window: [0; 48], signature: 0, closed: 0 };
            for length in [0, 1, 47, 48, 49, 99, 100, 101] {
                compare::block(carry, &vec![1; length], &[7; 3]);
            }
            compare::close(carry, &[7]);
            compare::close(carry, &[]);
        }
    }
}

unsafe extern "C" {
    fn mmap(at: *mut c_void, length: usize, access: i32, kind: i32, file: i32, from: i64) -> *mut c_void;
}

/// Zeros that are never looked at: addresses of more bytes than 2^40, with no memory behind them.
fn unread_log(length: u64) -> &'static [u8] {
    const READ: i32 = 1;
    const PRIVATE_ANONYMOUS_WITHOUT_RESERVE: i32 = 0x2 | 0x20 | 0x4000;
    // SAFETY: a new mapping, read only and never taken away; it fails with -1, which stops the trial.
    unsafe {
        let start = mmap(std::ptr::null_mut(), length as usize, READ, PRIVATE_ANONYMOUS_WITHOUT_RESERVE, -1, 0);
        assert!(start as isize != -1, "this machine gives no addresses for a log of {length} bytes");
        std::slice::from_raw_parts(start.cast(), length as usize)
    }
}

/// Too long comes before the room, and after the settings and, for an edit, whether it fits. The answers stand here, since a log of
/// that length is not copied for a comparison.
#[test]
fn logs_past_the_longest() {
    let log = unread_log(LONGEST + 1);
    let refused = |number| Outcome { number, count: 0 };
    let fits = &log[..LONGEST as usize];
    assert_eq!(raw::cut_log(TIGHT, log, &mut [7]), refused(2));
    assert_eq!(raw::cut_log(TIGHT, fits, &mut [7]), refused(5));
    assert_eq!(raw::cut_log(Settings { bits: 0, ..TIGHT }, log, &mut [7]), refused(1));
    assert_eq!(raw::segment(TIGHT, log, 1 << 24, 2, 0, &mut [7; 2]), refused(2));
    assert_eq!(raw::segment(TIGHT, fits, 1 << 24, 2, 0, &mut [7; 2]), refused(7));
    assert_eq!(raw::record(TIGHT, log, 1 << 24, 0, &mut [7; 2]), refused(2));
    assert_eq!(raw::record(TIGHT, fits, 1 << 24, 65_536, &mut [7; 2]), refused(7));
    let amended = |number| Amendment { number, front: 0, recut: 0, back: 0 };
    assert_eq!(raw::amend(TIGHT, &[], 0, 0, LONGEST + 1, log, &mut [7]), amended(2));
    assert_eq!(raw::amend(TIGHT, &[], 0, 0, LONGEST, log, &mut [7]), amended(11));
    assert_eq!(raw::amend(TIGHT, &[], 0, 0, LONGEST, fits, &mut [7]), amended(5));
    let carry = raw::fresh(TIGHT).carry;
    assert_eq!(raw::block(carry, log, &mut [7]).number, 2);
    assert_eq!(raw::block(carry, fits, &mut [7]).number, 5);
}
