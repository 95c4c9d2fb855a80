//! Pieces of nearly 16,777,216 bytes, the greatest maximum, and of exactly that.

use thrunglow::Settings;
use trials::compare;
use trials::ways::{in_blocks, whole};

const LONGEST_PIECE: u64 = 1 << 24;

/// Zeros with a one before each of these offsets, which are the marks.
fn marked_at(length: usize, marks: &[u64]) -> Vec<u8> {
    let mut log = vec![0; length];
    for &mark in marks {
        log[mark as usize - 1] = 1;
    }
    log
}

/// A log a little longer than a piece can be, with these marks, has this cut and its end, every way.
fn is_cut_at(marks: &[u64], cut: u64) {
    let settings = Settings { bits: 31, target: 1, minimum: LONGEST_PIECE - 100, maximum: LONGEST_PIECE };
    let log = marked_at(LONGEST_PIECE as usize + 200, marks);
    let n = log.len() as u64;
    assert_eq!(whole(settings, &log), [cut, n]);
    assert_eq!(in_blocks(settings, [&log[..]]), [cut, n]);
    assert_eq!(compare::record(settings, &log, LONGEST_PIECE, 0, &[7; 4]).1, [2, 0, cut, 7]);
}

#[test]
fn a_cut_at_a_mark() {
    let too_near = LONGEST_PIECE - 101;
    is_cut_at(&[too_near, LONGEST_PIECE - 1], LONGEST_PIECE - 1);
}

#[test]
fn a_forced_cut() {
    is_cut_at(&[], LONGEST_PIECE);
}
