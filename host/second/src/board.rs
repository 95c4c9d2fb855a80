//! Segments, the board of their bays, and merging.

use crate::rule::{LONGEST, Settings, cuts_after, marks, next, written_over};
use std::ops::RangeInclusive;

/// The sizes a segment may have.
const SIZES: RangeInclusive<u64> = 64..=16_777_216;

/// What a segment finds: its marker, or 0 for none, and its offsets, rising.
#[derive(Clone, Debug, Default, PartialEq, Eq)]
pub struct Record {
    pub marker: u64,
    pub offsets: Vec<u64>,
}

/// Whether S and R are in range and the board has a bay for each segment of a log of n bytes.
fn board_fits(n: u64, size: u64, width: u64, board: &[u64]) -> bool {
    SIZES.contains(&size) && width >= 2 && board.len() as u128 >= u128::from(n.div_ceil(size)) * u128::from(width)
}

/// Whether offset p is in the segment.
fn covers(n: u64, size: u64, index: u64, p: u64) -> bool {
    index * size < p && p <= n.min((index + 1) * size)
}

/// The log's cuts from its marks, without n when n is a cut only because the log ends there.
fn cuts_but_the_bare_end(settings: &Settings, n: u64, marks: &[u64]) -> Vec<u64> {
    let mut cuts = cuts_after(settings, n, marks, 0);
    let before = cuts.iter().rev().nth(1).copied().unwrap_or(0);
    let by_mark = marks.last() == Some(&n) && settings.allows(n - before);
    if !by_mark && n - before < settings.maximum {
        cuts.pop();
    }
    cuts
}

/// The record of a segment of a log of n bytes with these marks. S is in range and there is such a segment.
pub fn record(settings: &Settings, n: u64, marks: &[u64], size: u64, index: u64) -> Record {
    let inside = |&p: &u64| covers(n, size, index, p);
    let cuts: Vec<u64> = cuts_but_the_bare_end(settings, n, marks).into_iter().filter(inside).collect();
    if index == 0 {
        return Record { marker: 0, offsets: cuts };
    }
    let slow: Vec<u64> = marks.iter().copied().filter(inside).collect();
    let marker_steps = settings.minimum..=settings.maximum - settings.minimum;
    let Some(pair) = slow.windows(2).find(|pair| marker_steps.contains(&(pair[1] - pair[0]))) else {
        return Record { marker: 0, offsets: slow };
    };
    let marker = pair[1];
    let until = slow.iter().copied().filter(|&mark| mark <= marker);
    let then = cuts.into_iter().filter(|&cut| cut > marker);
    Record { marker, offsets: until.chain(then).collect() }
}

/// A record put into its bay of at least 2 entries: (number, entries written, bay). Where it is longer than the bay: 6.
pub fn fill_bay(record: &Record, bay: &[u64]) -> (u32, u64, Vec<u64>) {
    let places = bay.len() - 2;
    let count = record.offsets.len();
    if count > places {
        return (6, 0, [&[0, 0], &record.offsets[..places]].concat());
    }
    let entries = [&[1 + count as u64, record.marker], &record.offsets[..]].concat();
    (0, entries.len() as u64, written_over(bay, &entries))
}

/// One segment: (number, 2 plus its offsets, board). R is called `width`.
pub fn segment(
    settings: &Settings,
    log: &[u8],
    size: u64,
    width: u64,
    index: u64,
    board: &[u64],
) -> (u32, u64, Vec<u64>) {
    let n = log.len() as u64;
    if !settings.in_range() {
        return (1, 0, board.to_vec());
    }
    if n > LONGEST {
        return (2, 0, board.to_vec());
    }
    if !board_fits(n, size, width, board) || index >= n.div_ceil(size) {
        return (7, 0, board.to_vec());
    }
    let record = record(settings, n, &marks(settings, log), size, index);
    let (before, rest) = board.split_at((index * width) as usize);
    let (bay, behind) = rest.split_at(width as usize);
    let (number, written, bay) = fill_bay(&record, bay);
    (number, written, [before, &bay, behind].concat())
}

/// The offsets of a bay that is done and not malformed.
fn offsets(bay: &[u64]) -> &[u64] {
    &bay[2..][..(bay[0] - 1) as usize]
}

/// Whether a bay that is done is malformed.
fn malformed(settings: &Settings, n: u64, size: u64, index: u64, bay: &[u64]) -> bool {
    if bay[0] - 1 > bay.len() as u64 - 2 {
        return true;
    }
    let (marker, offsets) = (bay[1], offsets(bay));
    let rise = offsets.windows(2).all(|pair| pair[0] < pair[1]);
    if !rise || !offsets.iter().all(|&p| covers(n, size, index, p)) {
        return true;
    }
    let found = offsets.iter().position(|&p| p == marker);
    let stepped = match (index, marker, found) {
        (0, 0, _) => [&[0], offsets].concat(),
        (0, _, _) => return true,
        (_, 0, _) => Vec::new(),
        (_, _, None) => return true,
        (_, _, Some(from)) => offsets[from..].to_vec(),
    };
    !stepped.windows(2).all(|pair| settings.allows(pair[1] - pair[0]))
}

/// The walk over bays that are all accepted.
fn walk(settings: &Settings, n: u64, size: u64, bays: &[&[u64]]) -> Vec<u64> {
    let read_as_marks: Vec<u64> = bays.iter().skip(1).flat_map(|bay| offsets(bay)).copied().collect();
    let mut cuts: Vec<u64> = bays.iter().take(1).flat_map(|bay| offsets(bay)).copied().collect();
    while cuts.last().copied().unwrap_or(0) < n {
        let c = cuts.last().copied().unwrap_or(0);
        let cut = next(settings, n, &read_as_marks, c);
        cuts.push(cut);
        let bay = bays[((cut - 1) / size) as usize];
        if cut == bay[1] {
            cuts.extend(offsets(bay).iter().filter(|&&p| p > cut));
        }
    }
    cuts
}

/// Merging a board of a log of n bytes: (number, entries written, list).
pub fn merge(settings: &Settings, n: u64, size: u64, width: u64, board: &[u64], list: &[u64]) -> (u32, u64, Vec<u64>) {
    let refused = |number| (number, 0, list.to_vec());
    if !settings.in_range() {
        return refused(1);
    }
    if n > LONGEST {
        return refused(2);
    }
    if !board_fits(n, size, width, board) {
        return refused(7);
    }
    if (list.len() as u64) < settings.room(n) {
        return refused(5);
    }
    let bays: Vec<&[u64]> = board.chunks(width as usize).take(n.div_ceil(size) as usize).collect();
    for (index, bay) in bays.iter().enumerate() {
        if bay[0] == 0 {
            return refused(8);
        }
        if malformed(settings, n, size, index as u64, bay) {
            return refused(9);
        }
    }
    let cuts = walk(settings, n, size, &bays);
    (0, cuts.len() as u64, written_over(list, &cuts))
}
