//! Segments, markers and merging.

use crate::{WIDE, list};
use noise::Noise;
use second::{LONGEST, Record, Settings, cuts_after, fill_bay, marks, merge, record, segment, well_formed};

#[test]
fn an_empty_log_has_no_segments() {
    assert_eq!(segment(&WIDE, &[], 64, 2, 0, &[9; 4]).0, 7);
    assert_eq!(merge(&WIDE, 0, 64, u64::MAX, &[], &[9]), (0, 0, vec![9]));
    assert_eq!(merge(&WIDE, 0, 63, 2, &[], &[9]).0, 7);
    assert_eq!(merge(&WIDE, 0, 64, 1, &[], &[9]).0, 7);
}

#[test]
fn the_end_is_recorded_unless_only_the_log_ends_there() {
    let offsets = |n, marks: &[u64], size, index| record(&WIDE, n, marks, size, index).offsets;
    assert_eq!(offsets(200, &[], 300, 0), [200], "n is a forced cut");
    assert_eq!(offsets(199, &[], 300, 0), [0; 0], "n is only the end");
    assert_eq!(offsets(148, &[100, 148], 300, 0), [100, 148], "n is a mark far enough");
    assert_eq!(offsets(147, &[100, 147], 300, 0), [100], "n is a mark too near");
    assert_eq!(offsets(330, &[200, 300, 330], 190, 1), [200, 300], "too near, past the marker");
    assert_eq!(offsets(330, &[300, 330], 190, 1), [300, 330], "a mark, before any marker");
    assert_eq!(offsets(348, &[200, 300, 348], 190, 1), [200, 300, 348], "a cut past the marker");
    assert_eq!(offsets(600, &[200, 300, 400], 190, 3), [0; 0], "600 is forced, but there is no marker");
}

/// How a reading finds the marker: from the mark b, all marks of the log and the first offset of the segment.
type Reading = fn(&Settings, u64, &[u64], u64) -> bool;

/// The record by another reading of the marker. The end n, which is no mark here, is left to the merging.
fn record_by(reading: Reading, settings: &Settings, n: u64, marks: &[u64], size: u64, index: u64) -> Record {
    let segment = index * size + 1..=n.min((index + 1) * size);
    let slow = marks.iter().copied().filter(|p| segment.contains(p));
    let Some(marker) = slow.clone().find(|&b| reading(settings, b, marks, *segment.start())) else {
        return Record { marker: 0, offsets: slow.collect() };
    };
    let then = cuts_after(settings, n, marks, marker).into_iter().filter(|p| segment.contains(p) && *p < n);
    Record { marker, offsets: slow.take_while(|&mark| mark <= marker).chain(then).collect() }
}

/// How many of many random sets of marks are merged wrongly from records by this reading.
fn merged_wrongly(reading: Reading) -> usize {
    let mut noise = Noise::new(9);
    let mut wrong = 0;
    for _ in 0..5_000 {
        let settings = Settings { minimum: 48, maximum: noise.pick(&[100, 150, 200]), ..WIDE };
        let mut marks = vec![noise.between(48, 120)];
        while marks[marks.len() - 1] < 900 {
            marks.push(marks[marks.len() - 1] + noise.between(1, 150));
        }
        let (n, size) = (1_200_u64, noise.between(64, 500));
        let records = (1..n.div_ceil(size)).map(|index| record_by(reading, &settings, n, &marks, size, index));
        let bays = [record(&settings, n, &marks, size, 0)].into_iter().chain(records);
        let board: Vec<u64> = bays.flat_map(|record| fill_bay(&record, &[0; 502]).2).collect();
        let (_, count, merged) = merge(&settings, n, size, 502, &board, &[0; 26]);
        wrong += usize::from(merged[..count as usize] != cuts_after(&settings, n, &marks, 0));
    }
    wrong
}

fn mark_before(b: u64, marks: &[u64]) -> Option<u64> {
    marks.iter().copied().rfind(|&mark| mark < b)
}

fn steps(settings: &Settings, greatest: u64) -> std::ops::RangeInclusive<u64> {
    settings.minimum..=greatest
}

#[test]
fn a_neighbour_is_the_mark_just_before_in_the_same_segment() {
    let marker = |marks: &[u64]| record(&WIDE, 400, marks, 190, 1).marker;
    assert_eq!(marker(&[200, 248]), 248);
    assert_eq!(marker(&[200, 247]), 0);
    assert_eq!(marker(&[200, 352]), 352);
    assert_eq!(marker(&[200, 353]), 0, "past maximum - minimum");
    assert_eq!(marker(&[200, 230, 260]), 0, "260 follows 230, not 200");
    assert_eq!(marker(&[250]), 0, "the segment's edge is no mark");
    assert_eq!(marker(&[180, 250]), 0, "180 is in another segment");
}

#[test]
fn the_marker_read_otherwise_merges_wrongly() {
    let ours: Reading = |settings, b, marks, start| {
        mark_before(b, marks)
            .is_some_and(|a| a >= start && steps(settings, settings.maximum - settings.minimum).contains(&(b - a)))
    };
    let any_earlier_mark: Reading = |settings, b, marks, start| {
        let steps = steps(settings, settings.maximum - settings.minimum);
        marks.iter().any(|&a| start <= a && a < b && steps.contains(&(b - a)))
    };
    let edge_as_a_mark: Reading = |settings, b, marks, start| {
        let before = mark_before(b, marks).unwrap_or(0).max(start - 1);
        steps(settings, settings.maximum - settings.minimum).contains(&(b - before))
    };
    let up_to_maximum: Reading = |settings, b, marks, start| {
        mark_before(b, marks).is_some_and(|a| a >= start && steps(settings, settings.maximum).contains(&(b - a)))
    };
    assert_eq!(merged_wrongly(ours), 0);
    assert_ne!(merged_wrongly(any_earlier_mark), 0);
    assert_ne!(merged_wrongly(edge_as_a_mark), 0);
    assert_ne!(merged_wrongly(up_to_maximum), 0);
}

#[test]
fn a_narrow_span_has_no_markers() {
    let mut noise = Noise::new(10);
    for _ in 0..200 {
        let minimum = noise.between(48, 100);
        let settings = Settings { bits: 3, target: 5, minimum, maximum: minimum + noise.below(minimum) };
        let log = noise.log(1_000);
        let marks = marks(&settings, &log);
        let size = noise.between(64, 300);
        let records: Vec<Record> =
            (0..1_000_u64.div_ceil(size)).map(|index| record(&settings, 1_000, &marks, size, index)).collect();
        assert!(records.iter().all(|record| record.marker == 0));
        let board: Vec<u64> = records.iter().flat_map(|record| fill_bay(record, &[0; 302]).2).collect();
        let (_, count, merged) = merge(&settings, 1_000, size, 302, &board, &list(&settings, 1_000));
        assert_eq!(merged[..count as usize], cuts_after(&settings, 1_000, &marks, 0));
    }
}

#[test]
fn a_marker_that_the_walk_never_cuts() {
    let board = [2, 0, 140, 9, 3, 160, 160, 260];
    assert_eq!(merge(&WIDE, 300, 150, 4, &board, &[9; 7]), (0, 3, vec![140, 260, 300, 9, 9, 9, 9]));
}

#[test]
fn forced_cuts_stand_wherever_the_rule_makes_them() {
    let empty_bays = [1, 0].repeat(4);
    let forced = [200, 400, 600, 800, 1_000];
    assert_eq!(merge(&WIDE, 1_000, 300, 2, &empty_bays, &[9; 21]).2[..5], forced);
    assert_eq!(merge(&WIDE, 1_000, 300, 2, &empty_bays, &[9; 21]).1, 5);
    let onto_the_marker = [2, 0, 140, 9, 1, 0, 9, 9, 3, 340, 340, 400];
    assert_eq!(merge(&WIDE, 450, 150, 4, &onto_the_marker, &[9; 10]).2[..4], [140, 340, 400, 450]);
}

#[test]
fn the_longest_log_is_merged() {
    let settings = Settings { minimum: 1 << 24, maximum: 1 << 24, ..WIDE };
    let board = [1, 0].repeat(1 << 16);
    let (number, count, merged) = merge(&settings, LONGEST, 1 << 24, 2, &board, &[9; (1 << 16) + 1]);
    assert_eq!((number, count), (0, 1 << 16));
    assert!((1..).zip(&merged[..1 << 16]).all(|(k, &cut)| cut == k << 24));
    assert!(well_formed(&settings, &merged[..1 << 16]));
    let one_more = [&merged[..1 << 16], &[LONGEST + 1]].concat();
    assert!(!well_formed(&settings, &one_more));
}

#[test]
fn bays_are_judged_one_by_one() {
    let merged = |board: &[u64]| merge(&WIDE, 300, 150, 4, board, &[9; 7]);
    let untouched = |number| (number, 0, vec![9; 7]);
    assert_eq!(merged(&[2, 0, 20, 9, 0, 0, 9, 9]), untouched(9));
    assert_eq!(merged(&[0, 0, 9, 9, 2, 7, 20, 9]), untouched(8));
    assert_eq!(merged(&[2, 0, 140, 9, 0, 0, 9, 9]), untouched(8));
    assert_eq!(merged(&[2, 0, 140, 9, 2, 7, 20, 9]), untouched(9));
}

#[test]
fn each_way_to_be_malformed() {
    let accepted = [2, 0, 140, 9, 3, 160, 160, 260];
    let number = |changes: &[(usize, u64)]| {
        let mut board = accepted;
        for &(at, entry) in changes {
            board[at] = entry;
        }
        merge(&WIDE, 300, 150, 4, &board, &[9; 7]).0
    };
    assert_eq!(number(&[]), 0);
    assert_eq!(number(&[(4, 4)]), 9, "more offsets than the bay holds");
    assert_eq!(number(&[(4, u64::MAX)]), 9);
    assert_eq!(number(&[(5, 0), (6, 260)]), 9, "twice the same");
    assert_eq!(number(&[(5, 0), (6, 280)]), 9, "falling");
    assert_eq!(number(&[(5, 0), (6, 150)]), 9, "before the segment");
    assert_eq!(number(&[(5, 0), (6, 151)]), 0);
    assert_eq!(number(&[(5, 0), (7, 300)]), 0);
    assert_eq!(number(&[(5, 0), (7, 301)]), 9, "past the segment");
    assert_eq!(number(&[(5, 161)]), 9, "the marker is not listed");
    assert_eq!(number(&[(1, 140)]), 9, "a marker in segment 0");
    assert_eq!(number(&[(7, 207)]), 9, "a step past the marker too short");
    assert_eq!(number(&[(5, 0), (7, 207)]), 0, "without a marker any step");
    assert_eq!(number(&[(5, 260), (6, 259)]), 0, "before the marker any step");
    assert_eq!(number(&[(2, 47)]), 9, "a step in segment 0 too short");
    assert_eq!(number(&[(2, 48)]), 0);

    let short = Settings { maximum: 99, ..WIDE };
    assert_eq!(merge(&short, 300, 150, 4, &accepted, &[9; 7]).0, 9, "steps too long");
}

#[test]
fn numbers_that_would_wrap() {
    let (log, board) = ([0; 300], [9; 8]);
    for (size, room, index) in [
        (0, 4, 0),
        (63, 4, 0),
        (16_777_217, 4, 0),
        (u64::MAX, 4, 0),
        (150, 0, 0),
        (150, 1, 0),
        (150, 5, 0),
        (150, 1 << 63, 0),
        (150, u64::MAX, 1),
        (150, 4, 2),
        (150, 4, 1 << 62),
        (150, 4, u64::MAX),
    ] {
        assert_eq!(segment(&WIDE, &log, size, room, index, &board), (7, 0, board.to_vec()));
    }
    assert_eq!(merge(&WIDE, 300, 150, 1 << 63, &board, &[9; 7]).0, 7);
    assert_eq!(merge(&WIDE, u64::MAX, 150, 4, &board, &[9; 7]).0, 2);
    assert_eq!(segment(&WIDE, &log, 150, 4, 0, &[9; 7]).0, 7, "the whole board is wanted");
}
