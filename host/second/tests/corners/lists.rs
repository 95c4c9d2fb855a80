//! Well-formed lists and amending.

use crate::{WIDE, counts, list, log_with_ones};
use noise::Noise;
use second::{Label, amend, cuts_after, well_formed, write_sheet};

#[test]
fn only_the_last_step_may_be_short() {
    assert!(!well_formed(&WIDE, &[10, 60]));
    assert!(well_formed(&WIDE, &[10]));
    assert!(well_formed(&WIDE, &[60, 61]));
    assert!(well_formed(&WIDE, &[]));
    for list in [&[0][..], &[60, 60], &[60, 50], &[201], &[60, 261], &[u64::MAX], &[60, u64::MAX], &[60, 0]] {
        assert!(!well_formed(&WIDE, list), "{list:?}");
        assert_eq!(amend(&WIDE, list, 0, 0, 0, &[0; 61], &[9; 2]), (10, counts(0, 0, 0), vec![9; 2]));
        assert_eq!(write_sheet(&WIDE, Label::Live, list, &[9; 64]), (10, 0, vec![9; 64]));
    }
}

#[test]
fn edits_out_of_range() {
    let number = |s, d, e, length: usize| amend(&WIDE, &[50], s, d, e, &vec![0; length], &[9; 3]).0;
    assert_eq!(number(0, 0, 0, 50), 0);
    assert_eq!(number(50, 0, 10, 60), 0);
    assert_eq!(number(51, 0, 0, 50), 11);
    assert_eq!(number(40, 11, 1, 40), 11);
    assert_eq!(number(0, 0, 1, 50), 11);
    assert_eq!(number(0, 0, u64::MAX - 49, 0), 11, "n + e wraps onto the length");
    assert_eq!(number(u64::MAX, 0, 0, 50), 11);
    assert_eq!(number(1, u64::MAX, 0, 0), 11);
    assert_eq!(number(u64::MAX, u64::MAX, u64::MAX, 50), 11);
}

#[test]
fn the_old_end_is_never_front() {
    let forced = [&log_with_ones(400, &[])[..], &[0; 20]].concat();
    let amended = amend(&WIDE, &[200, 400], 400, 0, 20, &forced, &[9; 9]);
    assert_eq!((amended.1, &amended.2[..3]), (counts(1, 1, 1), &[200, 400, 420][..]));

    let marked = [&log_with_ones(300, &[100, 200, 300])[..], &[0; 20]].concat();
    let amended = amend(&WIDE, &[100, 200, 300], 300, 0, 20, &marked, &[9; 7]);
    assert_eq!((amended.1, &amended.2[..4]), (counts(2, 1, 1), &[100, 200, 300, 320][..]));
}

#[test]
fn no_meeting_only_without_a_new_end_to_meet() {
    let all_new = amend(&WIDE, &[], 0, 0, 300, &[0; 300], &[9; 7]);
    assert_eq!((all_new.1, &all_new.2[..2]), (counts(0, 2, 0), &[200, 300][..]));
    let cut_short = amend(&WIDE, &[100, 200, 300], 200, 100, 0, &log_with_ones(200, &[100, 200]), &[9; 5]);
    assert_eq!(cut_short, (0, counts(2, 0, 0), vec![100, 200, 9, 9, 9]));
    let emptied = amend(&WIDE, &[100, 200, 300], 0, 300, 0, &[], &[9]);
    assert_eq!(emptied, (0, counts(0, 0, 0), vec![9]));

    let mut noise = Noise::new(11);
    for _ in 0..2_000 {
        let n = noise.below(600);
        let old = cuts_after(&WIDE, n, &[], 0);
        let s = noise.between(0, n);
        let (d, e) = (noise.between(0, n - s), noise.below(300));
        let length = (n - d + e) as usize;
        let amended = amend(&WIDE, &old, s, d, e, &vec![0; length], &list(&WIDE, length)).1;
        let front = old.iter().copied().filter(|&cut| cut <= s && cut < n).max().unwrap_or(0);
        assert_eq!(amended.back > 0, n > 0 && length as u64 > front);
    }
}

#[test]
fn a_meeting_at_a_front_cut_is_none() {
    let log = log_with_ones(400, &[100, 200, 300]);
    let doubled = [&log[..100], &log].concat();
    let amended = amend(&WIDE, &[100, 200, 300, 400], 100, 0, 100, &doubled, &[9; 11]);
    assert_eq!((amended.1, &amended.2[..5]), (counts(1, 1, 3), &[100, 200, 300, 400, 500][..]));
}

#[test]
fn an_edit_of_nothing() {
    let log = log_with_ones(430, &[100, 200, 300]);
    let old = [100, 200, 300, 430];
    for s in 0..=430 {
        let amended = amend(&WIDE, &old, s, 0, 0, &log, &[9; 9]);
        let front = old[..3].iter().filter(|&&cut| cut <= s).count() as u64;
        assert_eq!((amended.1, &amended.2[..4]), (counts(front, 0, 4 - front), &old[..]));
    }
}
