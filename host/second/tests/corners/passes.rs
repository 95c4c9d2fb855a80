//! Rooms and carries.

use crate::WIDE;
use second::{Carry, LONGEST, amend, block, close, cut_log, fresh, merge};

#[test]
fn rooms_are_tested_by_their_formula() {
    let carry = fresh(&WIDE).1;
    assert_eq!(block(&carry, &[], &[]).0, 5);
    assert_eq!(close(&carry, &[]).0, 5);
    assert_eq!(cut_log(&WIDE, &[], &[]).0, 5);
    assert_eq!(amend(&WIDE, &[10], 0, 10, 0, &[], &[]).0, 5);
    assert_eq!(merge(&WIDE, 0, 64, 2, &[], &[]).0, 5);
    assert_eq!(cut_log(&WIDE, &[0; 96], &[9; 2]).0, 5);
    assert_eq!(cut_log(&WIDE, &[0; 95], &[9; 2]), (0, 1, vec![95, 9]));
}

#[test]
fn a_carry_in_order_need_not_come_from_a_log() {
    let unreachable = Carry { taken: 10, since: 5, ..fresh(&WIDE).1 };
    assert!(unreachable.in_order());
    assert_eq!(close(&unreachable, &[9]).3, [10]);

    let mut window = [0; 48];
    window[47] = 1;
    let at_a_mark = Carry { taken: 100, since: 60, window, signature: 1, ..fresh(&WIDE).1 };
    let (number, written, after, untouched) = block(&at_a_mark, &[0], &[9]);
    assert_eq!((number, written, untouched), (0, 0, vec![9]));
    assert_eq!((after.taken, after.since, after.signature), (101, 61, 256));
}

#[test]
fn a_carry_at_the_longest_log() {
    let full = Carry { taken: LONGEST, since: 7, ..fresh(&WIDE).1 };
    assert_eq!(block(&full, &[], &[9]), (0, 0, full, vec![9]));
    assert_eq!(block(&full, &[0], &[9]), (2, 0, full, vec![9]));
    assert_eq!(close(&full, &[9]), (0, 1, Carry { closed: 1, ..full }, vec![LONGEST]));
}
