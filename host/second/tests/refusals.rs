//! Each call's refusals in document 01's order: all rows hold at first, then one after another is mended. Beside each
//! refusal the values are 0 and lent memory is untouched.

use second::{
    Carry, Counts, HOUSE, LONGEST, Label, Reading, Settings, amend, block, close, cut_log, fresh, merge, read_sheet,
    segment, write_sheet,
};

const FINE: Settings = Settings { bits: 31, target: 1, minimum: 48, maximum: 200 };
const BAD: Settings = Settings { maximum: 47, ..FINE };

#[test]
fn settings() {
    let with = |bits, target, minimum, maximum| Settings { bits, target, minimum, maximum };
    for fine in [HOUSE, FINE, with(1, 1, 48, 48), with(31, (1 << 31) - 1, 1 << 24, 1 << 24), with(8, 255, 48, 1 << 24)]
    {
        let carry = Carry { settings: fine, taken: 0, since: 0, window: [0; 48], signature: 0, closed: 0 };
        assert_eq!(fresh(&fine), (0, carry));
    }
    let zero = Carry { settings: Settings::default(), taken: 0, since: 0, window: [0; 48], signature: 0, closed: 0 };
    for bad in [
        BAD,
        with(0, 1, 48, 200),
        with(32, 1, 48, 200),
        with(64, 1, 48, 200),
        with(u64::MAX, 1, 48, 200),
        with(8, 0, 48, 200),
        with(8, 256, 48, 200),
        with(31, 1 << 31, 48, 200),
        with(31, u64::MAX, 48, 200),
        with(8, 1, 47, 200),
        with(8, 1, 201, 200),
        with(8, 1, 48, (1 << 24) + 1),
        with(8, 1, u64::MAX, u64::MAX),
    ] {
        assert_eq!(fresh(&bad), (1, zero), "{bad:?}");
        assert_eq!(cut_log(&bad, &[0; 10], &[7]), (1, 0, vec![7]));
    }
    assert_eq!(block(&zero, &[0], &[7]), (1, 0, zero, vec![7]));
}

#[test]
fn a_block() {
    let mut carry = Carry { settings: BAD, taken: LONGEST, since: LONGEST, closed: 1, ..fresh(&FINE).1 };
    let refused = |carry: &Carry, bytes: &[u8], list: &[u64], number| {
        assert_eq!(block(carry, bytes, list), (number, 0, *carry, list.to_vec()));
    };
    refused(&carry, &[0], &[], 1);
    carry.settings = FINE;
    refused(&carry, &[0], &[], 3);
    carry.since = 7;
    refused(&carry, &[0], &[], 4);
    carry.closed = 2;
    refused(&carry, &[0], &[], 3);
    carry.closed = 0;
    refused(&carry, &[0], &[], 2);
    refused(&carry, &[], &[], 5);
    assert_eq!(block(&carry, &[], &[7]), (0, 0, carry, vec![7]));
    carry.taken -= 48;
    refused(&carry, &[0; 49], &[7; 1], 2);
    refused(&carry, &[0; 48], &[7; 1], 5);
    assert_eq!(block(&carry, &[0; 48], &[7; 2]).0, 0);
}

#[test]
fn a_close() {
    let mut carry = Carry { settings: BAD, taken: 9, since: 10, closed: 1, ..fresh(&FINE).1 };
    let refused = |carry: &Carry, number| assert_eq!(close(carry, &[]), (number, 0, *carry, vec![]));
    refused(&carry, 1);
    carry.settings = FINE;
    refused(&carry, 3);
    carry.since = 9;
    refused(&carry, 4);
    carry.closed = 2;
    refused(&carry, 3);
    carry.closed = 0;
    refused(&carry, 5);
    assert_eq!(close(&carry, &[7, 7]), (0, 1, Carry { closed: 1, ..carry }, vec![9, 7]));
    carry.since = 0;
    assert_eq!(close(&carry, &[7, 7]), (0, 0, Carry { closed: 1, ..carry }, vec![7, 7]));
}

#[test]
fn a_carry_out_of_order() {
    let mut window = [0; 48];
    window[40..].fill(1);
    let signature = second::remainder(&window);
    let fine = Carry { taken: 8, since: 8, window, signature, ..fresh(&FINE).1 };
    let mut early = window;
    early[39] = 1;
    for (carry, number) in [
        (fine, 0),
        (Carry { taken: 7, since: 7, ..fine }, 3),
        (Carry { since: 9, ..fine }, 3),
        (Carry { signature: signature ^ 1, ..fine }, 3),
        (Carry { signature: signature | 1 << 32, ..fine }, 3),
        (Carry { window: early, ..fine }, 3),
        (Carry { window: early, signature: second::remainder(&early), ..fine }, 3),
        (Carry { window: early, signature: second::remainder(&early), taken: 9, ..fine }, 0),
        (Carry { taken: 300, since: 199, ..fine }, 0),
        (Carry { taken: 300, since: 200, ..fine }, 3),
        (Carry { taken: LONGEST, ..fine }, 0),
        (Carry { taken: LONGEST + 1, ..fine }, 3),
        (Carry { taken: u64::MAX, ..fine }, 3),
        (Carry { taken: u64::MAX, since: u64::MAX, ..fine }, 3),
    ] {
        assert_eq!(block(&carry, &[], &[7]).0, number, "{carry:?}");
        assert_eq!(close(&carry, &[7]).0, number, "{carry:?}");
    }
}

#[test]
fn a_whole_log() {
    assert_eq!(cut_log(&BAD, &[0; 60], &[7]), (1, 0, vec![7]));
    assert_eq!(cut_log(&FINE, &[0; 60], &[7]), (5, 0, vec![7]));
    assert_eq!(cut_log(&FINE, &[0; 60], &[7; 2]), (0, 1, vec![60, 7]));
}

#[test]
fn a_segment() {
    let mut log = [0; 150];
    for p in [40, 41, 42] {
        log[p] = 1;
    }
    let crowded = Settings { bits: 1, ..FINE };
    let marks = second::marks(&crowded, &log);
    let slow: Vec<u64> = marks.into_iter().filter(|&mark| mark > 64 && mark <= 128).collect();
    assert!(slow.len() > 2);
    assert_eq!(segment(&BAD, &log, 63, 1, 9, &[7; 12]), (1, 0, vec![7; 12]));
    assert_eq!(segment(&crowded, &log, 63, 1, 9, &[7; 12]), (7, 0, vec![7; 12]));
    let after = [&[7; 4][..], &[0, 0, slow[0], slow[1]], &[7; 4]].concat();
    assert_eq!(segment(&crowded, &log, 64, 4, 1, &[7; 12]), (6, 0, after));
    let room = 2 + slow.len();
    let after = [vec![7; room], vec![1 + slow.len() as u64, 0], slow, vec![7; room + 3]].concat();
    assert_eq!(segment(&crowded, &log, 64, room as u64, 1, &vec![7; 3 * room + 3]), (0, room as u64, after));
}

#[test]
fn a_merge() {
    let refused = |number| (number, 0, vec![7; 6]);
    let list = [7; 6];
    let not_done = [0; 6];
    assert_eq!(merge(&BAD, LONGEST + 1, 63, 1, &[], &list), refused(1));
    assert_eq!(merge(&FINE, LONGEST + 1, 63, 1, &[], &list), refused(2));
    assert_eq!(merge(&FINE, LONGEST, 63, 1, &[], &list), refused(7));
    assert_eq!(merge(&FINE, 300, 100, 2, &not_done[1..], &list), refused(7));
    assert_eq!(merge(&FINE, 300, 100, 2, &not_done, &list), refused(5));
    assert_eq!(merge(&FINE, 280, 100, 2, &not_done, &list), refused(8));
    assert_eq!(merge(&FINE, 280, 100, 2, &[1, 0, 2, 0, 0, 0], &list), refused(9));
    assert_eq!(merge(&FINE, 280, 100, 2, &[1, 0, 1, 0, 0, 7], &list), refused(8));
    assert_eq!(merge(&FINE, 280, 100, 2, &[1, 0, 1, 0, 1, 7], &list), refused(9));
    assert_eq!(merge(&FINE, 280, 100, 2, &[1, 0, 1, 0, 1, 0], &list), (0, 2, vec![200, 280, 7, 7, 7, 7]));
}

#[test]
fn an_amending() {
    let refused = |number| (number, Counts::default(), vec![7]);
    assert_eq!(amend(&BAD, &[60, 50], 61, 0, 0, &[0; 60], &[7]), refused(1));
    assert_eq!(amend(&FINE, &[60, 50], 61, 0, 0, &[0; 60], &[7]), refused(10));
    assert_eq!(amend(&FINE, &[60], 61, 0, 0, &[0; 60], &[7]), refused(11));
    assert_eq!(amend(&FINE, &[60], 60, 0, 0, &[0; 60], &[7]), refused(5));
    let counts = Counts { front: 0, recut: 0, back: 1 };
    assert_eq!(amend(&FINE, &[60], 60, 0, 0, &[0; 60], &[7; 2]), (0, counts, vec![60, 7]));
}

#[test]
fn writing_a_sheet() {
    let refused = |number| (number, 0, vec![7; 31]);
    let too_many: Vec<u64> = (1..=1_048_577).map(|k| 48 * k).collect();
    let and_falling = [&too_many[..], &[1]].concat();
    assert_eq!(write_sheet(&BAD, Label::Live, &and_falling, &[7; 31]), refused(1));
    assert_eq!(write_sheet(&FINE, Label::Live, &and_falling, &[7; 31]), refused(10));
    assert_eq!(write_sheet(&FINE, Label::Live, &too_many, &[7; 31]), refused(16));
    assert_eq!(write_sheet(&FINE, Label::Live, &[], &[7; 31]), refused(5));
    assert_eq!(write_sheet(&FINE, Label::Live, &[], &[7; 33]).1, 32);
}

/// A sheet of one cut, by hand.
fn sheet(cut: u64, zero_byte: u8, check_is_off_by: u32) -> Vec<u8> {
    let fields = [1, 48, 200, 1, 8].map(u32::to_be_bytes).concat();
    let mut sheet = [&cut.to_be_bytes()[..], b"CUTS", &[b'P', 31, 0, zero_byte], &fields].concat();
    let words = sheet.chunks(4).map(|word| u32::from_be_bytes(word.try_into().expect("four bytes")));
    let check = words.fold(0, u32::wrapping_sub).wrapping_add(check_is_off_by);
    sheet.extend(check.to_be_bytes());
    sheet
}

#[test]
fn reading_a_sheet() {
    let refused = |number| (number, Reading::default(), vec![]);
    assert_eq!(read_sheet(&sheet(60, 0, 0)[9..], Label::Practice, &[]), refused(12));
    let mut no_cuts = sheet(900, 1, 1);
    no_cuts[11] = b's';
    assert_eq!(read_sheet(&no_cuts, Label::Live, &[]), refused(12));
    assert_eq!(read_sheet(&sheet(900, 1, 1), Label::Live, &[]), refused(14));
    assert_eq!(read_sheet(&sheet(900, 0, 1), Label::Live, &[]), refused(13));
    assert_eq!(read_sheet(&sheet(900, 0, 0), Label::Live, &[]), refused(10));
    assert_eq!(read_sheet(&sheet(60, 0, 0), Label::Live, &[]), refused(15));
    assert_eq!(read_sheet(&sheet(60, 0, 0), Label::Practice, &[]), refused(5));
    let says = Reading { label: b'P', settings: FINE, count: 1 };
    assert_eq!(read_sheet(&sheet(60, 0, 0), Label::Practice, &[7, 7]), (0, says, vec![60, 7]));
}
