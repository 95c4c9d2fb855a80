//! What the wrapper adds to the calls: threads, longer bays, saved carries, errors.

use noise::Noise;
use std::num::NonZeroUsize;
use thrunglow::{Carry, Cutter, Edit, Error, Label, Settings, Sheet, amend, cut_log, cut_parallel, merge, raw, record};

const WRONG: Settings = Settings { bits: 0, target: 0, minimum: 0, maximum: 0 };
const TIGHT: Settings = Settings { bits: 8, target: 1, minimum: 48, maximum: 200 };
/// The shortest segment that `cut_parallel` makes.
const SEGMENT: usize = 1 << 18;

fn threads(count: usize) -> NonZeroUsize {
    NonZeroUsize::new(count).expect("a thread at least")
}

#[test]
fn threads_give_the_whole_logs_list() {
    let log = Noise::new(1).bytes(3 * SEGMENT + 100);
    for length in [0, 1, SEGMENT - 1, SEGMENT, SEGMENT + 1, SEGMENT + 47, SEGMENT + 48, 2 * SEGMENT, log.len()] {
        for settings in [Settings::HOUSE, TIGHT, Settings { bits: 1, ..TIGHT }, Settings { bits: 31, ..TIGHT }] {
            let cuts = cut_log(settings, &log[..length]).expect("settings and log in range");
            for count in [1, 2, 5] {
                assert_eq!(cut_parallel(settings, &log[..length], threads(count)).as_ref(), Ok(&cuts));
            }
        }
    }
}

/// Bytes that are all one have one signature; where its low bits are the target, every offset from 48 on is a mark, and no record fits
/// in a usual bay.
#[test]
fn bays_are_made_longer_until_each_record_fits() {
    let crowded = vec![b'*'; 2 * SEGMENT + 5];
    let mixed = [Noise::new(2).bytes(SEGMENT), crowded.clone()].concat();
    let carry = {
        let mut cutter = Cutter::new(Settings::HOUSE).expect("settings in range");
        cutter.push(&crowded[..48]).expect("a block");
        cutter.carry()
    };
    let settings = Settings { target: carry.signature % (1 << 13), ..Settings::HOUSE };
    assert_eq!(cut_log(settings, &crowded).expect("in range")[..2], [2_048, 4_096]);
    let mut usual_bay = vec![0; 1_000];
    let refused = record(settings, &crowded, SEGMENT as u64, 1, &mut usual_bay);
    assert_eq!((refused, usual_bay[0]), (Err(Error::RecordTooLong), 0));
    for log in [&crowded, &mixed] {
        for count in [1, 3] {
            assert_eq!(cut_parallel(settings, log, threads(count)), cut_log(settings, log));
        }
    }
}

#[test]
fn each_call_hands_on_the_refusal() {
    let edit = Edit { at: 5, removed: 0, added: 0 };
    assert_eq!(Settings::new(8, 256, 48, 200), Err(Error::SettingsOutOfRange));
    assert_eq!(Cutter::new(WRONG).err(), Some(Error::SettingsOutOfRange));
    assert_eq!(cut_log(WRONG, &[]), Err(Error::SettingsOutOfRange));
    assert_eq!(cut_parallel(WRONG, &[1], threads(1)), Err(Error::SettingsOutOfRange));
    assert_eq!(amend(WRONG, &[], edit, &[]), Err(Error::SettingsOutOfRange));
    assert_eq!(amend(TIGHT, &[10, 20], edit, &[]), Err(Error::ListNotWellFormed));
    assert_eq!(amend(TIGHT, &[], edit, &[]), Err(Error::EditOutOfRange));
    assert_eq!(record(TIGHT, &[0; 70], 64, 2, &mut [0; 9]), Err(Error::NoSuchSegment));
    assert_eq!(merge(TIGHT, 70, 64, 2, &[1, 0, 0, 0]), Err(Error::BayNotDone));
    assert_eq!(merge(TIGHT, 70, 64, 2, &[1, 0, 2, 0]), Err(Error::BayMalformed));
    let sheet = Sheet { settings: TIGHT, label: Label::Live, cuts: vec![49, 300] };
    assert_eq!(sheet.to_bytes(), Err(Error::ListNotWellFormed));
    assert_eq!(Sheet::read(b"CUTS", Label::Live), Err(Error::NoSheet));
}

/// The list for a log of that many bytes would not fit in any memory; the refusal comes first.
#[test]
fn merging_asks_for_memory_last() {
    assert_eq!(merge(TIGHT, u64::MAX, 64, 2, &[]), Err(Error::LogTooLong));
    assert_eq!(merge(TIGHT, 1 << 40, 64, 2, &[]), Err(Error::NoSuchSegment));
    assert_eq!(merge(TIGHT, 0, 64, 2, &[]), Ok(vec![]));
}

#[test]
fn a_refused_block_leaves_the_cutter_as_it_was() {
    let carry = Carry { taken: 1 << 40, ..Cutter::new(TIGHT).expect("in range").carry() };
    let mut cutter = Cutter::resume(carry).expect("a carry in order");
    assert_eq!(cutter.push(&[1]), Err(Error::LogTooLong));
    assert_eq!(cutter.carry(), carry);
    assert_eq!(cutter.push(&[]), Ok(&[][..]));
    assert_eq!(cutter.finish(), Ok(None));
}

#[test]
fn a_carry_is_judged_when_it_is_taken_up() {
    let carry = Cutter::new(TIGHT).expect("in range").carry();
    let resumed = |carry: Carry| Cutter::resume(carry).err();
    assert_eq!(resumed(carry), None);
    assert_eq!(resumed(Carry { settings: WRONG, ..carry }), Some(Error::SettingsOutOfRange));
    assert_eq!(resumed(Carry { since: 1, ..carry }), Some(Error::CarryNotInOrder));
    assert_eq!(resumed(Carry { closed: 1, ..carry }), Some(Error::CarryClosed));
    let mut bytes = carry.to_bytes();
    assert_eq!(Carry::from_bytes(&bytes), Ok(carry));
    bytes[92] = 2;
    assert_eq!(Carry::from_bytes(&bytes), Err(Error::CarryNotInOrder));
}

/// `closed` is a number of the caller's: any but 0 and 1 is 3, after 1 and before every other row.
#[test]
fn a_carry_neither_open_nor_closed_is_not_in_order() {
    let fresh = Cutter::new(TIGHT).expect("in range").carry();
    for closed in [2, 255, 256, 1 << 31, u32::MAX] {
        for (settings, number) in [(TIGHT, 3), (WRONG, 1)] {
            let carry = Carry { settings, closed, ..fresh };
            let refused = raw::Passed { number, count: 0, carry };
            let mut list = [7; 3];
            assert_eq!(raw::block(carry, &[0; 100], &mut list), refused);
            assert_eq!(raw::block(carry, &[], &mut []), refused);
            assert_eq!(raw::close(carry, &mut list), refused);
            assert_eq!(list, [7; 3]);
        }
        let carry = Carry { closed, ..fresh };
        assert_eq!(Cutter::resume(carry).err(), Some(Error::CarryNotInOrder));
        assert_eq!(Carry::from_bytes(&carry.to_bytes()), Err(Error::CarryNotInOrder));
    }
}

#[test]
fn a_carry_comes_back_from_its_bytes() {
    let mut noise = Noise::new(3);
    let mut cutter = Cutter::new(TIGHT).expect("in range");
    for _ in 0..50 {
        let length = noise.below(100) as usize;
        cutter.push(&noise.bytes(length)).expect("a block");
        assert_eq!(Carry::from_bytes(&cutter.carry().to_bytes()), Ok(cutter.carry()));
    }
}

/// A thread's least stack is enough for each call: the library takes little of it and no other memory.
#[test]
fn calls_need_little_stack() {
    let calls = || {
        let log = Noise::new(4).bytes(20_000);
        let old = cut_log(TIGHT, &log).expect("in range");
        let mut cutter = Cutter::new(TIGHT).expect("in range");
        cutter.push(&log).expect("a block");
        cutter.finish().expect("the end");
        let mut board = vec![0; 20 * 1_002];
        for (index, bay) in board.chunks_mut(1_002).enumerate() {
            record(TIGHT, &log, 1_000, index as u64, bay).expect("a bay that is long enough");
        }
        assert_eq!(merge(TIGHT, 20_000, 1_000, 1_002, &board), Ok(old.clone()));
        let edit = Edit { at: 10_000, removed: 0, added: 0 };
        assert_eq!(amend(TIGHT, &old, edit, &log).expect("an edit in range").cuts, old);
        let sheet = Sheet { settings: TIGHT, label: Label::Live, cuts: old };
        assert_eq!(Sheet::read(&sheet.to_bytes().expect("a sheet"), Label::Live), Ok(sheet));
    };
    let thread = std::thread::Builder::new().stack_size(32 * 1024).spawn(calls).expect("a thread");
    thread.join().expect("the calls ended well");
}
