//! Sheets.

use crate::WIDE;
use noise::Noise;
use second::{Label, read_sheet, write_sheet};

/// A sheet of log C's list, with the check word made right after the changes.
fn changed_sheet(changes: &[(usize, u8)]) -> Vec<u8> {
    let mut sheet = write_sheet(&WIDE, Label::Practice, &[100, 200, 300, 400], &[0; 64]).2;
    for &(at, byte) in changes {
        sheet[at] = byte;
    }
    resum(&mut sheet);
    sheet
}

/// Makes the check word right.
fn resum(sheet: &mut [u8]) {
    let at = sheet.len() - 4;
    let word = |bytes: &[u8]| u32::from_be_bytes(bytes.try_into().expect("four bytes"));
    let sum = sheet[..at].chunks(4).fold(0_u32, |sum, bytes| sum.wrapping_add(word(bytes)));
    sheet[at..].copy_from_slice(&0_u32.wrapping_sub(sum).to_be_bytes());
}

fn number_read(bytes: &[u8]) -> u32 {
    let (number, says, list) = read_sheet(bytes, Label::Practice, &[9; 5]);
    if number != 0 {
        assert_eq!((says, list), (Default::default(), vec![9; 5]));
    }
    number
}

#[test]
fn bytes_before_the_body_are_not_read() {
    let sheet = changed_sheet(&[]);
    for before in [&[1][..], &[255; 7], b"CUTS", &sheet] {
        let bytes = [before, &sheet].concat();
        assert_eq!(read_sheet(&bytes, Label::Practice, &[9; 5]), read_sheet(&sheet, Label::Practice, &[9; 5]));
    }
    assert_eq!(read_sheet(&sheet, Label::Practice, &[9; 5]).2, [100, 200, 300, 400, 9]);
}

#[test]
fn trailer_fields_out_of_range_are_14() {
    assert_eq!(number_read(&changed_sheet(&[(36, b'X')])), 14, "label");
    assert_eq!(number_read(&changed_sheet(&[(37, 0)])), 14, "K");
    assert_eq!(number_read(&changed_sheet(&[(37, 32)])), 14, "K");
    assert_eq!(number_read(&changed_sheet(&[(38, 1)])), 14, "a zero byte");
    assert_eq!(number_read(&changed_sheet(&[(39, 1)])), 14, "a zero byte");
    assert_eq!(number_read(&changed_sheet(&[(43, 0)])), 14, "target 0");
    assert_eq!(number_read(&changed_sheet(&[(40, 128)])), 14, "target 2^31 + 1");
    assert_eq!(number_read(&changed_sheet(&[(47, 47)])), 14, "minimum");
    assert_eq!(number_read(&changed_sheet(&[(48, 2)])), 14, "maximum");
    assert_eq!(number_read(&changed_sheet(&[(51, 47)])), 14, "minimum above maximum");
    assert_eq!(number_read(&changed_sheet(&[(55, 3)])), 14, "count without its distance");
    assert_eq!(number_read(&changed_sheet(&[(55, 5), (59, 40)])), 14, "the body does not fit");
    assert_eq!(number_read(&changed_sheet(&[(53, 16), (55, 1), (57, 128), (59, 8)])), 14, "count over the cap");
    assert_eq!(number_read(&changed_sheet(&[(55, 3), (59, 24)])), 13, "a shorter body has another sum");
    let mut both = changed_sheet(&[(38, 1)]);
    both[63] ^= 1;
    assert_eq!(number_read(&both), 14, "14 is settled before 13");
}

#[test]
fn every_damaged_bit_is_found() {
    let sheet = changed_sheet(&[]);
    for bit in 0..8 * sheet.len() {
        let mut damaged = sheet.clone();
        damaged[bit / 8] ^= 1 << (bit % 8);
        assert_ne!(number_read(&damaged), 0);
    }
    for length in 0..sheet.len() {
        assert_ne!(number_read(&sheet[..length]), 0);
    }
}

#[test]
fn the_body_is_judged_whole_first() {
    let not_rising = changed_sheet(&[(31, 44), (30, 1)]);
    assert_eq!(number_read(&not_rising), 10);
    assert_eq!(number_read(&changed_sheet(&[(24, 255)])), 10);
    let sheet = changed_sheet(&[]);
    assert_eq!(read_sheet(&sheet, Label::Live, &[9; 4]).0, 15);
    assert_eq!(read_sheet(&sheet, Label::Live, &[9; 4]).2, [9; 4]);
    assert_eq!(read_sheet(&sheet, Label::Practice, &[9; 3]).0, 5);
    assert_eq!(read_sheet(&sheet, Label::Practice, &[9; 3]).2, [9; 3]);
}

#[test]
fn the_most_cuts_of_a_sheet() {
    let most: Vec<u64> = (1..=1_048_576).map(|k| 48 * k).collect();
    let (number, written, bytes) = write_sheet(&WIDE, Label::Live, &most, &vec![9; 8 * most.len() + 32]);
    assert_eq!((number, written), (0, 8_388_640));
    assert_eq!(read_sheet(&bytes, Label::Live, &most).0, 0);
    assert_eq!(write_sheet(&WIDE, Label::Live, &most, &bytes[1..]).0, 5, "the room is exact");
    let too_many = [&most[..], &[48 * 1_048_577]].concat();
    assert_eq!(write_sheet(&WIDE, Label::Live, &too_many, &[9; 40]), (16, 0, vec![9; 40]));
    let and_not_well_formed = [&most[..], &[0]].concat();
    assert_eq!(write_sheet(&WIDE, Label::Live, &and_not_well_formed, &[9; 40]).0, 10);
}

#[test]
fn a_sheet_is_canonical() {
    let mut noise = Noise::new(12);
    let mut read = 0;
    for _ in 0..20_000 {
        let changes = noise.below(3) as usize;
        let changes: Vec<(usize, u8)> =
            (0..changes).map(|_| (noise.below(60) as usize, noise.pick(&[0, 1, 76, 100, 200, 255]))).collect();
        let bytes = changed_sheet(&changes);
        for label in [Label::Practice, Label::Live] {
            let (number, says, list) = read_sheet(&bytes, label, &[9; 4]);
            if number == 0 {
                let again = write_sheet(&says.settings, label, &list[..says.count as usize], &[0; 64]);
                assert_eq!((again.0, says.label), (0, label.byte()));
                assert_eq!(again.2[..again.1 as usize], bytes[64 - again.1 as usize..]);
                read += 1;
            }
        }
    }
    assert!(read > 7_000);
}
