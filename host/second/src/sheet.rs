//! The cut sheet: a body of offsets, then a trailer of 32 bytes, all big-endian.

use crate::amending::well_formed;
use crate::rule::{Settings, written_over};

/// The most cuts a sheet may have.
const MOST_CUTS: u64 = 1_048_576;

const TRAILER: usize = 32;

#[derive(Clone, Copy, Debug, PartialEq, Eq)]
pub enum Label {
    Practice,
    Live,
}

impl Label {
    pub fn byte(self) -> u8 {
        match self {
            Label::Practice => b'P',
            Label::Live => b'L',
        }
    }
}

/// What reading answers, every part 0 beside a refusal.
#[derive(Clone, Copy, Debug, Default, PartialEq, Eq)]
pub struct Reading {
    pub label: u8,
    pub settings: Settings,
    pub count: u64,
}

/// The sum of the 32-bit words.
fn sum(bytes: &[u8]) -> u64 {
    bytes.chunks(4).map(number).sum()
}

/// The number that bytes stand for, big-endian.
fn number(bytes: &[u8]) -> u64 {
    bytes.iter().fold(0, |number, &byte| number << 8 | u64::from(byte))
}

/// The low 32 bits of a number, big-endian.
fn word(number: u64) -> [u8; 4] {
    ((number % (1 << 32)) as u32).to_be_bytes()
}

/// The sheet of a list.
fn sheet(settings: &Settings, label: Label, list: &[u64]) -> Vec<u8> {
    let count = list.len() as u64;
    let mut sheet: Vec<u8> = list.iter().flat_map(|cut| cut.to_be_bytes()).collect();
    sheet.extend(b"CUTS");
    sheet.extend([label.byte(), settings.bits as u8, 0, 0]);
    for field in [settings.target, settings.minimum, settings.maximum, count, 8 * count] {
        sheet.extend(word(field));
    }
    sheet.extend(word((1 << 32) - sum(&sheet) % (1 << 32)));
    sheet
}

/// Writing a sheet: (number, bytes written, bytes).
pub fn write_sheet(settings: &Settings, label: Label, list: &[u64], bytes: &[u8]) -> (u32, u64, Vec<u8>) {
    let refused = |number| (number, 0, bytes.to_vec());
    let count = list.len() as u64;
    if !settings.in_range() {
        return refused(1);
    }
    if !well_formed(settings, list) {
        return refused(10);
    }
    if count > MOST_CUTS {
        return refused(16);
    }
    if (bytes.len() as u64) < 8 * count + TRAILER as u64 {
        return refused(5);
    }
    let sheet = sheet(settings, label, list);
    (0, sheet.len() as u64, written_over(bytes, &sheet))
}

/// What a trailer says, or none where a field other than CUTS and the check word is wrong.
fn trailer_says(trailer: &[u8]) -> Option<Reading> {
    let field = |k: usize| number(&trailer[4 * k..4 * k + 4]);
    let settings = Settings { bits: u64::from(trailer[5]), target: field(2), minimum: field(3), maximum: field(4) };
    let (label, count) = (trailer[4], field(5));
    let right = [b'P', b'L'].contains(&label)
        && settings.in_range()
        && trailer[6..8] == [0, 0]
        && count <= MOST_CUTS
        && field(6) == 8 * count;
    right.then_some(Reading { label, settings, count })
}

/// Reading the sheet that the bytes end with: (number, what it says, list).
pub fn read_sheet(bytes: &[u8], asked: Label, list: &[u64]) -> (u32, Reading, Vec<u64>) {
    let refused = |number| (number, Reading::default(), list.to_vec());
    let Some((before, trailer)) = bytes.split_last_chunk::<TRAILER>() else { return refused(12) };
    if !trailer.starts_with(b"CUTS") {
        return refused(12);
    }
    let Some(says) = trailer_says(trailer) else { return refused(14) };
    let Some(start) = before.len().checked_sub(8 * says.count as usize) else { return refused(14) };
    let body = &before[start..];
    if !(sum(body) + sum(trailer)).is_multiple_of(1 << 32) {
        return refused(13);
    }
    let cuts: Vec<u64> = body.chunks(8).map(number).collect();
    if !well_formed(&says.settings, &cuts) {
        return refused(10);
    }
    if says.label != asked.byte() {
        return refused(15);
    }
    if (list.len() as u64) < says.count {
        return refused(5);
    }
    (0, says, written_over(list, &cuts))
}
