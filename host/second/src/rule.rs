//! Settings, marks and the one-pass rule, and the whole log cut by it.

use crate::signature::remainder;

/// A log has at most 2^40 bytes.
pub const LONGEST: u64 = 1 << 40;

/// A signature is of 48 bytes.
pub const WINDOW: usize = 48;

/// Pattern bits K, target, minimum and maximum: any numbers, to be judged by `in_range`.
#[derive(Clone, Copy, Debug, Default, PartialEq, Eq)]
pub struct Settings {
    pub bits: u64,
    pub target: u64,
    pub minimum: u64,
    pub maximum: u64,
}

/// The house settings.
pub const HOUSE: Settings = Settings { bits: 13, target: 120, minimum: 2_048, maximum: 65_536 };

impl Settings {
    pub fn in_range(&self) -> bool {
        (1..=31).contains(&self.bits)
            && (1..1 << self.bits).contains(&self.target)
            && self.minimum >= 48
            && self.maximum <= 16_777_216
            && self.minimum <= self.maximum
    }

    /// The entries needed to cut that many bytes.
    pub(crate) fn room(&self, length: u64) -> u64 {
        length / self.minimum + 1
    }

    /// Whether the low K bits of the signature of these 48 bytes equal the target.
    pub(crate) fn matched(&self, window: &[u8]) -> bool {
        remainder(window) % (1 << self.bits) == self.target
    }

    /// Whether a step between two cuts is from minimum to maximum.
    pub(crate) fn allows(&self, step: u64) -> bool {
        (self.minimum..=self.maximum).contains(&step)
    }
}

/// Every mark of the log, rising. The settings are in range.
pub fn marks(settings: &Settings, log: &[u8]) -> Vec<u64> {
    (WINDOW..=log.len()).filter(|&p| settings.matched(&log[p - WINDOW..p])).map(|p| p as u64).collect()
}

/// The cut after the cut c below n: the first mark from c + minimum to c + maximum, or else c + maximum where that is at
/// most n, else n. The marks rise and are at most n.
pub(crate) fn next(settings: &Settings, n: u64, marks: &[u64], c: u64) -> u64 {
    let below = marks.partition_point(|&mark| mark < c + settings.minimum);
    match marks.get(below) {
        Some(&mark) if mark <= c + settings.maximum => mark,
        _ => n.min(c + settings.maximum),
    }
}

/// The cuts after the cut c (or after 0) in a log of n bytes with these marks.
pub fn cuts_after(settings: &Settings, n: u64, marks: &[u64], mut c: u64) -> Vec<u64> {
    let mut cuts = Vec::new();
    while c < n {
        c = next(settings, n, marks, c);
        cuts.push(c);
    }
    cuts
}

/// Whole log: (number, entries written, list).
pub fn cut_log(settings: &Settings, log: &[u8], list: &[u64]) -> (u32, u64, Vec<u64>) {
    let n = log.len() as u64;
    if !settings.in_range() {
        return (1, 0, list.to_vec());
    }
    if n > LONGEST {
        return (2, 0, list.to_vec());
    }
    if (list.len() as u64) < settings.room(n) {
        return (5, 0, list.to_vec());
    }
    let cuts = cuts_after(settings, n, &marks(settings, log), 0);
    (0, cuts.len() as u64, written_over(list, &cuts))
}

/// The lent memory with its first entries overwritten and the others as they were.
pub(crate) fn written_over<T: Copy>(lent: &[T], entries: &[T]) -> Vec<T> {
    [entries, &lent[entries.len()..]].concat()
}
