//! Arguments for trials: settings, logs, lists, boards, carries and sheets, right ones and wrong ones.

use crate::compare::plain;
use noise::Noise;
use thrunglow::{Carry, Settings};

/// Numbers at the edges of what a call may be given.
pub const EXTREMES: [u64; 18] = [
    0,
    1,
    2,
    47,
    48,
    63,
    64,
    (1 << 24) - 1,
    1 << 24,
    (1 << 24) + 1,
    (1 << 32) - 1,
    1 << 32,
    (1 << 40) - 1,
    1 << 40,
    (1 << 40) + 1,
    1 << 63,
    u64::MAX - 1,
    u64::MAX,
];

/// A number of any size: small ones are as likely as large ones.
pub fn any_size(noise: &mut Noise, low: u64, high: u64) -> u64 {
    let bits = noise.between(low.max(1).ilog2().into(), high.ilog2().into());
    noise.between(low.max(1 << bits), high.min((2 << bits) - 1))
}

/// Settings in range that crowd the marks and the forced cuts of a short log.
pub fn tight_settings(noise: &mut Noise) -> Settings {
    let bits = noise.pick(&[1, 2, 3, 4, 5, 6, 7, 8, 31]);
    let target = if noise.once_in(2) { 1 } else { noise.between(1, (1 << bits) - 1) as u32 };
    let minimum = if noise.once_in(2) { 48 } else { noise.between(48, 120) };
    Settings { bits, target, minimum, maximum: minimum + noise.pick(&[0, 1, 10, 48, 100, 200, 400]) }
}

/// Settings anywhere in their ranges.
pub fn wide_settings(noise: &mut Noise) -> Settings {
    let bits = noise.between(1, 31) as u32;
    let any_target = noise.between(1, (1 << bits) - 1);
    let target = noise.pick(&[1, any_target, (1 << bits) - 1]) as u32;
    let minimum = any_size(noise, 48, 1 << 24);
    Settings { bits, target, minimum, maximum: any_size(noise, minimum, 1 << 24) }
}

/// Settings for a log of many times the minimum: marks about that far apart, and a maximum that lets most cuts be marks and segments
/// have markers.
pub fn roomy_settings(noise: &mut Noise, minimum: u64) -> Settings {
    let bits = minimum.ilog2() - 1 + noise.below(3) as u32;
    let target = noise.between(1, (1 << bits) - 1) as u32;
    let above = any_size(noise, minimum, 8 * minimum);
    Settings { bits, target, minimum, maximum: 2 * minimum + above }
}

/// Settings with one of them out of range, or at the edge of it.
pub fn wrong_settings(noise: &mut Noise) -> Settings {
    let mut settings = tight_settings(noise);
    let any = noise.number();
    match noise.below(4) {
        0 => settings.bits = noise.pick(&[0, 1, 31, 32, 33, 63, 64, 1 << 31, u32::MAX, any as u32]),
        1 => settings.target = noise.pick(&[0, (1 << settings.bits) - 1, 1 << settings.bits, u32::MAX, any as u32]),
        2 => {
            let above = settings.maximum;
            settings.minimum = noise.pick(&[0, 1, 47, above, above + 1, u64::MAX, any]);
        }
        _ => {
            let least = settings.minimum;
            settings.maximum = noise.pick(&[0, least - 1, least, 1 << 24, (1 << 24) + 1, 1 << 32, u64::MAX, any]);
        }
    }
    settings
}

/// Settings for a short log: mostly tight, some wide, some wrong.
pub fn settings(noise: &mut Noise) -> Settings {
    match noise.below(10) {
        0 => wrong_settings(noise),
        1 => wide_settings(noise),
        _ => tight_settings(noise),
    }
}

/// A length for a log, often next to a number that matters.
pub fn length(noise: &mut Noise, settings: &Settings, size: u64) -> usize {
    let (minimum, maximum) = (settings.minimum.clamp(48, 700), settings.maximum.clamp(48, 700));
    let size = size.min(700);
    let near = noise.pick(&[2, 48, 64, minimum, maximum, 2 * maximum, minimum + maximum, size, 2 * size]);
    let any = noise.below(1_500);
    if noise.once_in(3) { (near + noise.below(5) - 2) as usize } else { any as usize }
}

/// A log of one of the kinds that try a cutter.
pub fn log(noise: &mut Noise, settings: &Settings, size: u64) -> Vec<u8> {
    let length = length(noise, settings, size);
    if noise.once_in(3) { lone_ones(noise, settings, size, length) } else { noise.log(length) }
}

/// A log of some thousands of bytes, and settings for it.
pub fn long_log(noise: &mut Noise) -> (Settings, Vec<u8>) {
    let length = any_size(noise, 2_000, 80_000);
    let minimum = any_size(noise, 48, length / 4);
    (roomy_settings(noise, minimum), noise.log(length as usize))
}

/// Settings and a log for them: mostly a short one, now and then a longer one.
pub fn settings_and_log(noise: &mut Noise) -> (Settings, Vec<u8>) {
    if noise.once_in(100) {
        return long_log(noise);
    }
    let settings = settings(noise);
    (settings, log(noise, &settings, 64))
}

/// Zeros with ones at least 48 apart: where the target is 1, a mark after each and, for 31 bits, nowhere else. The gaps put marks
/// at the edges of pieces, of markers' steps and of segments.
fn lone_ones(noise: &mut Noise, settings: &Settings, size: u64, length: usize) -> Vec<u8> {
    let (minimum, maximum) = (settings.minimum.clamp(48, 700), settings.maximum.clamp(48, 700));
    let marker_step = maximum.saturating_sub(minimum);
    let mut log = vec![0; length];
    let mut mark = 0;
    loop {
        let to_edge = size - mark % size;
        let gap = noise.pick(&[48, minimum, maximum, marker_step, to_edge, to_edge + 48, size, 2 * minimum]);
        mark += (gap + noise.below(3)).saturating_sub(1).max(48);
        match log.get_mut(mark as usize - 1) {
            Some(byte) => *byte = 1,
            None => return log,
        }
    }
}

/// The entries that the library asks for to cut that many bytes, for settings that have a minimum.
pub fn room(settings: &Settings, bytes: u64) -> usize {
    bytes.checked_div(settings.minimum).unwrap_or(0) as usize + 1
}

/// Memory to lend of about that room: mostly enough, with anything in it.
pub fn list(noise: &mut Noise, room: usize) -> Vec<u64> {
    let any = noise.below(room as u64 + 1) as usize;
    let entries = noise.pick(&[room, room, room, room, room, room, room + 1, room + 7, room - 1, any]);
    (0..entries).map(|_| noise.number()).collect()
}

/// A list that is well formed, true of no log in particular, and ends at `end` where that is above 0.
pub fn untrue_list(noise: &mut Noise, settings: &Settings, end: u64) -> Vec<u64> {
    let mut cuts = Vec::new();
    let mut cut = 0;
    while cut < end {
        cut = (cut + noise.between(settings.minimum, settings.maximum)).min(end);
        cuts.push(cut);
    }
    cuts
}

/// Marks of a log of that length as no log may have them: crowded, far apart, in turns, at the edges of segments. The gaps go by
/// the scale.
pub fn marks(noise: &mut Noise, n: u64, size: u64, scale: u64) -> Vec<u64> {
    let mut marks = Vec::new();
    let mut mark = 48 + noise.below(150 * scale);
    while mark <= n {
        marks.push(mark);
        let gap = scale * noise.pick(&[3, 60, 150, 400]);
        mark += if noise.once_in(4) { size - mark % size + noise.below(2) } else { noise.between(1, gap) };
    }
    marks
}

/// A board of a log of n bytes with these marks, its bays recorded.
pub fn board(settings: &Settings, n: u64, marks: &[u64], size: u64, bay: &[u64]) -> Vec<u64> {
    let record = |index| second::record(&plain(*settings), n, marks, size, index);
    (0..n.div_ceil(size)).flat_map(|index| second::fill_bay(&record(index), bay).2).collect()
}

/// A carry in order, whether a log leads to it or not.
pub fn carry(noise: &mut Noise, settings: Settings) -> Carry {
    let near_the_end = (1 << 40) - noise.below(300);
    let (early, any) = (noise.below(200), noise.between(0, 1 << 40));
    let taken = noise.pick(&[early, early, early, any, near_the_end, 1 << 40]);
    let most = taken.min(settings.maximum - 1);
    let any = noise.between(0, most);
    let since = noise.pick(&[0, any, any, most, settings.minimum.min(most), (settings.minimum - 1).min(most)]);
    let mut window: [u8; 48] = noise.log(48).try_into().expect("48 bytes");
    let before_the_log = 48_u64.saturating_sub(taken) as usize;
    window[..before_the_log].fill(0);
    let signature = second::remainder(&window) as u32;
    Carry { settings, taken, since, window, signature, closed: noise.once_in(10).into() }
}
