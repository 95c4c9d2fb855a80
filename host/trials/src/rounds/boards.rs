//! Random trials of segments and of merging.

use crate::{compare, damage, inputs};
use noise::Noise;
use thrunglow::Settings;

/// Settings, a log, a segment size and a segment of it, now and then one that is not there.
fn any_segment(noise: &mut Noise) -> (Settings, Vec<u8>, u64, u64) {
    let (settings, log, size) = if noise.once_in(100) {
        let (settings, log) = inputs::long_log(noise);
        let length = log.len() as u64;
        (settings, log, inputs::any_size(noise, (length / 20).max(64), length))
    } else {
        let settings = inputs::settings(noise);
        let any = noise.between(64, 700);
        let size = noise.pick(&[64, 65, 100, 150, any, any, 1 << 24]);
        (settings, inputs::log(noise, &settings, size), size)
    };
    let segments = (log.len() as u64).div_ceil(size);
    let index = if noise.once_in(10) { segments } else { noise.below(segments.max(1)) };
    let size = if noise.once_in(20) { noise.pick(&inputs::EXTREMES) } else { size };
    let index = if noise.once_in(20) { noise.pick(&inputs::EXTREMES) } else { index };
    (settings, log, size, index)
}

/// A bay's width: enough for most records, or too short.
fn bay_width(noise: &mut Noise) -> u64 {
    let (any, short) = (noise.between(2, 100), noise.between(0, 4));
    noise.pick(&[702, 702, any, short])
}

pub fn segment(noise: &mut Noise) -> u32 {
    let (settings, log, size, index) = any_segment(noise);
    let width = bay_width(noise);
    let entries = (log.len() as u64).div_ceil(size.max(64)) * width;
    let short = entries.saturating_sub(1);
    let entries = noise.pick(&[entries, entries, entries, entries, entries, entries + 1, short, 0]);
    let board: Vec<u64> = (0..entries).map(|_| noise.number()).collect();
    let width = if noise.once_in(20) { noise.pick(&inputs::EXTREMES) } else { width };
    compare::segment(settings, &log, size, width, index, &board).0.number
}

pub fn record(noise: &mut Noise) -> u32 {
    let (settings, log, size, index) = any_segment(noise);
    let bay: Vec<u64> = (0..bay_width(noise)).map(|_| noise.number()).collect();
    compare::record(settings, &log, size, index, &bay).0.number
}

/// A board needs no log, so that its numbers may be of any scale.
pub fn merge(noise: &mut Noise) -> u32 {
    let mut settings = inputs::tight_settings(noise);
    let mut size = noise.between(64, 700);
    let mut n = inputs::length(noise, &settings, size) as u64;
    let scale = if noise.once_in(4) { inputs::any_size(noise, 1, 1 << 14) } else { 1 };
    (settings.minimum, settings.maximum) = (scale * settings.minimum, scale * settings.maximum);
    (size, n) = (scale * size, scale * n);
    let marks = inputs::marks(noise, n, size, scale);
    let mut width = noise.between(2, 60);
    let bay: Vec<u64> = (0..width).map(|_| noise.number()).collect();
    let mut board = inputs::board(&settings, n, &marks, size, &bay);
    for bay in board.chunks_mut(width as usize) {
        // A record that was too long is made one that is shorter than the segment's.
        if bay[0] == 0 && !noise.once_in(20) {
            bay[0] = bay.len() as u64 - 1;
        }
        if noise.once_in(20) {
            damage::bay(noise, bay);
        }
    }
    match noise.below(30) {
        0 => settings = inputs::settings(noise),
        1 => size = noise.pick(&inputs::EXTREMES),
        2 => width = noise.pick(&inputs::EXTREMES),
        3 => n = noise.pick(&inputs::EXTREMES),
        4 => n = n.wrapping_add(noise.pick(&[1, size, u64::MAX])),
        5 => drop(board.pop()),
        6 => board.push(noise.number()),
        _ => {}
    }
    let needed = inputs::room(&settings, n).min(10_000);
    compare::merge(settings, n, size, width, &board, &inputs::list(noise, needed)).0.number
}
