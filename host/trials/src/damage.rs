//! Damage: lists, bays, carries and sheets with something wrong in them.

use crate::inputs::{EXTREMES, wrong_settings};
use noise::Noise;
use thrunglow::Carry;

/// Damages a list in one of the ways there are.
pub fn list(noise: &mut Noise, list: &mut Vec<u64>) {
    let Some(last) = list.len().checked_sub(1) else { return list.push(noise.pick(&EXTREMES)) };
    let at = noise.between(0, last as u64) as usize;
    match noise.below(7) {
        0 => list[at] = noise.pick(&EXTREMES),
        1 => list[at] ^= 1 << noise.below(64),
        2 => list[at] = list[at].wrapping_add(noise.pick(&[1, u64::MAX])),
        3 => list.swap(at, last),
        4 => list.insert(at, list[at]),
        5 => list.insert(at, noise.between(0, list[at])),
        _ => drop(list.remove(at)),
    }
}

/// Damages a bay in one of the ways there are.
pub fn bay(noise: &mut Noise, bay: &mut [u64]) {
    let offsets = bay[0].saturating_sub(1).min(bay.len() as u64 - 2);
    let any = noise.between(0, bay.len() as u64 - 1) as usize;
    let listed = 2 + noise.below(offsets.max(1)) as usize;
    match noise.below(9) {
        0 => bay[0] = 0,
        1 => bay[0] = bay.len() as u64 - 1 + noise.below(3),
        2 => bay[0] = noise.pick(&EXTREMES),
        3 => bay[0] = bay[0].wrapping_add(noise.pick(&[1, u64::MAX])),
        4 => bay[1] = noise.pick(&[0, 1, u64::MAX, bay[listed.min(bay.len() - 1)]]),
        5 => bay[1] ^= 1 << noise.below(12),
        6 => bay[any] = noise.pick(&EXTREMES),
        7 => bay[any] = bay[any].wrapping_add(noise.pick(&[1, 2, 48, 200, u64::MAX, u64::MAX - 1])),
        _ => bay[any] ^= 1 << noise.below(64),
    }
}

/// Alters one field of a carry.
pub fn carry(noise: &mut Noise, carry: &mut Carry) {
    match noise.below(6) {
        0 => carry.settings = wrong_settings(noise),
        1 => carry.taken = noise.pick(&EXTREMES),
        2 => carry.since = noise.pick(&[carry.taken, carry.taken.wrapping_add(1), carry.settings.maximum, 1 << 40]),
        3 => carry.window[noise.below(48) as usize] ^= 1 << noise.below(8),
        4 => carry.signature ^= 1 << noise.below(32),
        _ => carry.closed = noise.pick(&[0, 1, 2, 255, 256, 1 << 31, u32::MAX]),
    }
}

/// Makes the check word right again, so that what else is wrong is found.
pub fn mend_check_word(sheet: &mut [u8]) {
    let Some(start) = sheet.len().checked_sub(32) else { return };
    let count = u32::from_be_bytes(sheet[start + 20..start + 24].try_into().expect("4 bytes")) as usize;
    let body = start.saturating_sub(8 * count.min(start));
    let words =
        sheet[body..start + 28].chunks_exact(4).map(|word| u32::from_be_bytes(word.try_into().expect("4 bytes")));
    let sum = words.fold(0, u32::wrapping_add);
    sheet[start + 28..].copy_from_slice(&sum.wrapping_neg().to_be_bytes());
}

/// Damages a sheet in one of the ways there are.
pub fn sheet(noise: &mut Noise, sheet: &mut Vec<u8>) {
    let at = noise.below(sheet.len() as u64) as usize;
    let in_trailer = sheet.len() - 32 + 4 * noise.below(8) as usize;
    let extreme = noise.pick(&EXTREMES) as u32;
    match noise.below(5) {
        0 => sheet[at] ^= 1 << noise.below(8),
        1 => sheet[in_trailer..in_trailer + 4].copy_from_slice(&extreme.to_be_bytes()),
        2 => sheet.truncate(at),
        3 => drop(sheet.drain(..at)),
        _ => sheet.swap(at, in_trailer),
    }
    if noise.once_in(2) {
        mend_check_word(sheet);
    }
}
