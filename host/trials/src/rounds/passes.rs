//! Random trials of the single pass and of the whole log.

use crate::{compare, damage, inputs};
use noise::Noise;
use thrunglow::{Carry, Settings};

pub fn fresh(noise: &mut Noise) -> u32 {
    let settings = noise.pick(&[inputs::settings, inputs::wide_settings, inputs::wrong_settings])(noise);
    compare::fresh(settings).number
}

/// Settings for a short block: mostly tight, some wide.
fn short_settings(noise: &mut Noise) -> Settings {
    if noise.once_in(8) { inputs::wide_settings(noise) } else { inputs::tight_settings(noise) }
}

/// A carry that a log leads to, or any in order, or one altered.
fn any_carry(noise: &mut Noise, settings: Settings) -> Carry {
    let mut carry = inputs::carry(noise, settings);
    if noise.once_in(2) {
        let log = inputs::log(noise, &settings, 64);
        let list = vec![0; inputs::room(&settings, log.len() as u64)];
        let fresh = second::fresh(&compare::plain(settings)).1;
        carry = compare::exported_carry(second::block(&fresh, &log, &list).2);
    }
    if noise.once_in(8) {
        damage::carry(noise, &mut carry);
    }
    carry
}

pub fn block(noise: &mut Noise) -> u32 {
    let (carry, bytes) = if noise.once_in(100) {
        let (settings, log) = inputs::long_log(noise);
        (any_carry(noise, settings), log)
    } else {
        let settings = short_settings(noise);
        let mut log = inputs::log(noise, &settings, 64);
        if noise.once_in(2) {
            log.truncate(noise.below(100) as usize);
        }
        (any_carry(noise, settings), log)
    };
    let room = inputs::room(&carry.settings, bytes.len() as u64);
    compare::block(carry, &bytes, &inputs::list(noise, room)).0.number
}

pub fn close(noise: &mut Noise) -> u32 {
    let settings = short_settings(noise);
    let carry = any_carry(noise, settings);
    compare::close(carry, &inputs::list(noise, 1)).0.number
}

pub fn cut_log(noise: &mut Noise) -> u32 {
    let (settings, log) = inputs::settings_and_log(noise);
    let room = inputs::room(&settings, log.len() as u64);
    compare::cut_log(settings, &log, &inputs::list(noise, room)).0.number
}
