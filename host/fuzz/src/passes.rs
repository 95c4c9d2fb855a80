//! Amending lists, and taking blocks.

use crate::input::Input;
use thrunglow::Carry;
use trials::{compare, inputs};

/// A list that is well formed and an edit that fits it, then by choice something changed.
pub fn amend(input: &mut Input) -> u32 {
    let mut settings = input.right_settings();
    let mut old = input.cuts(&settings);
    let n = old.last().copied().unwrap_or(0);
    let at = input.number() % (n + 1);
    let mut edit = [at, input.number() % (n - at + 1), input.number() % 1_024];
    let (choices, repeated) = (input.byte(), input.bytes::<32>());
    let length = (n - edit[1] + edit[2]) as usize;
    match choices % 16 {
        0 => edit[usize::from(choices / 16) % 3] = input.number(),
        1 => old.push(input.number()),
        2 => old.reverse(),
        3 => settings = input.settings(),
        _ => {}
    }
    let list = input.list(inputs::room(&settings, length as u64));
    let log: Vec<u8> = input.0.iter().chain(repeated.iter().cycle()).copied().take(length).collect();
    compare::amend(settings, &old, edit, &log, &list).0.number
}

/// A carry in order, then by choice something changed; a block taken with it, and the same carry closed.
pub fn block(input: &mut Input) -> u32 {
    let settings = input.right_settings();
    let taken = input.number().min(1 << 40);
    let since = input.number() % (taken.min(settings.maximum - 1) + 1);
    let (choices, mut window) = (input.byte(), input.bytes::<48>());
    window[..48_u64.saturating_sub(taken) as usize].fill(0);
    let signature = second::remainder(&window) as u32;
    let mut carry = Carry { settings, taken, since, window, signature, closed: (choices >= 240).into() };
    match choices % 16 {
        0 => carry.settings = input.settings(),
        1 => carry.taken = input.number(),
        2 => carry.since = input.number(),
        3 => carry.window[usize::from(choices / 16)] ^= input.byte(),
        4 => carry.signature ^= u32::from_le_bytes(input.bytes()),
        _ => {}
    }
    let list = input.list(inputs::room(&carry.settings, input.0.len() as u64));
    compare::close(carry, &list);
    compare::block(carry, input.0, &list).0.number
}
