//! Random trials of amending and of sheets.

use crate::{compare, damage, edits, inputs};
use noise::Noise;
use thrunglow::Settings;

pub fn amend(noise: &mut Noise) -> u32 {
    let (mut settings, log) = if noise.once_in(200) {
        inputs::long_log(noise)
    } else {
        let settings = inputs::tight_settings(noise);
        (settings, inputs::log(noise, &settings, 64))
    };
    let n = log.len() as u64;
    let marks = second::marks(&compare::plain(settings), &log);
    let mut old = second::cuts_after(&compare::plain(settings), n, &marks, 0);
    if noise.once_in(3) {
        old = inputs::untrue_list(noise, &settings, n);
    }
    let (mut edit, mut edited) = edits::any_edit(noise, &log, &old);
    match noise.below(20) {
        0 => damage::list(noise, &mut old),
        1 => edit[noise.below(3) as usize] = noise.pick(&inputs::EXTREMES),
        2 => edited.push(1),
        3 => drop(edited.pop()),
        4 => settings = inputs::settings(noise),
        // The sum wraps onto the true length.
        5 => edit[2] = (edited.len() as u64).wrapping_sub(n).wrapping_add(edit[1]),
        _ => {}
    }
    let room = inputs::room(&settings, edited.len() as u64);
    compare::amend(settings, &old, edit, &edited, &inputs::list(noise, room)).0.number
}

/// Settings and a list that is well formed for them, its offsets of any scale.
fn any_list(noise: &mut Noise) -> (Settings, Vec<u64>) {
    if noise.once_in(4) {
        let settings = inputs::wide_settings(noise);
        let end = inputs::any_size(noise, 1, 100 * settings.minimum);
        return (settings, inputs::untrue_list(noise, &settings, end));
    }
    let settings = inputs::tight_settings(noise);
    let end = inputs::length(noise, &settings, 64) as u64;
    (settings, inputs::untrue_list(noise, &settings, end))
}

pub fn write_sheet(noise: &mut Noise) -> u32 {
    let (mut settings, mut list) = any_list(noise);
    if noise.once_in(4) {
        damage::list(noise, &mut list);
    }
    if noise.once_in(10) {
        settings = inputs::settings(noise);
    }
    let room = 8 * list.len() + 32;
    let any = noise.below(room as u64) as usize;
    let bytes = noise.pick(&[room, room, room + 1, room + 40, room - 1, any, 0]);
    compare::write_sheet(settings, noise.once_in(2), &list, &noise.bytes(bytes)).0.number
}

pub fn read_sheet(noise: &mut Noise) -> u32 {
    let (settings, mut list) = any_list(noise);
    let live = noise.once_in(2);
    let label = if live { second::Label::Live } else { second::Label::Practice };
    let mut sheet = vec![0; 8 * list.len() + 32];
    sheet = second::write_sheet(&compare::plain(settings), label, &list, &sheet).2;
    if noise.once_in(4) {
        damage::list(noise, &mut list);
        let body: Vec<u8> = list.iter().flat_map(|cut| cut.to_be_bytes()).collect();
        let start = sheet.len() - 32;
        sheet = [&body, &sheet[start..]].concat();
        damage::mend_check_word(&mut sheet);
    }
    if noise.once_in(3) {
        damage::sheet(noise, &mut sheet);
    }
    let before = noise.below(3) * noise.below(40);
    let bytes = [noise.bytes(before as usize), sheet].concat();
    let asked = if noise.once_in(5) { !live } else { live };
    let room = list.len().max(1);
    compare::read_sheet(&bytes, asked, &inputs::list(noise, room)).0.number
}
