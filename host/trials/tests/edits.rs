//! Edit after edit: each amends the list that the last one left, and the list is always that of the log as it then is.

use noise::Noise;
use thrunglow::Settings;
use trials::edits::any_edit;
use trials::inputs;
use trials::ways::{amended, whole};

/// Edits the log that many times, each time what the last edit left. An edit that would make it longer than `longest` is passed over.
fn edit_in_a_row(noise: &mut Noise, settings: Settings, mut log: Vec<u8>, edits: u32, longest: usize) {
    let mut list = whole(settings, &log);
    let mut made = 0;
    while made < edits {
        let (edit, edited) = any_edit(noise, &log, &list);
        if edited.len() > longest {
            continue;
        }
        (_, list) = amended(settings, &list, edit, &edited);
        assert_eq!(list, whole(settings, &edited), "{settings:?}, {edit:?}");
        log = edited;
        made += 1;
    }
}

#[test]
fn short_logs() {
    for seed in 0..150 {
        let mut noise = Noise::new(seed);
        let settings = inputs::tight_settings(&mut noise);
        let log = inputs::log(&mut noise, &settings, 64);
        edit_in_a_row(&mut noise, settings, log, 40, 3_000);
    }
}

#[test]
fn longer_logs() {
    for seed in 0..12 {
        let mut noise = Noise::new(seed);
        let (settings, log) = inputs::long_log(&mut noise);
        edit_in_a_row(&mut noise, settings, log, 12, 100_000);
    }
}
