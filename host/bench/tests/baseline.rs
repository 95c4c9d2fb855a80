//! The baseline cuts as the second program does.

use bench::baseline;
use noise::Noise;

/// Both cut the log, from lists of the room that document 01 asks for.
fn compare(settings: second::Settings, log: &[u8]) {
    let mut list = vec![7; log.len() / settings.minimum as usize + 1];
    let (number, count, expected) = second::cut_log(&settings, log, &list);
    let fast = baseline::Settings {
        bits: settings.bits as u32,
        target: settings.target as u32,
        minimum: settings.minimum as usize,
        maximum: settings.maximum as usize,
    };
    let written = baseline::cut_log(&fast, log, &mut list);
    assert_eq!((number, count, expected), (0, written as u64, list), "{settings:?}, {} bytes", log.len());
}

#[test]
fn small_logs_of_every_length() {
    let mut noise = Noise::new(1);
    for length in 0..700 {
        let bits = noise.between(1, 8);
        let minimum = noise.between(48, 100);
        let target = noise.between(1, (1 << bits) - 1);
        let settings = second::Settings { bits, target, minimum, maximum: minimum + noise.below(150) };
        compare(settings, &noise.bytes(length));
        compare(settings, &vec![noise.number() as u8; length]);
    }
}

#[test]
fn settings_over_their_ranges() {
    let mut noise = Noise::new(2);
    for bits in 1..=31 {
        for target in [1, noise.between(1, (1 << bits) - 1), (1 << bits) - 1] {
            let minimum = noise.between(48, 3_000);
            let settings = second::Settings { bits, target, minimum, maximum: minimum + noise.below(9_000) };
            compare(settings, &noise.bytes(20_000));
        }
    }
}

#[test]
fn a_longer_log_with_the_house_settings() {
    compare(second::HOUSE, &Noise::new(3).bytes(2_000_000));
    compare(second::HOUSE, &[0; 200_000]);
}
