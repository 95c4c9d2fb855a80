//! Logs of the lengths that matter at each of a few settings, every way: around the window, the minimum, the maximum and sums of
//! them, and the segment's size.

use noise::Noise;
use std::collections::BTreeSet;
use thrunglow::Settings;
use trials::ways::{amended, in_blocks, in_segments, whole};

/// The window, the least and the greatest piece, sums of two pieces, one to three segments, each with its neighbours; and 0 to 2.
fn lengths(settings: &Settings, size: u64) -> BTreeSet<usize> {
    let (minimum, maximum) = (settings.minimum, settings.maximum);
    let pieces = [48, minimum, maximum, 2 * minimum, minimum + maximum, 2 * maximum, 2 * maximum + minimum];
    let segments = [size, size + 47, size + 48, 2 * size, 3 * size];
    let around = pieces.into_iter().chain(segments).flat_map(|length| length - 1..=length + 1);
    (0..3).chain(around).map(|length| length as usize).collect()
}

/// Logs of that length: no mark at all, a mark at each offset from 48 on, lone marks at the end and before it, and any bytes.
fn logs(noise: &mut Noise, settings: &Settings, length: usize) -> Vec<Vec<u8>> {
    let lone_mark = |at: u64| {
        let mut log = vec![0; length];
        if let Some(byte) = (length as u64).checked_sub(at).and_then(|at| log.get_mut((at as usize).checked_sub(1)?)) {
            *byte = 1;
        }
        log
    };
    let Settings { minimum, maximum, .. } = *settings;
    let mut logs: Vec<Vec<u8>> = [0, 1, 47, 48, minimum, maximum].map(lone_mark).into();
    logs.extend([vec![0; length], vec![noise.number() as u8; length], noise.bytes(length)]);
    logs
}

/// The log in one block, byte by byte, in segments, and amended from an empty list, from itself and from the log without its end.
fn every_way(settings: Settings, size: u64, log: &[u8]) {
    let (cuts, n) = (whole(settings, log), log.len() as u64);
    assert_eq!(in_blocks(settings, [log]), cuts);
    assert_eq!(in_blocks(settings, log.chunks(1)), cuts);
    assert_eq!(in_segments(settings, log, size), cuts);
    assert_eq!(amended(settings, &[], [0, 0, n], log).1, cuts);
    assert_eq!(amended(settings, &cuts, [n, 0, 0], log).1, cuts);
    if let Some((_, shorter)) = log.split_last() {
        assert_eq!(amended(settings, &whole(settings, shorter), [n - 1, 0, 1], log).1, cuts);
        assert_eq!(amended(settings, &cuts, [n - 1, 1, 0], shorter).1, whole(settings, shorter));
    }
}

#[test]
fn every_length_every_way() {
    let mut noise = Noise::new(1);
    for (minimum, maximum) in [(48, 48), (48, 49), (48, 200), (50, 99), (100, 200)] {
        for (bits, target) in [(31, 1), (1, 1)] {
            let settings = Settings { bits, target, minimum, maximum };
            for size in [64, 150] {
                for length in lengths(&settings, size) {
                    for log in logs(&mut noise, &settings, length) {
                        every_way(settings, size, &log);
                    }
                }
            }
        }
    }
}
