//! Logs of about a million bytes, with minimums, blocks, segments and edits to match, every way. Each trial sees that the marks it
//! is about were there to be missed.

use noise::Noise;
use thrunglow::Settings;
use trials::compare;
use trials::inputs::{any_size, roomy_settings};
use trials::ways::{amended, board, in_blocks, in_segments, merged, whole};

/// From 600,000 to 1,100,000 bytes: random, with a stretch of zeros and a run over and over.
fn large_log(noise: &mut Noise) -> Vec<u8> {
    let length = noise.between(600_000, 1_100_000) as usize;
    let run_length = noise.between(1_000, 9_000) as usize;
    let mut log = noise.bytes(length);
    let run = log[..run_length].to_vec();
    let at = noise.below(400_000) as usize;
    log[at..at + 60_000].fill(0);
    let at = noise.below(400_000) as usize;
    for (byte, repeated) in log[at..at + 60_000].iter_mut().zip(run.iter().cycle()) {
        *byte = *repeated;
    }
    log
}

/// The cuts that were made at marks: they end pieces shorter than the maximum, and the log's end is left out.
fn at_marks(settings: Settings, cuts: &[u64]) -> Vec<u64> {
    let before = [&[0], cuts].concat();
    let short = cuts.iter().zip(before).filter(|(cut, before)| *cut - before < settings.maximum);
    let mut found: Vec<u64> = short.map(|(cut, _)| *cut).collect();
    found.retain(|cut| Some(cut) != cuts.last());
    found
}

/// Small and large minimums, each with settings and a log, and the cuts of it.
fn each_minimum(seed: u64) -> impl Iterator<Item = (Noise, Settings, Vec<u8>, Vec<u64>)> {
    [48, 1_000, 2_500, 5_000, 12_000, 30_000].into_iter().zip(seed..).map(|(minimum, seed)| {
        let mut noise = Noise::new(seed);
        let settings = roomy_settings(&mut noise, minimum);
        let log = large_log(&mut noise);
        let cuts = whole(settings, &log);
        assert!(at_marks(settings, &cuts).last() > Some(&500_000));
        (noise, settings, log, cuts)
    })
}

#[test]
fn blocks() {
    for (mut noise, settings, log, cuts) in each_minimum(1) {
        assert_eq!(in_blocks(settings, [&log[..]]), cuts);
        let length = noise.between(65_537, 400_000) as usize;
        assert_eq!(in_blocks(settings, log.chunks(length)), cuts);
    }
}

#[test]
fn segments() {
    for (mut noise, settings, log, cuts) in each_minimum(7) {
        let n = log.len() as u64;
        let size = noise.between(100_001, n * 2 / 3);
        let width = 2 + size / 16;
        let board = board(settings, &log, size, width);
        let markers = board.chunks(width as usize).filter(|bay| bay[1] > 0).count();
        assert!(markers > 0, "{settings:?}, S {size}");
        assert_eq!(merged(settings, n, size, width, &board), cuts);
        let index = noise.below(n.div_ceil(size));
        compare::record(settings, &log, size, index, &vec![7; width as usize]);
        assert_eq!(in_segments(settings, &log, 1 << 24), cuts);
    }
}

#[test]
fn edits() {
    for (mut noise, settings, log, cuts) in each_minimum(13) {
        let [any, other] = [(); 2].map(|()| any_size(&mut noise, 401, 100_000) as usize);
        for (removed, added) in [(any, other), (300_000, any), (other, 300_000)] {
            let at = noise.between(100_000, 300_000) as usize;
            let edited = [&log[..at], &noise.bytes(added), &log[at + removed..]].concat();
            let edit = [at, removed, added].map(|number| number as u64);
            let (answer, amended) = amended(settings, &cuts, edit, &edited);
            assert!(answer.front > 0 && answer.back > 1, "{settings:?}, {edit:?}: {answer:?}");
            assert_eq!(amended, whole(settings, &edited));
        }
    }
}
