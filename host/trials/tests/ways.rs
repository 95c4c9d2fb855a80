//! Every way to a log's list: blocks split at each place, segments in every order, edits at each place, and longer logs with the
//! house settings. What one call hands on, the next one gets.

use noise::Noise;
use thrunglow::{Edit, Label, Settings, Sheet};
use trials::ways::{amended, in_blocks, in_segments, merged, whole};
use trials::{compare, inputs};

#[test]
fn blocks_split_at_each_place() {
    let mut noise = Noise::new(1);
    for _ in 0..12 {
        let settings = inputs::tight_settings(&mut noise);
        let log = inputs::log(&mut noise, &settings, 64);
        let cuts = whole(settings, &log);
        for at in 0..=log.len().min(300) {
            let (one, other) = log.split_at(at);
            assert_eq!(in_blocks(settings, [one, other]), cuts);
        }
        for length in [1, 2, 47, 48, 49, 64] {
            assert_eq!(in_blocks(settings, log.chunks(length)), cuts);
        }
    }
}

/// Every order of the numbers below `count`.
fn orders(count: u64) -> Vec<Vec<u64>> {
    let Some(last) = count.checked_sub(1) else { return vec![vec![]] };
    let put_in = |order: Vec<u64>| (0..count as usize).map(move |at| [&order[..at], &[last], &order[at..]].concat());
    orders(last).into_iter().flat_map(put_in).collect()
}

#[test]
fn segments_in_every_order() {
    let mut noise = Noise::new(2);
    for segments in 1..=5 {
        let settings = inputs::tight_settings(&mut noise);
        let size = noise.between(64, 130);
        let length = size * segments - noise.below(size);
        let log = noise.log(length as usize);
        let cuts = whole(settings, &log);
        let room = 2 + size;
        let untouched: Vec<u64> = (0..segments * room).map(|_| noise.number()).collect();
        for order in orders(segments) {
            let mut board = untouched.clone();
            for (turn, &index) in order.iter().enumerate() {
                let alone = board[(index * room) as usize..][..room as usize].to_vec();
                let (outcome, after) = compare::segment(settings, &log, size, room, index, &board);
                assert_eq!(outcome.number, 0);
                if turn == 0 {
                    let (recorded, bay) = compare::record(settings, &log, size, index, &alone);
                    assert_eq!((recorded, &bay[..]), (outcome, &after[(index * room) as usize..][..room as usize]));
                }
                board = after;
            }
            assert_eq!(merged(settings, length, size, room, &board), cuts);
        }
    }
}

#[test]
fn segments_of_each_size() {
    let mut noise = Noise::new(3);
    for size in 64..=260 {
        let settings = inputs::tight_settings(&mut noise);
        let log = inputs::log(&mut noise, &settings, size);
        assert_eq!(in_segments(settings, &log, size), whole(settings, &log));
    }
}

#[test]
fn bays_of_each_room() {
    let mut noise = Noise::new(4);
    for bits in [1, 3, 5, 31] {
        let settings = Settings { bits, target: 1, minimum: 48, maximum: 300 };
        let log = inputs::log(&mut noise, &settings, 150);
        for room in 0..170 {
            let bay: Vec<u64> = (0..room).map(|_| noise.number()).collect();
            compare::record(settings, &log, 150, noise.below(log.len() as u64 / 150 + 1), &bay);
        }
    }
}

#[test]
fn an_edit_at_each_place() {
    let mut noise = Noise::new(5);
    for _ in 0..6 {
        let settings = inputs::tight_settings(&mut noise);
        let log = inputs::log(&mut noise, &settings, 64);
        let log = &log[..log.len().min(500)];
        let old = whole(settings, log);
        let inserted = noise.bytes(60);
        for at in 0..=log.len() {
            let removed = noise.between(0, (log.len() - at).min(100) as u64) as usize;
            for (removed, added) in [(0, 0), (0, 1), (removed, 0), (removed, 60)] {
                let edited = [&log[..at], &inserted[..added], &log[at + removed..]].concat();
                let edit = [at as u64, removed as u64, added as u64];
                assert_eq!(amended(settings, &old, edit, &edited).1, whole(settings, &edited));
            }
        }
    }
}

/// Every number of bits, with the least, the greatest and any target, and pieces of a few hundred to a few thousand bytes.
#[test]
fn settings_over_their_ranges() {
    let mut noise = Noise::new(8);
    let log = noise.bytes(12_000);
    for bits in 1..=31 {
        for target in [1, noise.between(1, (1 << bits) - 1), (1 << bits) - 1] {
            let minimum = noise.between(48, 1_500);
            let settings = Settings { bits, target: target as u32, minimum, maximum: minimum + noise.below(5_000) };
            let cuts = whole(settings, &log);
            assert_eq!(in_blocks(settings, log.chunks(noise.between(1_000, 5_000) as usize)), cuts);
            let size = noise.between(3_000, 6_000);
            let room = 2 + size;
            let mut board = vec![0; (12_000_u64.div_ceil(size) * room) as usize];
            for (index, bay) in board.chunks_mut(room as usize).enumerate() {
                bay.copy_from_slice(&compare::record(settings, &log, size, index as u64, bay).1);
            }
            assert_eq!(merged(settings, 12_000, size, room, &board), cuts);
            assert_eq!(amended(settings, &cuts, [noise.below(12_000), 0, 0], &log).1, cuts);
        }
    }
}

/// A longer log with random bytes, a stretch of zeros, and a run over and over.
fn longer_log() -> Vec<u8> {
    let mut noise = Noise::new(6);
    let run = noise.bytes(5_000);
    [noise.bytes(150_000), vec![0; 140_000], run.repeat(20), noise.bytes(100_001)].concat()
}

#[test]
fn a_longer_log_every_way() {
    let (settings, log) = (Settings::HOUSE, longer_log());
    let cuts = whole(settings, &log);
    assert!(cuts.len() > 20);
    assert_eq!(in_blocks(settings, log.chunks(65_536)), cuts);
    assert_eq!(in_blocks(settings, log.chunks(1_000)), cuts);
    assert_eq!(in_segments(settings, &log, 100_000), cuts);
    let mut edited = log.clone();
    edited.splice(200_000..200_010, [5; 40]);
    let (answer, _) = amended(settings, &cuts, [200_000, 10, 40], &edited);
    assert!(answer.front > 5 && answer.back > 5);
}

/// The wrapper gives what the calls give.
#[test]
fn the_wrapper_every_way() {
    let mut noise = Noise::new(7);
    for _ in 0..200 {
        let settings = inputs::tight_settings(&mut noise);
        let log = inputs::log(&mut noise, &settings, 64);
        let cuts = whole(settings, &log);
        assert_eq!(thrunglow::cut_log(settings, &log), Ok(cuts.clone()));
        assert_eq!(thrunglow::cut_parallel(settings, &log, 2.try_into().unwrap()), Ok(cuts.clone()));
        let mut cutter = thrunglow::Cutter::new(settings).unwrap();
        let mut found = Vec::new();
        for block in log.chunks(100) {
            let saved = cutter.carry().to_bytes();
            cutter = thrunglow::Cutter::resume(thrunglow::Carry::from_bytes(&saved).unwrap()).unwrap();
            found.extend_from_slice(cutter.push(block).unwrap());
        }
        found.extend(cutter.finish().unwrap());
        assert_eq!(found, cuts);
        let edited = [&log[..], &[1]].concat();
        let amended = thrunglow::amend(settings, &cuts, Edit { at: log.len() as u64, removed: 0, added: 1 }, &edited);
        assert_eq!(amended.unwrap().cuts, whole(settings, &edited));
        let sheet = Sheet { settings, label: Label::Live, cuts };
        assert_eq!(Sheet::read(&sheet.to_bytes().unwrap(), Label::Live), Ok(sheet));
    }
}
