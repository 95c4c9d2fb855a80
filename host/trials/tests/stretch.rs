//! The new log's bytes outside the recut stretch cannot alter what amending answers: they are altered, and the answer and the list
//! stay. The stretch runs from the last front cut, or 0, to the meeting, or to the new end where there is none.

use noise::Noise;
use std::ops::Range;
use thrunglow::Settings;
use thrunglow::raw::Amendment;
use trials::edits::any_edit;
use trials::inputs;
use trials::ways::{amended, whole};

/// The recut stretch of a log of that length, from the answer and the new list: the first back cut is where the two lists meet.
fn stretch(answer: &Amendment, list: &[u64], length: usize) -> Range<usize> {
    let from = answer.front.checked_sub(1).map_or(0, |last| list[last as usize]);
    let meeting = list.get((answer.front + answer.recut) as usize).map_or(length, |&cut| cut as usize);
    from as usize..meeting
}

/// The log with other bytes outside the stretch: any at all, zeros, or one bit flipped in those next to it.
fn altered_outside(noise: &mut Noise, log: &[u8], stretch: &Range<usize>) -> [Vec<u8>; 3] {
    let any = [&noise.bytes(stretch.start), &log[stretch.clone()], &noise.bytes(log.len() - stretch.end)].concat();
    let mut zeros = vec![0; log.len()];
    zeros[stretch.clone()].copy_from_slice(&log[stretch.clone()]);
    let mut next_to_it = log.to_vec();
    if let Some(before) = stretch.start.checked_sub(1) {
        next_to_it[before] ^= 1 << noise.below(8);
    }
    if let Some(behind) = next_to_it.get_mut(stretch.end) {
        *behind ^= 1 << noise.below(8);
    }
    [any, zeros, next_to_it]
}

/// How many of the trials had bytes to alter before the stretch and behind it, and in how many the last byte inside it mattered.
#[derive(Debug, Default)]
struct Seen {
    before: u32,
    behind: u32,
    inside: u32,
}

/// Amends the old list after any edit, and again for each log that differs from the new one outside the stretch alone.
fn trial(noise: &mut Noise, settings: Settings, log: &[u8], old: &[u64], seen: &mut Seen) {
    let (edit, edited) = any_edit(noise, log, old);
    let (answer, list) = amended(settings, old, edit, &edited);
    let stretch = stretch(&answer, &list, edited.len());
    for altered in altered_outside(noise, &edited, &stretch) {
        assert_eq!(amended(settings, old, edit, &altered), (answer, list.clone()), "{stretch:?}");
    }
    seen.before += u32::from(stretch.start > 0);
    seen.behind += u32::from(stretch.end < edited.len());
    if !stretch.is_empty() {
        let mut altered = edited;
        altered[stretch.end - 1] ^= 1 << noise.below(8);
        seen.inside += u32::from(amended(settings, old, edit, &altered) != (answer, list));
    }
}

/// Settings, a log, and an old list of the log's length.
type Arguments = (Settings, Vec<u8>, Vec<u64>);

/// That many trials of what `arguments` makes; none of the three may be rare.
fn trials(rounds: u32, arguments: fn(&mut Noise) -> Arguments) {
    let mut seen = Seen::default();
    for seed in 0..rounds {
        let mut noise = Noise::new(seed.into());
        let (settings, log, old) = arguments(&mut noise);
        trial(&mut noise, settings, &log, &old, &mut seen);
    }
    let rare = rounds / 30;
    assert!(seen.before > rare && seen.behind > rare && seen.inside > rare, "of {rounds}: {seen:?}");
}

#[test]
fn true_lists() {
    trials(3_000, |noise| {
        let settings = inputs::tight_settings(noise);
        let log = inputs::log(noise, &settings, 64);
        let old = whole(settings, &log);
        (settings, log, old)
    });
}

/// The lists are of logs that differ from these in part.
#[test]
fn untrue_lists() {
    trials(3_000, |noise| {
        let settings = inputs::tight_settings(noise);
        let log = inputs::log(noise, &settings, 64);
        let mut other = log.clone();
        let half = noise.between(0, log.len() as u64 / 2) as usize;
        noise.fill(&mut other[half..][..half]);
        let old = whole(settings, &other);
        (settings, log, old)
    });
}

#[test]
fn longer_logs() {
    trials(60, |noise| {
        let (settings, log) = inputs::long_log(noise);
        let old = whole(settings, &log);
        (settings, log, old)
    });
}
