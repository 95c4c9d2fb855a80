//! Lists of cuts, and amending one after an edit.

use crate::rule::{LONGEST, Settings, cuts_after, marks, written_over};

/// The cuts kept before the edit, cut anew, and kept and moved after it.
#[derive(Clone, Copy, Debug, Default, PartialEq, Eq)]
pub struct Counts {
    pub front: u64,
    pub recut: u64,
    pub back: u64,
}

/// Whether a list is well formed: its steps from minimum to maximum, the last allowed from 1, its end at most 2^40.
pub fn well_formed(settings: &Settings, list: &[u64]) -> bool {
    let mut before = 0;
    for (k, &cut) in list.iter().enumerate() {
        let least = if k + 1 == list.len() { 1 } else { settings.minimum };
        if cut <= before || !(least..=settings.maximum).contains(&(cut - before)) {
            return false;
        }
        before = cut;
    }
    before <= LONGEST
}

/// Amending the old list where d bytes at s were replaced by e bytes and `log` came of it: (number, counts, list).
pub fn amend(
    settings: &Settings,
    old: &[u64],
    s: u64,
    d: u64,
    e: u64,
    log: &[u8],
    list: &[u64],
) -> (u32, Counts, Vec<u64>) {
    let refused = |number| (number, Counts::default(), list.to_vec());
    let n = old.last().copied().unwrap_or(0);
    let length = log.len() as u64;
    if !settings.in_range() {
        return refused(1);
    }
    if !well_formed(settings, old) {
        return refused(10);
    }
    if s > n || d > n - s || u128::from(length) != u128::from(n - d) + u128::from(e) {
        return refused(11);
    }
    if length > LONGEST {
        return refused(2);
    }
    if (list.len() as u64) < settings.room(length) {
        return refused(5);
    }
    let [front, recut, back] = three_parts(settings, old, s, d, e, log);
    let counts = [&front, &recut, &back].map(|part| part.len() as u64);
    let counts = Counts { front: counts[0], recut: counts[1], back: counts[2] };
    (0, counts, written_over(list, &[front, recut, back].concat()))
}

/// Front, recut and back.
fn three_parts(settings: &Settings, old: &[u64], s: u64, d: u64, e: u64, log: &[u8]) -> [Vec<u64>; 3] {
    let but_the_end = old.len().saturating_sub(1);
    let (front, past) = old.split_at(old[..but_the_end].partition_point(|&cut| cut <= s));
    let start = front.last().copied().unwrap_or(0);
    let mut recut = cuts_after(settings, log.len() as u64, &marks(settings, log), start);
    let met = |&t: &u64| t >= s + e && past.binary_search(&(t - e + d)).is_ok();
    let back = match recut.iter().position(met) {
        None => Vec::new(),
        Some(meeting) => {
            let t = recut[meeting];
            recut.truncate(meeting);
            past.iter().filter(|&&cut| cut >= t - e + d).map(|cut| cut - d + e).collect()
        }
    };
    [front.to_vec(), recut, back]
}
