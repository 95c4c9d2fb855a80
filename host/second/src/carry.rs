//! The one-pass cutter in blocks, and its carry.

use crate::rule::{LONGEST, Settings, WINDOW, written_over};
use crate::signature::remainder;

/// What the one-pass cutter keeps between blocks.
#[derive(Clone, Copy, Debug, PartialEq, Eq)]
pub struct Carry {
    pub settings: Settings,
    /// The bytes taken.
    pub taken: u64,
    /// The bytes since the last cut.
    pub since: u64,
    /// The last 48 bytes, oldest first, zeros before the log's start.
    pub window: [u8; WINDOW],
    /// The signature of the window.
    pub signature: u64,
    /// 0 open, 1 closed.
    pub closed: u32,
}

impl Carry {
    /// An open carry that has taken none.
    fn open(settings: Settings) -> Carry {
        Carry { settings, taken: 0, since: 0, window: [0; WINDOW], signature: 0, closed: 0 }
    }

    pub fn in_order(&self) -> bool {
        let before_the_log = (WINDOW as u64).saturating_sub(self.taken) as usize;
        self.since <= self.taken
            && self.since < self.settings.maximum
            && self.signature == remainder(&self.window)
            && self.window[..before_the_log].iter().all(|&byte| byte == 0)
            && self.taken <= LONGEST
            && self.closed <= 1
    }

    /// The rows that a block and a close have in common.
    fn refusal(&self) -> Option<u32> {
        if !self.settings.in_range() {
            Some(1)
        } else if !self.in_order() {
            Some(3)
        } else if self.closed == 1 {
            Some(4)
        } else {
            None
        }
    }
}

/// Fresh carry: (number, carry), the carry with every part 0 beside a refusal.
pub fn fresh(settings: &Settings) -> (u32, Carry) {
    if !settings.in_range() {
        return (1, Carry::open(Settings::default()));
    }
    (0, Carry::open(*settings))
}

/// One block: (number, entries written, carry, list).
pub fn block(carry: &Carry, block: &[u8], list: &[u64]) -> (u32, u64, Carry, Vec<u64>) {
    let refused = |number| (number, 0, *carry, list.to_vec());
    let length = block.len() as u64;
    if let Some(number) = carry.refusal() {
        return refused(number);
    }
    if length > LONGEST - carry.taken {
        return refused(2);
    }
    if (list.len() as u64) < carry.settings.room(length) {
        return refused(5);
    }
    let (after, cuts) = take(carry, block);
    (0, cuts.len() as u64, after, written_over(list, &cuts))
}

/// The carry after the block, and the cuts known by then. An offset is a cut when it is a mark from minimum on past the
/// last cut, or is maximum past it.
fn take(carry: &Carry, block: &[u8]) -> (Carry, Vec<u64>) {
    let settings = carry.settings;
    let bytes = [&carry.window, block].concat();
    let (mut since, mut cuts) = (carry.since, Vec::new());
    for k in 1..=block.len() {
        let window = &bytes[k..k + WINDOW];
        since += 1;
        if since == settings.maximum || since >= settings.minimum && settings.matched(window) {
            since = 0;
            cuts.push(carry.taken + k as u64);
        }
    }
    let window: [u8; WINDOW] = bytes[block.len()..].try_into().expect("the last 48 bytes");
    let taken = carry.taken + block.len() as u64;
    (Carry { taken, since, window, signature: remainder(&window), ..*carry }, cuts)
}

/// Closing: (number, entries written, carry, list).
pub fn close(carry: &Carry, list: &[u64]) -> (u32, u64, Carry, Vec<u64>) {
    let refused = |number| (number, 0, *carry, list.to_vec());
    if let Some(number) = carry.refusal() {
        return refused(number);
    }
    if list.is_empty() {
        return refused(5);
    }
    let end: &[u64] = if carry.since > 0 { &[carry.taken] } else { &[] };
    (0, end.len() as u64, Carry { closed: 1, ..*carry }, written_over(list, end))
}
