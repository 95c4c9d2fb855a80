//! Numbers, settings and lists out of any bytes.

use thrunglow::Settings;
use trials::inputs;

/// Bytes that are taken from the front, zeros when they are used up.
pub struct Input<'a>(pub &'a [u8]);

impl Input<'_> {
    pub fn byte(&mut self) -> u8 {
        let (first, rest) = self.0.split_first().unwrap_or((&0, &[]));
        self.0 = rest;
        *first
    }

    pub fn bytes<const N: usize>(&mut self) -> [u8; N] {
        std::array::from_fn(|_| self.byte())
    }

    /// A number: mostly of 16 bits, or an extreme, or any.
    pub fn number(&mut self) -> u64 {
        let short = u16::from_le_bytes(self.bytes());
        match short >> 8 {
            0xFF => inputs::EXTREMES[short as usize % inputs::EXTREMES.len()],
            0xFE => u64::from_le_bytes(self.bytes()),
            _ => short.into(),
        }
    }

    /// The numbers that all that is left stands for.
    pub fn numbers(&mut self) -> Vec<u64> {
        let mut numbers = Vec::new();
        while !self.0.is_empty() {
            numbers.push(self.number());
        }
        numbers
    }

    /// Settings in range, with pieces of up to a few hundred bytes.
    pub fn right_settings(&mut self) -> Settings {
        let bits = 1 + u32::from(self.byte()) % 31;
        let target = 1 + u32::from(self.byte()) % ((1 << bits) - 1);
        let minimum = 48 + u64::from(self.byte());
        Settings { bits, target, minimum, maximum: minimum + u64::from(self.byte()) }
    }

    /// Mostly settings in range.
    pub fn settings(&mut self) -> Settings {
        if self.byte() < 250 {
            return self.right_settings();
        }
        let (bits, target) = (self.number() as u32, self.number() as u32);
        Settings { bits, target, minimum: self.number(), maximum: self.number() }
    }

    /// A list that is well formed for settings in range.
    pub fn cuts(&mut self, settings: &Settings) -> Vec<u64> {
        let steps = settings.maximum - settings.minimum + 1;
        let mut cut = 0;
        let next = |step: u64| {
            cut += settings.minimum + step % steps;
            cut
        };
        (0..self.byte() % 40).map(|_| self.number()).map(next).collect()
    }

    /// A list to lend, of the room needed or a little less or more.
    pub fn list(&mut self, needed: usize) -> Vec<u64> {
        let room = (needed.min(5_000) + usize::from(self.byte() % 8)).saturating_sub(2);
        vec![7; room]
    }
}
