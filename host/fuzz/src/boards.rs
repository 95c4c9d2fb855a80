//! Merging boards.

use crate::input::Input;
use trials::{compare, inputs};

/// A board of any numbers.
pub fn merge_any(input: &mut Input) -> u32 {
    let settings = input.settings();
    let (n, size, width) = (input.number(), input.number(), input.number());
    let list = input.list(inputs::room(&settings, n));
    compare::merge(settings, n, size, width, &input.numbers(), &list).0.number
}

/// The board of a log with some marks, then with some entries changed; now and then merged with other settings.
pub fn merge_damaged(input: &mut Input) -> u32 {
    let settings = input.right_settings();
    let (n, size) = (input.number() % 4_096, 64 + u64::from(input.byte()) * 4);
    let bay = vec![7; 2 + usize::from(input.byte() % 64)];
    let mut mark = 47;
    let rising = |step: u8| {
        mark += 1 + u64::from(step);
        mark
    };
    let marks: Vec<u64> = (0..input.byte()).map(|_| input.byte()).map(rising).take_while(|&mark| mark <= n).collect();
    let mut board = inputs::board(&settings, n, &marks, size, &bay);
    let asked = if input.byte() < 250 { settings } else { input.settings() };
    let list = input.list(inputs::room(&asked, n));
    let width = if input.byte() < 250 { bay.len() as u64 } else { input.number() };
    for _ in 0..input.byte() % 4 {
        let at = usize::from(input.byte()) % board.len().max(1);
        if let Some(entry) = board.get_mut(at) {
            *entry = input.number();
        }
    }
    compare::merge(asked, n, size, width, &board, &list).0.number
}
