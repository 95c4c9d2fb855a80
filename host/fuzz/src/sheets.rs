//! Reading sheets.

use crate::input::Input;
use trials::{compare, damage};

/// The bytes as they are.
pub fn read_any(input: &mut Input) -> u32 {
    let choices = input.byte();
    compare::read_sheet(input.0, choices % 2 == 1, &vec![7; usize::from(choices / 2)]).0.number
}

/// A sheet of a list that is well formed, with some bytes then changed and, by choice, the check word made right again.
pub fn read_damaged(input: &mut Input) -> u32 {
    let (settings, choices) = (input.right_settings(), input.byte());
    let list = input.cuts(&settings);
    let (live, other_label) = (choices & 1 == 1, choices & 2 == 2);
    let label = if live { second::Label::Live } else { second::Label::Practice };
    let room = vec![0; 8 * list.len() + 32];
    let mut sheet = second::write_sheet(&compare::plain(settings), label, &list, &room).2;
    let lent = input.list(list.len());
    for _ in 0..input.byte() % 4 {
        let at = input.number() as usize % sheet.len();
        sheet[at] ^= input.byte();
    }
    if choices & 4 == 0 {
        damage::mend_check_word(&mut sheet);
    }
    compare::read_sheet(&sheet, live != other_label, &lent).0.number
}
