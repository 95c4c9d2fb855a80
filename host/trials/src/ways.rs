//! The ways to a log's list, call by call as a caller goes them, each call compared.

use crate::{compare, inputs};
use thrunglow::Settings;
use thrunglow::raw::Amendment;

/// A list with the room that cutting that many bytes asks for.
fn room(settings: &Settings, bytes: usize) -> Vec<u64> {
    vec![7; inputs::room(settings, bytes as u64)]
}

/// The cuts by the whole-log call.
pub fn whole(settings: Settings, log: &[u8]) -> Vec<u64> {
    let (outcome, mut list) = compare::cut_log(settings, log, &room(&settings, log.len()));
    assert_eq!(outcome.number, 0);
    list.truncate(outcome.count as usize);
    list
}

/// The cuts of blocks, taken one after the other.
pub fn in_blocks<'a>(settings: Settings, blocks: impl IntoIterator<Item = &'a [u8]>) -> Vec<u64> {
    let mut carry = compare::fresh(settings).carry;
    let mut cuts = Vec::new();
    for block in blocks {
        let (passed, list) = compare::block(carry, block, &room(&settings, block.len()));
        assert_eq!(passed.number, 0);
        cuts.extend(&list[..passed.count as usize]);
        carry = passed.carry;
    }
    let (passed, list) = compare::close(carry, &[7]);
    assert_eq!(passed.number, 0);
    cuts.extend(&list[..passed.count as usize]);
    cuts
}

/// The board of a log cut in segments, the last one first.
pub fn board(settings: Settings, log: &[u8], size: u64, width: u64) -> Vec<u64> {
    let segments = (log.len() as u64).div_ceil(size);
    let mut board = vec![7; (segments * width) as usize];
    for index in (0..segments).rev() {
        let (outcome, after) = compare::segment(settings, log, size, width, index, &board);
        assert_eq!(outcome.number, 0);
        board = after;
    }
    board
}

/// The cuts by merging a board.
pub fn merged(settings: Settings, n: u64, size: u64, width: u64, board: &[u64]) -> Vec<u64> {
    let (outcome, mut list) = compare::merge(settings, n, size, width, board, &room(&settings, n as usize));
    assert_eq!(outcome.number, 0);
    list.truncate(outcome.count as usize);
    list
}

/// The cuts by segments of that size, in bays that hold any record of one.
pub fn in_segments(settings: Settings, log: &[u8], size: u64) -> Vec<u64> {
    let n = log.len() as u64;
    let width = 2 + size.min(n);
    merged(settings, n, size, width, &board(settings, log, size, width))
}

/// The cuts of the log that the edit (at, removed, added) made, by amending the old ones, with the answer.
pub fn amended(settings: Settings, old: &[u64], edit: [u64; 3], log: &[u8]) -> (Amendment, Vec<u64>) {
    let (answer, mut list) = compare::amend(settings, old, edit, log, &room(&settings, log.len()));
    assert_eq!(answer.number, 0);
    list.truncate((answer.front + answer.recut + answer.back) as usize);
    (answer, list)
}
