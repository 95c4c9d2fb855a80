//! One call, asked of the library and of the second program. Each function panics where they differ, and gives the answer and the
//! memory at exit where they agree.

use crate::lent::Lent;
use thrunglow::raw::{self, Amendment, Outcome, Passed, Reading};
use thrunglow::{Carry, Settings};

/// The settings, for the second program.
pub fn plain(settings: Settings) -> second::Settings {
    let Settings { bits, target, minimum, maximum } = settings;
    second::Settings { bits: bits.into(), target: target.into(), minimum, maximum }
}

/// The second program's settings, for the library.
fn exported(settings: second::Settings) -> Settings {
    let second::Settings { bits, target, minimum, maximum } = settings;
    let word = |number: u64| u32::try_from(number).expect("it came from 32 bits");
    Settings { bits: word(bits), target: word(target), minimum, maximum }
}

/// The carry, for the second program.
pub fn plain_carry(carry: Carry) -> second::Carry {
    let Carry { settings, taken, since, window, signature, closed } = carry;
    second::Carry { settings: plain(settings), taken, since, window, signature: signature.into(), closed }
}

/// The second program's carry, for the library.
pub fn exported_carry(carry: second::Carry) -> Carry {
    let second::Carry { settings, taken, since, window, signature, closed } = carry;
    let signature = u32::try_from(signature).expect("a signature is below 2^31");
    Carry { settings: exported(settings), taken, since, window, signature, closed }
}

fn label(live: bool) -> second::Label {
    if live { second::Label::Live } else { second::Label::Practice }
}

fn must_be<T: PartialEq + std::fmt::Debug>(answer: T, expected: T, asked: &dyn Fn() -> String) -> T {
    assert!(answer == expected, "{}:\n{answer:?}\n{expected:?}", asked());
    answer
}

pub fn fresh(settings: Settings) -> Passed {
    let (number, carry) = second::fresh(&plain(settings));
    let expected = Passed { number, count: 0, carry: exported_carry(carry) };
    must_be(raw::fresh(settings), expected, &|| format!("fresh, {settings:?}"))
}

pub fn block(carry: Carry, block: &[u8], list: &[u64]) -> (Passed, Vec<u64>) {
    let asked = || format!("block of {} bytes, room {}, {carry:?}", block.len(), list.len());
    let (bytes, mut lent) = (Lent::holding(block), Lent::holding(list));
    let answer = raw::block(carry, bytes.read(), lent.write());
    let (number, count, after, list) = second::block(&plain_carry(carry), block, list);
    bytes.must_hold(block, &asked);
    lent.must_hold(&list, &asked);
    (must_be(answer, Passed { number, count, carry: exported_carry(after) }, &asked), list)
}

pub fn close(carry: Carry, list: &[u64]) -> (Passed, Vec<u64>) {
    let asked = || format!("close, room {}, {carry:?}", list.len());
    let mut lent = Lent::holding(list);
    let answer = raw::close(carry, lent.write());
    let (number, count, after, list) = second::close(&plain_carry(carry), list);
    lent.must_hold(&list, &asked);
    (must_be(answer, Passed { number, count, carry: exported_carry(after) }, &asked), list)
}

pub fn cut_log(settings: Settings, log: &[u8], list: &[u64]) -> (Outcome, Vec<u64>) {
    let asked = || format!("cut_log of {} bytes, room {}, {settings:?}", log.len(), list.len());
    let (bytes, mut lent) = (Lent::holding(log), Lent::holding(list));
    let answer = raw::cut_log(settings, bytes.read(), lent.write());
    let (number, count, list) = second::cut_log(&plain(settings), log, list);
    bytes.must_hold(log, &asked);
    lent.must_hold(&list, &asked);
    (must_be(answer, Outcome { number, count }, &asked), list)
}

pub fn segment(
    settings: Settings,
    log: &[u8],
    size: u64,
    width: u64,
    index: u64,
    board: &[u64],
) -> (Outcome, Vec<u64>) {
    let (n, entries) = (log.len(), board.len());
    let asked = || format!("segment {index} of {n} bytes, S {size}, R {width}, board {entries}, {settings:?}");
    let (bytes, mut lent) = (Lent::holding(log), Lent::holding(board));
    let answer = raw::segment(settings, bytes.read(), size, width, index, lent.write());
    let (number, count, board) = second::segment(&plain(settings), log, size, width, index, board);
    bytes.must_hold(log, &asked);
    lent.must_hold(&board, &asked);
    (must_be(answer, Outcome { number, count }, &asked), board)
}

/// The second program is asked for the segment on a board of bays like this one, and its bay is taken out.
pub fn record(settings: Settings, log: &[u8], size: u64, index: u64, bay: &[u64]) -> (Outcome, Vec<u64>) {
    let asked = || format!("record {index} of {} bytes, S {size}, bay {}, {settings:?}", log.len(), bay.len());
    let (bytes, mut lent) = (Lent::holding(log), Lent::holding(bay));
    let answer = raw::record(settings, bytes.read(), size, index, lent.write());
    let segments = log.len().checked_div(size as usize).map_or(0, |full| full + 1);
    let (number, count, board) =
        second::segment(&plain(settings), log, size, bay.len() as u64, index, &bay.repeat(segments));
    let bay = if number == 0 || number == 6 { &board[index as usize * bay.len()..][..bay.len()] } else { bay };
    bytes.must_hold(log, &asked);
    lent.must_hold(bay, &asked);
    (must_be(answer, Outcome { number, count }, &asked), bay.to_vec())
}

pub fn merge(settings: Settings, n: u64, size: u64, width: u64, board: &[u64], list: &[u64]) -> (Outcome, Vec<u64>) {
    let asked = || format!("merge of {n} bytes, S {size}, R {width}, room {}, {settings:?}, {board:?}", list.len());
    let (bays, mut lent) = (Lent::holding(board), Lent::holding(list));
    let answer = raw::merge(settings, n, size, width, bays.read(), lent.write());
    let (number, count, list) = second::merge(&plain(settings), n, size, width, board, list);
    bays.must_hold(board, &asked);
    lent.must_hold(&list, &asked);
    (must_be(answer, Outcome { number, count }, &asked), list)
}

/// The edit is (at, removed, added).
pub fn amend(settings: Settings, old: &[u64], edit: [u64; 3], log: &[u8], list: &[u64]) -> (Amendment, Vec<u64>) {
    let [at, removed, added] = edit;
    let asked = || format!("amend {edit:?} to {} bytes, room {}, {settings:?}, {old:?}", log.len(), list.len());
    let (cuts, bytes, mut lent) = (Lent::holding(old), Lent::holding(log), Lent::holding(list));
    let answer = raw::amend(settings, cuts.read(), at, removed, added, bytes.read(), lent.write());
    let (number, counts, list) = second::amend(&plain(settings), old, at, removed, added, log, list);
    cuts.must_hold(old, &asked);
    bytes.must_hold(log, &asked);
    lent.must_hold(&list, &asked);
    let second::Counts { front, recut, back } = counts;
    (must_be(answer, Amendment { number, front, recut, back }, &asked), list)
}

pub fn write_sheet(settings: Settings, live: bool, list: &[u64], bytes: &[u8]) -> (Outcome, Vec<u8>) {
    let asked = || format!("write_sheet, live {live}, room {}, {settings:?}, {list:?}", bytes.len());
    let (cuts, mut lent) = (Lent::holding(list), Lent::holding(bytes));
    let answer = raw::write_sheet(settings, live, cuts.read(), lent.write());
    let (number, count, bytes) = second::write_sheet(&plain(settings), label(live), list, bytes);
    cuts.must_hold(list, &asked);
    lent.must_hold(&bytes, &asked);
    (must_be(answer, Outcome { number, count }, &asked), bytes)
}

pub fn read_sheet(bytes: &[u8], live: bool, list: &[u64]) -> (Reading, Vec<u64>) {
    let asked = || format!("read_sheet, live {live}, room {}, {bytes:?}", list.len());
    let (sheet, mut lent) = (Lent::holding(bytes), Lent::holding(list));
    let answer = raw::read_sheet(sheet.read(), live, lent.write());
    let (number, says, list) = second::read_sheet(bytes, label(live), list);
    sheet.must_hold(bytes, &asked);
    lent.must_hold(&list, &asked);
    let second::Reading { label, settings, count } = says;
    (must_be(answer, Reading { number, label, settings: exported(settings), count }, &asked), list)
}
