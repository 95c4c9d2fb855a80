//! A fuzz target: any bytes stand for a call of read_sheet, merge, amend or block, and the library's answer is held to the second
//! program's. `host/fuzz/run` fuzzes with clang's libFuzzer; `cargo run --release --offline -p fuzz FILE...` runs files.
//!
//! Nearly all bytes that are taken as they are get no further than a call's first rows. So they also stand for a right sheet, board,
//! edit or carry, and for the damage done to it.

mod boards;
mod input;
mod passes;
mod sheets;

use input::Input;

/// What libFuzzer calls. A difference ends the program.
///
/// # Safety
/// `start` is the start of `length` bytes that can be read.
#[unsafe(no_mangle)]
pub unsafe extern "C" fn LLVMFuzzerTestOneInput(start: *const u8, length: usize) -> i32 {
    if length > 0 {
        // SAFETY: the caller's promise.
        call(unsafe { std::slice::from_raw_parts(start, length) });
    }
    0
}

/// What the first byte chooses from.
const CALLS: [fn(&mut Input) -> u32; 6] =
    [sheets::read_any, sheets::read_damaged, boards::merge_any, boards::merge_damaged, passes::amend, passes::block];

/// Asks the call that the bytes stand for, and gives the number answered.
pub fn call(input: &[u8]) -> u32 {
    let mut input = Input(input);
    CALLS[usize::from(input.byte()) % CALLS.len()](&mut input)
}

#[cfg(test)]
mod tests {
    use super::{CALLS, call};
    use noise::Noise;
    use std::collections::BTreeSet;

    /// The numbers that random bytes lead to, for each call.
    #[test]
    fn random_bytes_lead_past_the_first_rows() {
        let mut answered = vec![BTreeSet::new(); CALLS.len()];
        for seed in 0..30_000 {
            let mut noise = Noise::new(seed);
            let length = noise.between(1, 300) as usize;
            let input = noise.log(length);
            answered[usize::from(input[0]) % CALLS.len()].insert(call(&input));
        }
        let [_, sheets, _, boards, amendments, blocks] = &answered[..] else { panic!("six calls") };
        assert!([0, 5, 10, 12, 13, 14, 15].iter().all(|number| sheets.contains(number)), "{sheets:?}");
        assert!([0, 1, 5, 7, 8, 9].iter().all(|number| boards.contains(number)), "{boards:?}");
        assert!([0, 1, 5, 10, 11].iter().all(|number| amendments.contains(number)), "{amendments:?}");
        assert!([0, 1, 2, 3, 4, 5].iter().all(|number| blocks.contains(number)), "{blocks:?}");
    }
}
