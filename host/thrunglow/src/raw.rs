//! The calls as the library exports them: memory is lent, and a number says how the call went, 0 for a success.
//!
//! They are safe to call with any arguments: the library is proved to answer each, to read and write within the memory lent, and
//! to keep none of it. This is the only file with `unsafe` in it.
#![allow(unsafe_code)]

use crate::{Carry, Settings};

/// A number, and the entries or bytes written.
#[repr(C)]
#[derive(Clone, Copy, Debug, Default, PartialEq, Eq)]
pub struct Outcome {
    pub number: u32,
    pub count: u64,
}

/// A number, the entries written, and the carry to go on with.
#[repr(C)]
#[derive(Clone, Copy, Debug, PartialEq, Eq)]
pub struct Passed {
    pub number: u32,
    pub count: u64,
    pub carry: Carry,
}

/// A number, and the cuts kept before the edit, cut anew, and kept and moved after it.
#[repr(C)]
#[derive(Clone, Copy, Debug, Default, PartialEq, Eq)]
pub struct Amendment {
    pub number: u32,
    pub front: u64,
    pub recut: u64,
    pub back: u64,
}

/// A number, and what a sheet says: its label's byte, its settings, and its count of cuts.
#[repr(C)]
#[derive(Clone, Copy, Debug, Default, PartialEq, Eq)]
pub struct Reading {
    pub number: u32,
    pub label: u8,
    pub settings: Settings,
    pub count: u64,
}

unsafe extern "C" {
    fn thrunglow_fresh(settings: Settings) -> Passed;
    fn thrunglow_block(
        carry: Carry,
        block: *const u8,
        block_length: usize,
        list: *mut u64,
        list_length: usize,
    ) -> Passed;
    fn thrunglow_close(carry: Carry, list: *mut u64, list_length: usize) -> Passed;
    fn thrunglow_cut_log(
        settings: Settings,
        log: *const u8,
        log_length: usize,
        list: *mut u64,
        list_length: usize,
    ) -> Outcome;
    fn thrunglow_segment(
        settings: Settings,
        log: *const u8,
        log_length: usize,
        size: u64,
        width: u64,
        index: u64,
        board: *mut u64,
        board_length: usize,
    ) -> Outcome;
    fn thrunglow_record(
        settings: Settings,
        log: *const u8,
        log_length: usize,
        size: u64,
        index: u64,
        bay: *mut u64,
        bay_length: usize,
    ) -> Outcome;
    fn thrunglow_merge(
        settings: Settings,
        bytes: u64,
        size: u64,
        width: u64,
        board: *const u64,
        board_length: usize,
        list: *mut u64,
        list_length: usize,
    ) -> Outcome;
    fn thrunglow_amend(
        settings: Settings,
        old: *const u64,
        old_length: usize,
        at: u64,
        removed: u64,
        added: u64,
        log: *const u8,
        log_length: usize,
        list: *mut u64,
        list_length: usize,
    ) -> Amendment;
    fn thrunglow_write_sheet(
        settings: Settings,
        live: bool,
        list: *const u64,
        list_length: usize,
        bytes: *mut u8,
        bytes_length: usize,
    ) -> Outcome;
    fn thrunglow_read_sheet(
        bytes: *const u8,
        bytes_length: usize,
        live: bool,
        list: *mut u64,
        list_length: usize,
    ) -> Reading;
}

/// A fresh carry; beside number 1, a carry with every part 0.
pub fn fresh(settings: Settings) -> Passed {
    // SAFETY: only values go in and come out.
    unsafe { thrunglow_fresh(settings) }
}

/// Takes one block. The list has room for floor(block / minimum) + 1 entries.
pub fn block(carry: Carry, block: &[u8], list: &mut [u64]) -> Passed {
    // SAFETY: each pointer goes with its slice's own length; the block is only read, the list is ours alone to write.
    unsafe { thrunglow_block(carry, block.as_ptr(), block.len(), list.as_mut_ptr(), list.len()) }
}

/// Closes the log. The list has room for 1 entry.
pub fn close(carry: Carry, list: &mut [u64]) -> Passed {
    // SAFETY: the pointer goes with its slice's own length; the list is ours alone to write.
    unsafe { thrunglow_close(carry, list.as_mut_ptr(), list.len()) }
}

/// Cuts a whole log. The list has room for floor(log / minimum) + 1 entries.
pub fn cut_log(settings: Settings, log: &[u8], list: &mut [u64]) -> Outcome {
    // SAFETY: each pointer goes with its slice's own length; the log is only read, the list is ours alone to write.
    unsafe { thrunglow_cut_log(settings, log.as_ptr(), log.len(), list.as_mut_ptr(), list.len()) }
}

/// Records segment `index` of `size` bytes into its bay of a board of bays of `width` entries.
pub fn segment(settings: Settings, log: &[u8], size: u64, width: u64, index: u64, board: &mut [u64]) -> Outcome {
    let (start, length) = (board.as_mut_ptr(), board.len());
    // SAFETY: each pointer goes with its slice's own length; the log is only read, the board is ours alone to write.
    unsafe { thrunglow_segment(settings, log.as_ptr(), log.len(), size, width, index, start, length) }
}

/// Records segment `index` of `size` bytes into a bay lent by itself.
pub fn record(settings: Settings, log: &[u8], size: u64, index: u64, bay: &mut [u64]) -> Outcome {
    // SAFETY: each pointer goes with its slice's own length; the log is only read, the bay is ours alone to write.
    unsafe { thrunglow_record(settings, log.as_ptr(), log.len(), size, index, bay.as_mut_ptr(), bay.len()) }
}

/// Merges the board of a log of that many bytes. The list has room for floor(bytes / minimum) + 1 entries.
pub fn merge(settings: Settings, bytes: u64, size: u64, width: u64, board: &[u64], list: &mut [u64]) -> Outcome {
    let (start, length) = (list.as_mut_ptr(), list.len());
    // SAFETY: each pointer goes with its slice's own length; the board is only read, the list is ours alone to write.
    unsafe { thrunglow_merge(settings, bytes, size, width, board.as_ptr(), board.len(), start, length) }
}

/// Amends the old list where `removed` bytes at `at` were replaced by `added` bytes and `log` came of it. The list has room for
/// floor(log / minimum) + 1 entries.
pub fn amend(
    settings: Settings,
    old: &[u64],
    at: u64,
    removed: u64,
    added: u64,
    log: &[u8],
    list: &mut [u64],
) -> Amendment {
    let (start, length) = (list.as_mut_ptr(), list.len());
    // SAFETY: each pointer goes with its slice's own length; the old list and the log are only read, the list is ours alone to
    // write.
    unsafe {
        thrunglow_amend(settings, old.as_ptr(), old.len(), at, removed, added, log.as_ptr(), log.len(), start, length)
    }
}

/// Writes the sheet of a list. The bytes have room for 8 a cut and 32 more.
pub fn write_sheet(settings: Settings, live: bool, list: &[u64], bytes: &mut [u8]) -> Outcome {
    // SAFETY: each pointer goes with its slice's own length; the list is only read, the bytes are ours alone to write.
    unsafe { thrunglow_write_sheet(settings, live, list.as_ptr(), list.len(), bytes.as_mut_ptr(), bytes.len()) }
}

/// Reads the sheet that the bytes end with, asked for as live or as practice. The list has room for its count.
pub fn read_sheet(bytes: &[u8], live: bool, list: &mut [u64]) -> Reading {
    // SAFETY: each pointer goes with its slice's own length; the bytes are only read, the list is ours alone to write.
    unsafe { thrunglow_read_sheet(bytes.as_ptr(), bytes.len(), live, list.as_mut_ptr(), list.len()) }
}
