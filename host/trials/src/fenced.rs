//! Memory between two fences: a page before it and a page after it that may not be touched. A read or a write there ends the
//! process with a signal.

use std::ffi::c_void;
use std::fmt::Debug;
use std::marker::PhantomData;
use std::ops::{Deref, DerefMut};

/// The bytes of a page of Linux on x86-64.
const PAGE: usize = 4_096;

const NOT_AT_ALL: i32 = 0;
const READ_AND_WRITE: i32 = 1 | 2;
const PRIVATE_ANONYMOUS: i32 = 0x2 | 0x20;

unsafe extern "C" {
    fn mmap(at: *mut c_void, length: usize, access: i32, kind: i32, file: i32, from: i64) -> *mut c_void;
    fn mprotect(start: *mut c_void, length: usize, access: i32) -> i32;
    fn munmap(start: *mut c_void, length: usize) -> i32;
}

/// What is lent: numbers for which any bits will do.
pub trait Number: Copy + Debug + PartialEq + From<u8> {}

impl Number for u8 {}
impl Number for u64 {}

/// Whole pages of numbers with a fence on either side.
pub struct Fenced<T> {
    start: *mut c_void,
    bytes: usize,
    holds: PhantomData<T>,
}

impl<T: Number> Fenced<T> {
    /// As many pages as hold that many numbers, none for none.
    pub fn with_room(numbers: usize) -> Fenced<T> {
        let bytes = (numbers * size_of::<T>()).next_multiple_of(PAGE);
        // SAFETY: a new mapping, of which the inner pages are opened; it fails with -1, which stops the trial.
        let start = unsafe {
            let fence = mmap(std::ptr::null_mut(), bytes + 2 * PAGE, NOT_AT_ALL, PRIVATE_ANONYMOUS, -1, 0);
            assert!(fence as isize != -1, "no memory for {bytes} bytes between fences");
            let start = fence.byte_add(PAGE);
            assert!(bytes == 0 || mprotect(start, bytes, READ_AND_WRITE) == 0, "{bytes} bytes stay shut");
            start
        };
        Fenced { start, bytes, holds: PhantomData }
    }
}

impl<T: Number> Deref for Fenced<T> {
    type Target = [T];

    fn deref(&self) -> &[T] {
        // SAFETY: these pages are open, aligned, hold numbers of any bits, and are borrowed with the value that owns them.
        unsafe { std::slice::from_raw_parts(self.start.cast(), self.bytes / size_of::<T>()) }
    }
}

impl<T: Number> DerefMut for Fenced<T> {
    fn deref_mut(&mut self) -> &mut [T] {
        // SAFETY: as above, and the value that owns the pages is borrowed alone.
        unsafe { std::slice::from_raw_parts_mut(self.start.cast(), self.bytes / size_of::<T>()) }
    }
}

impl<T> Drop for Fenced<T> {
    fn drop(&mut self) {
        // SAFETY: the whole mapping, with its fences, and nobody borrows it any more.
        unsafe { munmap(self.start.byte_sub(PAGE), self.bytes + 2 * PAGE) };
    }
}
