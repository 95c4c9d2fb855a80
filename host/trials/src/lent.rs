//! Memory to lend, with guard values around it and, where asked for, a fence right before or right after it.

use crate::fenced::{Fenced, Number};
use std::cell::Cell;
use std::ops::{Deref, DerefMut};

/// Where lent memory lies.
#[derive(Clone, Copy, Debug, PartialEq, Eq)]
pub enum Place {
    /// At every alignment, as its length has it.
    Anywhere,
    /// Its first byte is the first after a fence.
    AfterFence,
    /// Its last byte is the last before a fence.
    BeforeFence,
}

thread_local! {
    static PLACE: Cell<Place> = const { Cell::new(Place::Anywhere) };
}

/// Does the work with all memory that this thread lends in that place.
pub fn lending<T>(place: Place, work: impl FnOnce() -> T) -> T {
    let before = PLACE.replace(place);
    let done = work();
    PLACE.set(before);
    done
}

/// The memory that is lent a part of.
enum Cells<T> {
    Loose(Vec<T>),
    Fenced(Fenced<T>),
}

impl<T: Number> Deref for Cells<T> {
    type Target = [T];

    fn deref(&self) -> &[T] {
        match self {
            Cells::Loose(cells) => cells,
            Cells::Fenced(cells) => cells,
        }
    }
}

impl<T: Number> DerefMut for Cells<T> {
    fn deref_mut(&mut self) -> &mut [T] {
        match self {
            Cells::Loose(cells) => cells,
            Cells::Fenced(cells) => cells,
        }
    }
}

/// Memory among other memory, whose values are known.
pub struct Lent<T> {
    cells: Cells<T>,
    start: usize,
    length: usize,
}

impl<T: Number> Lent<T> {
    const GUARDS: usize = 64;

    /// Memory that holds this, in the place that this thread lends from.
    pub fn holding(contents: &[T]) -> Lent<T> {
        let length = contents.len();
        let (mut cells, start) = match PLACE.get() {
            Place::Anywhere => {
                let start = Self::GUARDS + length % 8;
                (Cells::Loose(vec![T::from(0); start + length + Self::GUARDS]), start)
            }
            Place::AfterFence => (Cells::Fenced(Fenced::with_room(length)), 0),
            Place::BeforeFence => {
                let cells = Fenced::with_room(length);
                let start = cells.len() - length;
                (Cells::Fenced(cells), start)
            }
        };
        for (k, cell) in cells.iter_mut().enumerate() {
            *cell = Self::guard(k);
        }
        cells[start..][..length].copy_from_slice(contents);
        Lent { cells, start, length }
    }

    fn guard(k: usize) -> T {
        T::from((167 * k + 89) as u8)
    }

    pub fn read(&self) -> &[T] {
        &self.cells[self.start..][..self.length]
    }

    pub fn write(&mut self) -> &mut [T] {
        &mut self.cells[self.start..][..self.length]
    }

    /// Sees that the memory holds this now and that the guards are as they were.
    pub fn must_hold(&self, expected: &[T], asked: &dyn Fn() -> String) {
        if self.read() != expected {
            let at = self.read().iter().zip(expected).position(|(is, must)| is != must);
            panic!("{}: lent memory differs at {at:?}:\n{:?}\n{expected:?}", asked(), self.read());
        }
        let (before, rest) = self.cells.split_at(self.start);
        let after = &rest[self.length..];
        let kept = |first: usize, guards: &[T]| (first..).zip(guards).all(|(k, guard)| *guard == Self::guard(k));
        let all_kept = kept(0, before) && kept(self.start + self.length, after);
        assert!(all_kept, "{}: written outside the memory lent", asked());
    }
}
