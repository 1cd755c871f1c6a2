//! A slice to be lent to the library, between guard elements that nobody may touch.

use std::fmt::LowerHex;

/// An element of lent memory.
pub trait Element: Copy + PartialEq + LowerHex {
    fn of(word: u64) -> Self;
}

impl Element for u8 {
    fn of(word: u64) -> Self {
        word as u8
    }
}

impl Element for u16 {
    fn of(word: u64) -> Self {
        word as u16
    }
}

impl Element for u64 {
    fn of(word: u64) -> Self {
        word
    }
}

/// How slices are lent: so many guard elements on each side, and so many elements more than are
/// asked for.
#[derive(Clone, Copy)]
pub struct Lending {
    pub guard: usize,
    pub spare: usize,
}

/// Guard elements, the elements that are asked for, spare ones, and guard elements again. Those
/// from the end of the guard on are lent. At first every element has the pattern of its place.
#[derive(Clone)]
pub struct Guarded<T> {
    name: &'static str,
    cells: Vec<T>,
    guard: usize,
    asked: usize,
    lent: usize,
}

/// What an element holds that nobody has written.
fn pattern<T: Element>(place: usize) -> T {
    let word = (place as u64 + 1).wrapping_mul(0x9E37_79B9_7F4A_7C15);
    T::of(word ^ (word >> 32))
}

impl<T: Element> Guarded<T> {
    pub fn new(name: &'static str, asked: usize, lending: Lending) -> Self {
        let lent = asked + lending.spare;
        Guarded {
            name,
            cells: (0..lent + 2 * lending.guard).map(pattern).collect(),
            guard: lending.guard,
            asked,
            lent,
        }
    }

    /// A slice that holds just these elements.
    pub fn holding(name: &'static str, elements: &[T], guard: usize) -> Self {
        let mut made = Guarded::new(name, elements.len(), Lending { guard, spare: 0 });
        made.asked_mut().copy_from_slice(elements);
        made
    }

    /// The elements that are asked for.
    pub fn asked(&self) -> &[T] {
        &self.cells[self.guard..][..self.asked]
    }

    pub fn asked_mut(&mut self) -> &mut [T] {
        &mut self.cells[self.guard..][..self.asked]
    }

    /// Lends another number of elements from now on.
    pub fn lend(&mut self, length: usize) {
        assert!(length <= self.cells.len() - 2 * self.guard);
        self.lent = length;
    }

    /// What the library is given.
    pub fn lent(&mut self) -> (*mut T, usize) {
        (self.cells.as_mut_ptr().wrapping_add(self.guard), self.lent)
    }

    /// Nothing but the first `written` of the lent elements has been touched.
    pub fn untouched_past(&self, written: usize) -> Result<(), String> {
        let past = self.guard + written;
        match (0..self.guard)
            .chain(past..self.cells.len())
            .find(|&k| self.cells[k] != pattern(k))
        {
            Some(k) => Err(self.touched(k, pattern(k))),
            None => Ok(()),
        }
    }

    /// Nothing but the guard's and the spare elements' pattern stands outside what is asked for.
    pub fn guards_stand(&self) -> Result<(), String> {
        self.untouched_past(self.asked)
    }

    /// Every element, lent or not, is what it was, but for the first `written` of those lent.
    pub fn same_past(&self, written: usize, before: &Self) -> Result<(), String> {
        let past = self.guard + written;
        if self.cells[..self.guard] == before.cells[..self.guard]
            && self.cells[past..] == before.cells[past..]
        {
            return Ok(());
        }
        let k = (0..self.guard)
            .chain(past..self.cells.len())
            .find(|&k| self.cells[k] != before.cells[k])
            .unwrap_or(past);
        Err(self.touched(k, before.cells[k]))
    }

    /// Gives the first `written` of the lent elements their pattern back.
    pub fn wipe(&mut self, written: usize) {
        for k in self.guard..self.guard + written {
            self.cells[k] = pattern(k);
        }
    }

    fn touched(&self, k: usize, was: T) -> String {
        format!(
            "{}[{}] was written ({} elements are asked for, {} were lent): {:x} became {:x}",
            self.name,
            k as isize - self.guard as isize,
            self.asked,
            self.lent,
            was,
            self.cells[k],
        )
    }
}
