//! Memory lent to a call: a part of a longer buffer, all of it filled with a
//! pattern, so that writing before, behind or past the due words shows.

use std::fmt::Debug;

/// The elements before and behind the lent part.
const GUARD: usize = 8;

/// An element of lent memory.
pub trait Element: Copy + PartialEq + Debug {
    /// The low bits of a word.
    fn from_word(word: u64) -> Self;
}

impl Element for u8 {
    fn from_word(word: u64) -> u8 {
        word as u8
    }
}

impl Element for u32 {
    fn from_word(word: u64) -> u32 {
        word as u32
    }
}

impl Element for u64 {
    fn from_word(word: u64) -> u64 {
        word
    }
}

/// A lent part; without a guard it is a block of memory on its own, so that a
/// memory checker sees a step outside.
#[derive(Clone)]
pub struct Lent<T> {
    all: Box<[T]>,
    guard: usize,
}

impl<T: Element> Lent<T> {
    /// A part of so many elements, never twice the same neighbours.
    pub fn new(length: usize, guarded: bool) -> Lent<T> {
        let guard = if guarded { GUARD } else { 0 };
        let element =
            |i: usize| T::from_word((i as u64 + 3).wrapping_mul(0x9e37_79b9_7f4a_7c15) >> 7);
        Lent { all: (0..length + 2 * guard).map(element).collect(), guard }
    }

    /// The lent part.
    pub fn part(&mut self) -> &mut [T] {
        let end = self.all.len() - self.guard;
        &mut self.all[self.guard..end]
    }

    /// The first place where two such buffers differ, counted from the lent
    /// part's start, with what stands there.
    pub fn difference(&self, other: &Lent<T>) -> Option<(isize, T, T)> {
        let pairs = self.all.iter().zip(other.all.iter());
        let place = pairs.enumerate().find(|(_, (a, b))| a != b);
        place.map(|(i, (a, b))| (i as isize - self.guard as isize, *a, *b))
    }
}
