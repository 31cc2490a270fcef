//! Lent slices with canaries around them.

use crate::difference::{agree_runs, Checked};
use std::fmt::Debug;
use std::hint::black_box;
use std::ops::Range;

/// Canaries on each side; odd, so that the lent slice is aligned to no more
/// than its own items.
const MARGIN: usize = 17;

/// Numbers and bytes that canaries are made of.
pub trait Canary: Copy + PartialEq + Debug {
    /// A canary that differs from its neighbours.
    fn at(index: usize) -> Self;
}

impl Canary for u32 {
    fn at(index: usize) -> u32 {
        0xC0FF_EE00 ^ (index as u32).wrapping_mul(0x9E37_79B1)
    }
}

impl Canary for u16 {
    fn at(index: usize) -> u16 {
        0xC0DE ^ (index as u16).wrapping_mul(0x9E35)
    }
}

impl Canary for u8 {
    fn at(index: usize) -> u8 {
        0xA5 ^ (index as u8).wrapping_mul(0x1D)
    }
}

/// A slice to lend to the reference, its like to lend to the library, and
/// what stood in both before.
pub struct Lent<T> {
    before: Vec<T>,
    expected: Vec<T>,
    found: Vec<T>,
    inside: Range<usize>,
}

impl<T: Canary> Lent<T> {
    pub fn of(len: usize) -> Self {
        let before: Vec<T> = (0..len + 2 * MARGIN).map(T::at).collect();
        let expected = before.clone();
        let found = before.clone();
        Lent {
            before,
            expected,
            found,
            inside: MARGIN..MARGIN + len,
        }
    }

    pub fn for_reference(&mut self) -> &mut [T] {
        &mut self.expected[self.inside.clone()]
    }

    pub fn for_library(&mut self) -> &mut [T] {
        &mut self.found[self.inside.clone()]
    }

    /// The first `len` items that the library left.
    pub fn found(&self, len: usize) -> &[T] {
        &self.found[self.inside.clone()][..len]
    }

    /// Holds what the library left to what the reference left, all canaries
    /// with it; past the first `used` items nothing may have changed.
    pub fn agree(&self, call: &str, used: usize) -> Checked {
        agree_runs(|| format!("what {call} left"), &self.expected, &self.found)?;
        let end = MARGIN + used;
        agree_runs(
            || format!("what {call} left before"),
            &self.before[..MARGIN],
            &self.found[..MARGIN],
        )?;
        agree_runs(
            || format!("what {call} left after"),
            &self.before[end..],
            &self.found[end..],
        )
    }
}

/// A slice that is lent to be looked at, between canaries, with a copy of all.
pub struct Shown<T> {
    before: Vec<T>,
    held: Vec<T>,
    inside: Range<usize>,
}

impl<T: Canary> Shown<T> {
    pub fn of(items: &[T]) -> Self {
        let canary = |from: usize| (from..from + MARGIN).map(T::at);
        let held: Vec<T> = canary(0)
            .chain(items.iter().copied())
            .chain(canary(items.len()))
            .collect();
        Shown {
            before: held.clone(),
            held,
            inside: MARGIN..MARGIN + items.len(),
        }
    }

    pub fn lent(&self) -> &[T] {
        &self.held[self.inside.clone()]
    }

    /// Nothing may have changed, nor any canary.
    pub fn agree(&self, call: &str) -> Checked {
        // What is only lent is taken to stay as it was, unless it is hidden.
        let held = black_box(&self.held);
        agree_runs(|| format!("what {call} was shown"), &self.before, held)
    }
}
