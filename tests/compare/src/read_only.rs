//! Memory of the caller that the library only reads, between guards.

use crate::judge::Judge;
use compare::rng::Rng;
use std::fmt::{Debug, Display};
use std::ops::Range;

/// The elements start anywhere up to here in their memory, so bytes at any alignment.
const MAX_SHIFT: usize = 16;

/// A file or list that the library reads, between other elements that must not matter.
pub struct ReadOnly<T> {
    memory: Vec<T>,
    range: Range<usize>,
    /// The memory as it was at first; the reference answers from it.
    original: Vec<T>,
}

impl<T: Clone + PartialEq + Debug> ReadOnly<T> {
    /// A copy of some elements, with `around` on both sides.
    pub fn new(rng: &mut Rng, elements: &[T], around: T) -> ReadOnly<T> {
        let shift = rng.below(MAX_SHIFT);
        let around = vec![around; shift];
        let memory = [&around, elements, &around].concat();
        ReadOnly {
            original: memory.clone(),
            memory,
            range: shift..shift + elements.len(),
        }
    }

    /// What the library gets.
    pub fn contents(&self) -> &[T] {
        &self.memory[self.range.clone()]
    }

    /// The same, out of the library's reach.
    pub fn original(&self) -> &[T] {
        &self.original[self.range.clone()]
    }

    /// Sees that a call has left the elements and what surrounds them unchanged.
    pub fn settle(&mut self, judge: &mut Judge, call: &dyn Display, what: &str) {
        let what = format_args!("{call}: {what} and its surroundings");
        judge.same_buffer(&what, &self.original, &self.memory);
        self.memory.clone_from_slice(&self.original);
    }
}
