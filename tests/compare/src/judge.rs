//! Collects the verdicts of a run.

use crate::corrections::Corrected;
use crate::met::Met;
use crate::moves::Moves;
use crate::origins::Stored;
use crate::sums::{Change, Sum};
use crate::tables::{Buffer, InOverflow};
use std::collections::HashSet;
use std::fmt::{Debug, Display};

/// How many differences are printed before the run is given up.
const MAX_DIFFERENCES: u64 = 10;

#[derive(Default)]
pub struct Judge {
    /// Where the current case comes from, for the account of a difference.
    pub case: String,
    pub calls: u64,
    pub differences: u64,
    /// What had to be answered: routine, refusal number or 0 when done, and map.
    pub outcomes: HashSet<(&'static str, u64, u64)>,
    /// Where distances that were looked up are stored, by routine.
    pub stored: HashSet<(&'static str, Stored)>,
    /// Which entries edits had to move, by routine.
    pub moves: HashSet<(&'static str, Moves)>,
    /// The sums that had to be answered, by routine.
    pub sums: HashSet<(&'static str, Sum)>,
    /// What edits had to do to the sum, by routine.
    pub changes: HashSet<(&'static str, Change)>,
    /// What repairs had to correct.
    pub corrections: HashSet<Corrected>,
    /// The bundles that had to be read.
    pub bundles: HashSet<Met>,
    /// The tables that had to make a map of a frame with all disparities, and how long its buffer was.
    pub frames: HashSet<(InOverflow, Buffer)>,
    /// Holds any file, for the reference alone.
    scratch: Vec<u8>,
}

impl Judge {
    /// Bytes for any file, out of the library's reach.
    pub fn scratch(&mut self) -> &mut [u8] {
        let longest = reference::file_len(reference::MAX_SLOTS, reference::MAX_SLOTS);
        self.scratch.resize(longest as usize, 0);
        &mut self.scratch
    }

    /// Compares what a call left behind.
    pub fn same<T: PartialEq + Debug>(&mut self, call: &dyn Display, expected: T, actual: T) {
        if expected != actual {
            self.difference(call, &expected, &actual);
        }
    }

    /// Compares two buffers and tells the first place where they differ.
    pub fn same_buffer<T: PartialEq + Debug>(
        &mut self,
        call: &dyn Display,
        expected: &[T],
        actual: &[T],
    ) {
        if expected == actual {
            return;
        }
        let mut pairs = expected.iter().zip(actual);
        match pairs.position(|(expected, actual)| expected != actual) {
            Some(at) => self.difference(
                &format_args!("{call}, element {at}"),
                &expected[at],
                &actual[at],
            ),
            None => self.difference(
                &format_args!("{call}, number of elements"),
                &expected.len(),
                &actual.len(),
            ),
        }
    }

    fn difference(&mut self, call: &dyn Display, expected: &dyn Debug, actual: &dyn Debug) {
        self.differences += 1;
        println!("difference in {}", self.case);
        println!("  call:     {call}");
        println!("  expected: {expected:?}");
        println!("  actual:   {actual:?}");
    }

    /// Whether enough has been seen.
    pub fn gives_up(&self) -> bool {
        self.differences >= MAX_DIFFERENCES
    }
}
