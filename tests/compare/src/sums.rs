//! The sums in summaries, and what edits do to them: the kinds that a run has to meet.

use crate::judge::Judge;
use pciv::{Edited, Summary};
use reference::MAX_SLOTS;
use std::cmp::Ordering;

/// The largest sum: 1,048,576 slots at 4,294,967,295.
const LARGEST: u64 = 4_503_599_626_321_920;
const _: () = assert!(LARGEST == MAX_SLOTS * u32::MAX as u64 && LARGEST < 1 << 52);

/// What is told apart of the sum in a summary.
#[derive(Clone, Copy, Debug, PartialEq, Eq, Hash)]
pub enum Sum {
    /// 0: there are no slots.
    NoSlots,
    /// 0: there are zero distances alone.
    Zeros,
    /// A number of 32 bits.
    Narrow,
    /// A number of more bits.
    Wide,
    /// The largest one.
    Largest,
}

impl Sum {
    fn of(summary: &Summary) -> Sum {
        match summary.sum {
            0 if summary.n == 0 => Sum::NoSlots,
            0 => Sum::Zeros,
            LARGEST => Sum::Largest,
            sum if sum > u32::MAX.into() => Sum::Wide,
            _ => Sum::Narrow,
        }
    }

    /// Whether a routine can answer such a sum: an edit of a map without slots is refused, and the
    /// map of a mask has distances 0 and 1.
    fn is_answered_by(self, routine: &str) -> bool {
        match self {
            Sum::NoSlots => !EDITING.contains(&routine),
            Sum::Zeros | Sum::Narrow => true,
            Sum::Wide | Sum::Largest => routine != "map_of_mask",
        }
    }
}

const EDITING: [&str; 2] = ["edit", "edit_list"];

/// The other routines that answer a summary.
const OTHERS: [&str; 14] = [
    "check",
    "write",
    "close",
    "close_entries",
    "minimum",
    "maximum",
    "sum_maps",
    "difference",
    "shift",
    "map_of_mask",
    "keep_masked",
    "increment_masked",
    "repair",
    "map_of_frame",
];

/// The sums that each routine has to meet in a run.
pub fn all_sums() -> impl Iterator<Item = (&'static str, Sum)> {
    let all = [
        Sum::NoSlots,
        Sum::Zeros,
        Sum::Narrow,
        Sum::Wide,
        Sum::Largest,
    ];
    let routines = OTHERS.into_iter().chain(EDITING);
    let pairs = routines.flat_map(move |routine| all.map(|sum| (routine, sum)));
    pairs.filter(|(routine, sum)| sum.is_answered_by(routine))
}

/// What is told apart of an edit for its sum; an order is that of the new sum beside the old one.
#[derive(Clone, Copy, Debug, PartialEq, Eq, Hash)]
pub enum Change {
    Refused,
    /// The slot is inline before and after.
    Inline(Ordering),
    /// The slot is in overflow before and after.
    InOverflow(Ordering),
    IntoOverflow,
    OutOfOverflow,
}

impl Change {
    /// What an edit to a distance does to the sum of a file with this summary; `done` is `None` where
    /// the edit is refused.
    pub fn of(old: &Summary, distance: u32, done: Option<Edited>) -> Change {
        let Some(Edited { summary: new, .. }) = done else {
            return Change::Refused;
        };
        let change = new.sum.cmp(&old.sum);
        match new.k.cmp(&old.k) {
            Ordering::Less => Change::OutOfOverflow,
            Ordering::Equal if distance < 255 => Change::Inline(change),
            Ordering::Equal => Change::InOverflow(change),
            Ordering::Greater => Change::IntoOverflow,
        }
    }
}

/// What each routine that edits has to do to sums in a run.
pub fn all_changes() -> impl Iterator<Item = (&'static str, Change)> {
    let orders = [Ordering::Less, Ordering::Equal, Ordering::Greater];
    let changes = [
        orders.map(Change::Inline).to_vec(),
        orders.map(Change::InOverflow).to_vec(),
        vec![Change::Refused, Change::IntoOverflow, Change::OutOfOverflow],
    ];
    let routines = EDITING.into_iter();
    routines.flat_map(move |routine| changes.concat().into_iter().map(move |one| (routine, one)))
}

impl Judge {
    /// Notes the sum that a call has to answer.
    pub fn sum(&mut self, routine: &'static str, summary: &Summary) {
        self.sums.insert((routine, Sum::of(summary)));
    }
}
