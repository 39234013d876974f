//! How many overflow entries edits move: the kinds of edits that a run has to meet.

use pciv::{Edited, Summary};
use std::cmp::Ordering;

/// What is told apart of the entries that an edit moves.
#[derive(Clone, Copy, Debug, PartialEq, Eq, Hash)]
pub enum Moves {
    /// None: the edit is refused.
    Refused,
    /// None: the slot is inline before and after.
    StaysInline,
    /// None: the slot is in overflow before and after.
    StaysInOverflow,
    IntoOverflow(Share),
    OutOfOverflow(Share),
}

/// How many of the entries of other slots are moved.
#[derive(Clone, Copy, Debug, PartialEq, Eq, Hash)]
pub enum Share {
    /// There are no others.
    NoOthers,
    None,
    Some,
    All,
}

impl Moves {
    /// What an edit to a distance does in a file with this summary; `done` is `None` where the edit
    /// is refused.
    pub fn of(old: &Summary, distance: u32, done: Option<Edited>) -> Moves {
        let Some(Edited { summary, moved }) = done else {
            return Moves::Refused;
        };
        match summary.k.cmp(&old.k) {
            Ordering::Less => Moves::OutOfOverflow(Share::of(moved, summary.k)),
            Ordering::Equal if distance < 255 => Moves::StaysInline,
            Ordering::Equal => Moves::StaysInOverflow,
            Ordering::Greater => Moves::IntoOverflow(Share::of(moved, old.k)),
        }
    }
}

impl Share {
    fn of(moved: u64, others: u64) -> Share {
        match moved {
            _ if others == 0 => Share::NoOthers,
            0 => Share::None,
            _ if moved == others => Share::All,
            _ => Share::Some,
        }
    }
}

/// What each routine has to meet in a run.
pub fn all_moves() -> impl Iterator<Item = (&'static str, Moves)> {
    let shares = [Share::NoOthers, Share::None, Share::Some, Share::All];
    let moves = [
        vec![Moves::Refused, Moves::StaysInline, Moves::StaysInOverflow],
        shares.map(Moves::IntoOverflow).to_vec(),
        shares.map(Moves::OutOfOverflow).to_vec(),
    ];
    let routines = ["edit", "edit_list"].into_iter();
    routines.flat_map(move |routine| moves.concat().into_iter().map(move |one| (routine, one)))
}
