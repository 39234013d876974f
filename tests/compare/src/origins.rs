//! Where the distances that lookups find are stored: held to the bytes of the file, and cases about
//! it.

use crate::call::Call;
use crate::damage::le64;
use crate::files::encode;
use crate::judge::Judge;
use crate::routines::and_beside;
use crate::run::{Run, Subject};
use crate::trial::Trial;
use compare::lists::{self, Spread, SPREADS, STEP_BORDERS};
use compare::rng::Rng;
use reference::HEADER_LEN;
use std::cmp::Ordering;

/// What is told apart of where a distance is stored.
#[derive(Clone, Copy, Debug, PartialEq, Eq, Hash)]
pub enum Stored {
    InlineWithoutEntries,
    InlineBesideEntries,
    OnlyEntry,
    FirstEntry,
    EntryBetween,
    LastEntry,
}

impl Stored {
    /// What the number of an entry says in a map of `k` entries.
    fn of(entry: u64, k: u64) -> Stored {
        match (entry, k) {
            (0, 0) => Stored::InlineWithoutEntries,
            (0, 1) => Stored::OnlyEntry,
            (0, _) => Stored::FirstEntry,
            _ if entry == k => Stored::InlineBesideEntries,
            _ if entry == k - 1 => Stored::LastEntry,
            _ => Stored::EntryBetween,
        }
    }
}

/// What each routine has to find in a run.
pub fn all_stored() -> impl Iterator<Item = (&'static str, Stored)> {
    let all = [
        Stored::InlineWithoutEntries,
        Stored::InlineBesideEntries,
        Stored::OnlyEntry,
        Stored::FirstEntry,
        Stored::EntryBetween,
        Stored::LastEntry,
    ];
    let routines = ["lookup", "lookup_list"].into_iter();
    routines.flat_map(move |routine| all.map(|stored| (routine, stored)))
}

impl Judge {
    /// Holds what a lookup has found at a slot of a sound file, a distance and the number of its
    /// entry, to the bytes of the file.
    pub fn found(&mut self, call: &Call, file: &[u8], slot: u64, (distance, entry): (u32, u64)) {
        let [n, k] = [8, 16].map(|at| le64(&file[at..]));
        let there = match entry.cmp(&k) {
            Ordering::Less => {
                let entry = &file[HEADER_LEN + (n + 12 * entry) as usize..];
                Some((le64(entry), le32(&entry[8..])))
            }
            Ordering::Equal => Some((slot, u32::from(file[HEADER_LEN + slot as usize]))),
            Ordering::Greater => None,
        };
        let what = format_args!("{call}: slot {slot}, entry {entry} of {k} in the file");
        self.same(&what, there, Some((slot, distance)));
        self.same(&what, distance < 255, entry == k);
        self.stored.insert((call.routine, Stored::of(entry, k)));
    }
}

fn le32(bytes: &[u8]) -> u32 {
    u32::from_le_bytes(bytes[..4].try_into().expect("four bytes"))
}

/// Numbers of overflow entries beside those where the step of the sparse index changes, and of slots
/// in overflow of a list: eight of these are searched for at once.
const COUNTS: [usize; 8] = [0, 1, 7, 8, 9, 15, 16, 17];

/// Lookups of each kind on maps with these numbers of entries.
pub fn run_all(run: &mut Run) {
    let counts = COUNTS.into_iter().chain(STEP_BORDERS);
    for (number, k) in counts.enumerate() {
        for (inner, spread) in SPREADS.into_iter().enumerate() {
            run.case("where distances are stored", 3 * number + inner, |rng| {
                let n = k + 1 + rng.below(500);
                Origins::new(lists::with_overflow(rng, n, k, spread))
            });
        }
    }
}

/// A list, and its slots of each kind.
struct Origins {
    list: Vec<u32>,
    inline: Vec<u64>,
    overflow: Vec<u64>,
}

impl Origins {
    fn new(list: Vec<u32>) -> Origins {
        let slots = 0..list.len() as u64;
        let (inline, overflow) = slots.partition(|&slot| list[slot as usize] < 255);
        Origins {
            list,
            inline,
            overflow,
        }
    }

    /// The slots at both ends of the map and of each index block, and those beside them. Without an
    /// index all entries are one block.
    fn at_ends(&self) -> Vec<u64> {
        let k = self.overflow.len();
        let step = match reference::index_step(k as u64) {
            0 => k.max(1),
            step => step as usize,
        };
        let n = self.list.len() as u64;
        let blocks = self.overflow.chunks(step);
        let ends = blocks.flat_map(|block| [block[0], block[block.len() - 1]]);
        let mut slots: Vec<u64> = and_beside(ends.chain([0, n - 1]), n).collect();
        slots.sort_unstable();
        slots.dedup();
        slots
    }

    /// A list of slots, so many of them in overflow, among some that are inline.
    fn slots(&self, rng: &mut Rng, overflow: usize) -> Vec<u64> {
        let some = overflow + rng.below(12);
        let of = |slots: &[u64], rng: &mut Rng| rng.pick(slots) as u32;
        let slots = lists::placed(
            rng,
            some,
            overflow,
            Spread::Scattered,
            |rng| of(&self.overflow, rng),
            |rng| of(&self.inline, rng),
        );
        slots.into_iter().map(u64::from).collect()
    }
}

impl Subject for Origins {
    fn describe(&self) -> String {
        let Origins { list, overflow, .. } = self;
        format!("{} slots, {} in overflow", list.len(), overflow.len())
    }

    fn compare(&self, judge: &mut Judge, rng: &mut Rng) {
        let mut trial = Trial::new(judge, rng, &encode(&self.list));
        for slot in self.at_ends() {
            trial.lookup(slot);
        }
        let mut all: Vec<u64> = (0..self.list.len() as u64).collect();
        trial.lookup_list(rng, &all);
        all.reverse();
        trial.lookup_list(rng, &all);
        for count in COUNTS {
            if count == 0 || !self.overflow.is_empty() {
                let slots = self.slots(rng, count);
                trial.lookup_list(rng, &slots);
            }
        }
    }
}
