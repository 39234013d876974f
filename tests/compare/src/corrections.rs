//! The lines of repairs: the kinds that a run has to meet.

use crate::damage::le64;
use pciv::Correction;
use reference::{CORRECTION_LEN, HEADER_LEN, SENTINEL};
use std::cmp::Ordering;
use std::collections::HashSet;

/// What is told apart of a repair.
#[derive(Clone, Copy, Debug, PartialEq, Eq, Hash)]
pub enum Corrected {
    /// There are no lines.
    Nothing,
    /// The field of the header at this offset.
    Field(u64),
    /// An entry is dropped for this reason alone.
    Dropped(Reason),
    /// An entry is kept whose slot is not above that of the entry before it, which is dropped.
    KeptBehindDropped,
    /// A byte is set at a slot that an entry is dropped of.
    SetOfDropped,
    /// A byte is set at a slot that no entry has.
    SetWithoutEntry,
    /// The bytes behind the entries: how their old length lies to the new one, and whether either of
    /// them is 0.
    Index(Ordering, bool),
}

/// Why an entry is dropped.
#[derive(Clone, Copy, Debug, PartialEq, Eq, Hash)]
pub enum Reason {
    SlotBeyond,
    SlotBelowLast,
    SlotOfLast,
    ShortDistance,
    OtherByte,
}

const REASONS: [Reason; 5] = [
    Reason::SlotBeyond,
    Reason::SlotBelowLast,
    Reason::SlotOfLast,
    Reason::ShortDistance,
    Reason::OtherByte,
];

/// What a repair of a file of `n` slots and `k` entries has, by the lines that it has to give.
pub fn corrected(
    file: &[u8],
    (n, k): (u64, u64),
    lines: &[[u64; CORRECTION_LEN]],
) -> HashSet<Corrected> {
    let mut met = HashSet::new();
    if lines.is_empty() {
        met.insert(Corrected::Nothing);
    }
    let dropped: HashSet<u64> = of_kind(lines, Correction::DROPPED)
        .map(|[_, number, ..]| number)
        .collect();
    let mut last = None;
    let mut before = None;
    let mut slots = HashSet::new();
    for number in 0..k {
        let entry = Entry::of(file, n, number);
        match dropped.contains(&number) {
            true => {
                if let [reason] = entry.reasons(file, n, last)[..] {
                    met.insert(Corrected::Dropped(reason));
                }
                slots.insert(entry.slot);
            }
            false => {
                if last < before && before >= Some(entry.slot) {
                    met.insert(Corrected::KeptBehindDropped);
                }
                last = Some(entry.slot);
            }
        }
        before = Some(entry.slot);
    }
    met.extend(lines.iter().filter_map(|&[kind, place, old, new]| {
        Some(match kind {
            Correction::FIELD => Corrected::Field(place),
            Correction::SET if slots.contains(&place) => Corrected::SetOfDropped,
            Correction::SET => Corrected::SetWithoutEntry,
            Correction::INDEX => Corrected::Index(old.cmp(&new), old == 0 || new == 0),
            _ => return None,
        })
    }));
    met
}

fn of_kind(
    lines: &[[u64; CORRECTION_LEN]],
    kind: u64,
) -> impl Iterator<Item = [u64; CORRECTION_LEN]> + '_ {
    lines.iter().copied().filter(move |line| line[0] == kind)
}

/// An entry as it stands in a file.
struct Entry {
    slot: u64,
    distance: u32,
}

impl Entry {
    fn of(file: &[u8], n: u64, number: u64) -> Entry {
        let bytes = &file[HEADER_LEN + n as usize + 12 * number as usize..];
        Entry {
            slot: le64(bytes),
            distance: u32::from_le_bytes(bytes[8..12].try_into().expect("four bytes")),
        }
    }

    /// What is wrong with it, beside the last slot kept.
    fn reasons(&self, file: &[u8], n: u64, last: Option<u64>) -> Vec<Reason> {
        let is_other = |slot: u64| file[HEADER_LEN + slot as usize] != SENTINEL;
        let is_wrong = |reason: &Reason| match reason {
            Reason::SlotBeyond => self.slot >= n,
            Reason::SlotBelowLast => last.is_some_and(|last| self.slot < last),
            Reason::SlotOfLast => last == Some(self.slot),
            Reason::ShortDistance => self.distance < 255,
            Reason::OtherByte => self.slot < n && is_other(self.slot),
        };
        REASONS.into_iter().filter(is_wrong).collect()
    }
}

/// What has to be met in a run.
pub fn all_corrected() -> impl Iterator<Item = Corrected> {
    let fields = [0, 4, 8, 16, 24, 32].map(Corrected::Field);
    let dropped = REASONS.map(Corrected::Dropped);
    let others = [
        Corrected::Nothing,
        Corrected::KeptBehindDropped,
        Corrected::SetOfDropped,
        Corrected::SetWithoutEntry,
        Corrected::Index(Ordering::Less, true),
        Corrected::Index(Ordering::Less, false),
        Corrected::Index(Ordering::Equal, false),
        Corrected::Index(Ordering::Greater, false),
        Corrected::Index(Ordering::Greater, true),
    ];
    fields.into_iter().chain(dropped).chain(others)
}

#[cfg(test)]
mod tests {
    use super::*;

    const N: usize = 6;

    /// What the repair of a map of bytes 255 and entries of some slots has, all of distance 300.
    fn met_by(slots: &[u64]) -> HashSet<Corrected> {
        let mut file = vec![0; HEADER_LEN];
        file.extend([SENTINEL; N]);
        for slot in slots {
            file.extend(slot.to_le_bytes());
            file.extend(300u32.to_le_bytes());
        }
        let (n, k) = (N as u64, slots.len() as u64);
        let (mut out, mut numbers) = ([0; 200], [0; 100]);
        let repaired = reference::repair(&file, n, k, &mut out, &mut numbers).expect("few slots");
        let (lines, _) = numbers.as_chunks();
        corrected(&file, (n, k), &lines[..repaired.lines as usize])
    }

    #[test]
    fn entries_are_told_apart() {
        let met = met_by(&[1, 9, 2, 2, 0, 3]);
        for one in [
            Corrected::Dropped(Reason::SlotBeyond),
            Corrected::KeptBehindDropped,
            Corrected::Dropped(Reason::SlotOfLast),
            Corrected::Dropped(Reason::SlotBelowLast),
            Corrected::SetOfDropped,
            Corrected::SetWithoutEntry,
            Corrected::Field(0),
        ] {
            assert!(met.contains(&one), "{one:?}");
        }
        assert!(!met.contains(&Corrected::Dropped(Reason::OtherByte)));
        let met = met_by(&[0, 1, 2, 3, 4, 5]);
        assert!(met.iter().all(|one| matches!(one, Corrected::Field(_))));
    }

    /// A slot above that of an entry dropped says nothing of the order.
    #[test]
    fn an_entry_behind_one_dropped_may_have_any_slot() {
        let met = met_by(&[2, 1, 3]);
        assert!(!met.contains(&Corrected::KeptBehindDropped));
        assert!(met.contains(&Corrected::Dropped(Reason::SlotBelowLast)));
    }
}
