//! The parts of a file in the caller's lists, and faults to put into them.

use crate::damage::ends_and_middle;
use compare::rng::Rng;
use std::fmt;

/// A primary array, and overflow entries as their slots and their distances.
#[derive(Clone)]
pub struct Parts {
    pub primary: Vec<u8>,
    pub slots: Vec<u64>,
    pub distances: Vec<u32>,
}

impl Parts {
    /// The parts of a list's file.
    pub fn of(list: &[u32]) -> Parts {
        let overflow = (0u64..).zip(list.iter().copied());
        let (slots, distances) = overflow.filter(|&(_, distance)| distance >= 255).unzip();
        Parts {
            primary: list
                .iter()
                .map(|&distance| distance.min(255) as u8)
                .collect(),
            slots,
            distances,
        }
    }

    /// Few bytes and entries, which may fit each other.
    pub fn random(rng: &mut Rng) -> Parts {
        let n = rng.below(7);
        let k = rng.below(n + 1);
        let primary = (0..n).map(|_| rng.pick(&[0, 254, 255, 255])).collect();
        let mut slot = rng.below(2) as u64;
        let entry = |_| {
            let entry = (slot, rng.pick(&[255, 300, u32::MAX, 255, 256, 254]));
            slot += rng.pick(&[1, 1, 1, 2, 2, 0]);
            entry
        };
        let (slots, distances) = (0..k).map(entry).unzip();
        Parts {
            primary,
            slots,
            distances,
        }
    }
}

impl fmt::Debug for Parts {
    /// In full where it is short.
    fn fmt(&self, f: &mut fmt::Formatter) -> fmt::Result {
        let Parts {
            primary,
            slots,
            distances,
        } = self;
        match primary.len() {
            0..10 => write!(f, "{primary:?} with {slots:?}: {distances:?}"),
            n => write!(
                f,
                "{n} primary bytes with {} slots and {} distances",
                slots.len(),
                distances.len()
            ),
        }
    }
}

/// A change of parts.
#[derive(Clone, Debug)]
pub enum Fault {
    /// The primary byte of a slot.
    Byte(usize, u8),
    /// The slot of an entry.
    Slot(usize, u64),
    /// The distance of an entry.
    Distance(usize, u32),
    /// An entry is taken away.
    Missing(usize),
    /// An entry stands twice.
    Repeated(usize),
    /// An entry stands before the one that was before it.
    Swapped(usize),
    /// There are so many slots.
    Slots(usize),
    /// There are so many distances.
    Distances(usize),
}

impl Fault {
    /// Applies to the parts what of it lies within.
    pub fn apply(&self, parts: &mut Parts) {
        let Parts {
            primary,
            slots,
            distances,
        } = parts;
        let entries = slots.len().min(distances.len());
        match *self {
            Fault::Byte(slot, byte) => put(primary, slot, byte),
            Fault::Slot(entry, slot) => put(slots, entry, slot),
            Fault::Distance(entry, distance) => put(distances, entry, distance),
            Fault::Missing(entry) if entry < entries => {
                slots.remove(entry);
                distances.remove(entry);
            }
            Fault::Repeated(entry) if entry < entries => {
                slots.insert(entry, slots[entry]);
                distances.insert(entry, distances[entry]);
            }
            Fault::Swapped(entry) if entry < entries => {
                slots.swap(entry - 1, entry);
                distances.swap(entry - 1, entry);
            }
            Fault::Missing(_) | Fault::Repeated(_) | Fault::Swapped(_) => {}
            Fault::Slots(len) => slots.resize(len, primary.len() as u64 - 1),
            Fault::Distances(len) => distances.resize(len, 300),
        }
    }
}

fn put<T>(elements: &mut [T], at: usize, value: T) {
    if let Some(element) = elements.get_mut(at) {
        *element = value;
    }
}

/// Faults of every kind in sound parts with at least one entry.
pub fn every_fault(parts: &Parts) -> Vec<Fault> {
    let k = parts.slots.len();
    let in_entries = ends_and_middle(k)
        .into_iter()
        .flat_map(|entry| entry_faults(parts, entry));
    let inline: Vec<usize> = (0..parts.primary.len())
        .filter(|&slot| parts.primary[slot] != reference::SENTINEL)
        .collect();
    let sentinels_added = ends_and_middle(inline.len())
        .into_iter()
        .map(|i| Fault::Byte(inline[i], reference::SENTINEL));
    let lengths = [0, 1, k / 2, k - 1, k + 1, k + 2]
        .into_iter()
        .flat_map(|len| [Fault::Slots(len), Fault::Distances(len)]);
    in_entries.chain(sentinels_added).chain(lengths).collect()
}

/// Faults in one entry and in the primary byte of its slot.
fn entry_faults(parts: &Parts, entry: usize) -> Vec<Fault> {
    let n = parts.primary.len() as u64;
    let slot = parts.slots[entry];
    let slots = [
        0,
        slot.wrapping_sub(1),
        slot + 1,
        slot + (1 << 32),
        n - 1,
        n,
        n + 1,
        1 << 63,
        u64::MAX,
    ]
    .map(|wrong| Fault::Slot(entry, wrong));
    let distances = [0, 1, 44, 254, 255, 256, u32::MAX].map(|wrong| Fault::Distance(entry, wrong));
    let bytes = [0, 1, 44, 254].map(|byte| Fault::Byte(slot as usize, byte));
    let swapped = (entry > 0).then_some(Fault::Swapped(entry));
    let whole = [Fault::Missing(entry), Fault::Repeated(entry)];
    [&slots[..], &distances, &bytes, &whole, swapped.as_slice()].concat()
}
