//! Overflow entries and the rules that tie them to a primary array.

use crate::layout::SENTINEL;
use crate::Refusal;

/// A slot in overflow with its distance.
#[derive(Clone, Copy, Debug, PartialEq, Eq)]
pub struct Entry {
    /// The slot.
    pub slot: u64,
    /// The distance at this slot, 255 or more.
    pub distance: u32,
}

/// Refusal 6: each overflow entry has a slot of the map above the one before, a distance of at
/// least 255, and the sentinel in the primary array.
pub(crate) fn check_entries(
    primary: &[u8],
    entries: impl Iterator<Item = Entry>,
) -> Result<(), Refusal> {
    let n = primary.len() as u64;
    let mut least_slot = 0;
    for (place, Entry { slot, distance }) in (0u64..).zip(entries) {
        let sound = (least_slot..n).contains(&slot)
            && distance >= u32::from(SENTINEL)
            && primary[slot as usize] == SENTINEL;
        if !sound {
            return Err(Refusal::of_file(6, place));
        }
        least_slot = slot + 1;
    }
    Ok(())
}

/// Refusal 7: each sentinel has an overflow entry. The entries have passed refusal 6.
pub(crate) fn check_sentinels(
    primary: &[u8],
    entries: impl Iterator<Item = Entry>,
) -> Result<(), Refusal> {
    let mut slots = entries.map(|entry| entry.slot);
    let sentinels = (0u64..).zip(primary).filter(|(_, &byte)| byte == SENTINEL);
    for (slot, _) in sentinels {
        if slots.next() != Some(slot) {
            return Err(Refusal::of_file(7, slot));
        }
    }
    Ok(())
}
