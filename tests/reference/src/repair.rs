//! Repair of a file whose header or sparse index is spoiled: the primary array and the overflow
//! entries are believed, and nothing else.

use crate::entries::Entry;
use crate::layout::{
    le32, le64, overflow_distance, overflow_slot, HEADER_LEN, INDEX_ENTRY_LEN, MAX_SLOTS,
    OVERFLOW_ENTRY_LEN, SENTINEL,
};
use crate::write::{is_overflow, write_parts};
use crate::{file_len, require_capacity, Refusal, Summary};

/// How many numbers a line of the list of corrections has: kind, place, old and new number.
pub const CORRECTION_LEN: usize = 4;

/// A line of the list.
type Line = [u64; CORRECTION_LEN];

/// What a primary byte becomes that is the sentinel and has no entry left.
const LARGEST_INLINE: u8 = 254;

/// What a repair has done.
#[derive(Clone, Copy, Debug, PartialEq, Eq)]
pub struct Repaired {
    /// The summary of the repaired file.
    pub summary: Summary,
    /// How many lines the list of corrections has.
    pub lines: u64,
}

/// Repairs a file of `n` slots and `k` overflow entries: the result goes to the front of `out`, the
/// lines of its corrections to the front of `corrections`. Refusals 3, 4, 5, 12.
pub fn repair(
    file: &[u8],
    n: u64,
    k: u64,
    out: &mut [u8],
    corrections: &mut [u64],
) -> Result<Repaired, Refusal> {
    if n > MAX_SLOTS {
        return Err(Refusal::of_file(3, 0));
    }
    if k > n {
        return Err(Refusal::of_file(4, 0));
    }
    let entries_at = HEADER_LEN + n as usize;
    let index_at = entries_at + OVERFLOW_ENTRY_LEN * k as usize;
    if file.len() < index_at {
        return Err(Refusal::of_file(5, 0));
    }
    let mut primary = file[HEADER_LEN..entries_at].to_vec();
    let (kept, dropped) = keep_entries(&primary, &file[entries_at..index_at]);
    let set = set_bytes(&mut primary, &kept);

    let mut repaired = vec![0; file_len(n, kept.len() as u64) as usize];
    let summary = write_parts(&primary, kept.iter().copied(), &mut repaired)?;
    let index = &repaired[repaired.len() - INDEX_ENTRY_LEN * summary.m as usize..];
    let lines = [
        corrected_fields(&file[..HEADER_LEN], &repaired[..HEADER_LEN]),
        dropped,
        set,
        rebuilt_index(&file[index_at..], index),
    ]
    .concat();

    let numbers = lines.as_flattened();
    require_capacity(repaired.len(), out.len())?;
    require_capacity(numbers.len(), corrections.len())?;
    out[..repaired.len()].copy_from_slice(&repaired);
    corrections[..numbers.len()].copy_from_slice(numbers);
    Ok(Repaired {
        summary,
        lines: lines.len() as u64,
    })
}

/// The entries that are kept, and a line for each that is dropped. An entry is judged beside the last
/// one kept.
fn keep_entries(primary: &[u8], section: &[u8]) -> (Vec<Entry>, Vec<Line>) {
    let mut kept: Vec<Entry> = Vec::new();
    let mut dropped = Vec::new();
    let (entries, _) = section.as_chunks::<OVERFLOW_ENTRY_LEN>();
    for (number, entry) in (0u64..).zip(entries) {
        let (slot, distance) = (overflow_slot(entry), overflow_distance(entry));
        let is_in_range = slot < primary.len() as u64;
        let is_above = kept.last().is_none_or(|last| slot > last.slot);
        if is_in_range && is_above && is_overflow(distance) && primary[slot as usize] == SENTINEL {
            kept.push(Entry { slot, distance });
        } else {
            dropped.push([2, number, slot, 0]);
        }
    }
    (kept, dropped)
}

/// Sets the sentinels without an entry, and gives a line for each. The entries rise.
fn set_bytes(primary: &mut [u8], entries: &[Entry]) -> Vec<Line> {
    let mut set = Vec::new();
    let mut slots = entries.iter().map(|entry| entry.slot).peekable();
    for (slot, byte) in (0u64..).zip(primary) {
        if *byte == SENTINEL && slots.next_if_eq(&slot).is_none() {
            *byte = LARGEST_INLINE;
            set.push([3, slot, u64::from(SENTINEL), u64::from(LARGEST_INLINE)]);
        }
    }
    set
}

/// A line for each field of the header that differs: two of 4 bytes, then four of 8.
fn corrected_fields(old: &[u8], new: &[u8]) -> Vec<Line> {
    let mut lines = Vec::new();
    for at in [0, 4] {
        let [old, new] = [old, new].map(|header| u64::from(le32(&header[at..at + 4])));
        lines.push([1, at as u64, old, new]);
    }
    for at in [8, 16, 24, 32] {
        let [old, new] = [old, new].map(|header| le64(&header[at..at + 8]));
        lines.push([1, at as u64, old, new]);
    }
    lines.retain(|[_, _, old, new]| old != new);
    lines
}

/// A line where the bytes behind the entries are not the index.
fn rebuilt_index(old: &[u8], new: &[u8]) -> Vec<Line> {
    match old == new {
        true => vec![],
        false => vec![[4, 0, old.len() as u64, new.len() as u64]],
    }
}
