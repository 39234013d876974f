//! Independent implementation of the PCIV format, written from `docs/FORMAT.md` alone.
//!
//! It shares no code with the verified library. The comparison holds the library to its answers,
//! and the bench takes it as the straightforward program to measure against.
//!
//! A file stores a list of distances: one byte for each slot in the *primary array*, the distance
//! itself below 255 and the sentinel 255 otherwise; an *overflow entry* (slot, distance) for each
//! sentinel; and a *sparse index* over the overflow entries when there are many.

mod arith;
pub mod bundle;
mod disparity;
mod edit;
mod entries;
pub mod examples;
mod figures;
mod layout;
mod map;
mod mask;
mod repair;
mod report;
pub mod vectors;
mod write;

pub use arith::{difference, maximum, minimum, shift, signed_difference, sum_maps};
pub use disparity::{fill_table, map_of_frame, DISPARITIES};
pub use edit::{edit, edit_list, Edited, PlainEditor, ANSWER_LEN};
pub use entries::Entry;
pub use figures::{bray_curtis, bray_curtis_parts, jaccard, jaccard_parts, nearest_quotient};
pub use layout::{file_len, index_len, index_step, HEADER_LEN, MAX_SLOTS, SENTINEL};
pub use map::{
    check, decode, lookup, lookup_list, lookup_numbered, primary, readings, readings_of_primary,
    scan, sum, Located, Map, Origin,
};
pub use mask::{
    increment_masked, keep_masked, map_of_mask, mask_and, mask_len, mask_not, mask_or, mask_xor,
    near_mask, set_bits, threshold, Comparison,
};
pub use repair::{repair, Repaired, CORRECTION_LEN};
pub use report::{report, report_text, MAX_INPUT};
pub use write::{close, close_entries, encode, write};

/// What a sound file's header says, the file's length, and the sum of its list.
#[derive(Clone, Copy, Debug, PartialEq, Eq)]
pub struct Summary {
    /// Number of slots.
    pub n: u64,
    /// Number of overflow entries.
    pub k: u64,
    /// Number of index entries.
    pub m: u64,
    /// Step of the sparse index, 0 without one.
    pub step: u64,
    /// Length of the file in bytes.
    pub len: u64,
    /// Sum of all distances.
    pub sum: u64,
}

impl Summary {
    /// The summary of a file with `n` slots and `k` overflow entries, `k <= n <= MAX_SLOTS`, whose
    /// list has this sum.
    fn of(n: u64, k: u64, sum: u64) -> Summary {
        Summary {
            n,
            k,
            m: index_len(k),
            step: index_step(k),
            len: file_len(n, k),
            sum,
        }
    }
}

/// Why a call was refused: the rule's number, the map at fault and the place.
#[derive(Clone, Copy, Debug, PartialEq, Eq)]
pub struct Refusal {
    /// Number of the rule, 1 to 14, or 19.
    pub number: u64,
    /// The file at fault, counted from 1; 0 for a fault of the call.
    pub map: u64,
    /// The place that the rule names, 0 where it names none.
    pub place: u64,
}

impl Refusal {
    /// A refusal of the first file, or of the parts that a file is made of.
    fn of_file(number: u64, place: u64) -> Refusal {
        Refusal {
            number,
            map: 1,
            place,
        }
    }

    /// A refusal of the call.
    fn of_call(number: u64, place: u64) -> Refusal {
        Refusal {
            number,
            map: 0,
            place,
        }
    }
}

/// Fails with refusal 3 for more than 1,048,576 slots.
fn require_few_slots(n: usize) -> Result<(), Refusal> {
    if n as u64 > MAX_SLOTS {
        return Err(Refusal::of_file(3, 0));
    }
    Ok(())
}

/// Fails with refusal 12 unless a result of `len` elements fits into `capacity`.
fn require_capacity(len: usize, capacity: usize) -> Result<(), Refusal> {
    if capacity < len {
        return Err(Refusal::of_call(12, 0));
    }
    Ok(())
}
