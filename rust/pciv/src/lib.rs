//! Reading, writing, combining, editing, repairing and bundling PCIV depth maps with the verified
//! library, over slices, and making them from disparity frames.
//!
//! A PCIV file stores a list of 0 to 1,048,576 distances in centimetres; `docs/FORMAT.md` describes
//! it. It has no width or height; the caller keeps them. Every function but [`repair`] checks each whole
//! file it is given first, and answers a [`Refusal`] where the file breaks a rule. Buffers are unchanged
//! after a refusal, and so is what follows a result in a longer buffer.
//!
//! What measures a caller's slice is a `usize`: how many elements a call has written to it, how many
//! it needs ([`mask_len`], [`file_len`], [`longest_file`], [`most_corrections`],
//! [`bundle_len`](bundle::bundle_len)). What is said of a map or a bundle is a `u64`, as in its file and
//! in C: slots, frames, overflow entries, their number, sums, places, and the fields of the structs with
//! C's layout, which are all but [`Located`], [`Edited`], [`Repaired`] and [`Counts`](bundle::Counts).
//! Distances are `u32`.
//!
//! ```
//! let file = include_bytes!("../../../examples/map-a.pciv");
//! let mut distances = [0; 4];
//! pciv::scan(file, &mut distances)?;
//! assert_eq!(distances, [0, 254, 255, 300]);
//!
//! let mut nearer = [0; 68];
//! let summary = pciv::shift(file, -50, &mut nearer)?;
//! assert_eq!(summary.len, 44);
//! pciv::scan(&nearer[..44], &mut distances)?;
//! assert_eq!(distances, [0, 204, 205, 250]);
//! # Ok::<(), pciv::Refusal>(())
//! ```

#[cfg(not(all(
    target_arch = "x86_64",
    target_pointer_width = "64",
    target_os = "linux"
)))]
compile_error!("pciv is built for x86-64 Linux with 64-bit pointers only");

mod arith;
pub mod bundle;
mod disparity;
mod edit;
mod figures;
mod length;
mod mask;
pub mod raw;
mod read;
mod refusal;
mod repair;
mod write;

pub use arith::{difference, maximum, minimum, shift, signed_difference, sum_maps};
pub use disparity::{map_of_frame, DisparityTable};
pub use edit::{edit, edit_list, EditAnswer, Edited, ANSWER_LEN};
pub use figures::{bray_curtis, jaccard};
pub use length::{file_len, longest_file};
pub use mask::{
    increment_masked, keep_masked, map_of_mask, mask_above, mask_and, mask_at_least, mask_at_most,
    mask_below, mask_len, mask_not, mask_or, mask_xor, near_mask, set_bits,
};
pub use read::{check, lookup, lookup_list, primary, readings, report, scan, sum, Located, Origin};
pub use refusal::{refusal_text, Refusal};
pub use repair::{most_corrections, repair, Correction, Repaired, CORRECTION_LEN};
pub use write::{close, close_entries, write, Entry};

/// What the header of a sound file says, the length of the file, and the sum of its distances.
///
/// The mean distance is `sum / n`; `n` may be 0, and a map without slots has no mean. As an `f64` the
/// sum is exact: it is below 2^52. Zero distances, where nothing was measured, count among the `n`;
/// [`readings`] counts the others.
///
/// ```
/// let summary = pciv::check(include_bytes!("../../../examples/map-a.pciv"))?;
/// assert_eq!((summary.sum, summary.n), (809, 4));
/// assert_eq!(summary.sum.checked_div(summary.n), Some(202));
/// assert_eq!(summary.sum as f64 / summary.n as f64, 202.25);
///
/// let empty = pciv::write(&[], &mut [0; 40])?;
/// assert_eq!(empty.sum.checked_div(empty.n), None);
/// # Ok::<(), pciv::Refusal>(())
/// ```
#[repr(C)]
#[derive(Clone, Copy, Debug, Default, PartialEq, Eq, Hash)]
pub struct Summary {
    /// Number of slots.
    pub n: u64,
    /// Number of overflow entries.
    pub k: u64,
    /// Number of index entries.
    pub m: u64,
    /// Step of the sparse index, 0 without one.
    pub step: u64,
    /// Length of the file in bytes.
    pub len: u64,
    /// Sum of all distances, 0 where `n` is 0.
    pub sum: u64,
}

/// Makes a result of a call in the manner of [`raw`].
fn answer<T: Default>(call: impl FnOnce(&mut T, &mut Refusal) -> u64) -> Result<T, Refusal> {
    let mut value = T::default();
    let mut refusal = Refusal::default();
    match call(&mut value, &mut refusal) {
        0 => Ok(value),
        _ => Err(refusal),
    }
}

/// As [`answer`], for a call that answers how many elements it has written.
fn count(call: impl FnOnce(&mut u64, &mut Refusal) -> u64) -> Result<usize, Refusal> {
    answer(call).map(|count| count as usize)
}
