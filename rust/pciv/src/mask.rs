//! Masks: the slots of a map with a property, as words of 64 bits. Slot i is bit i % 64 of word
//! i / 64, the lowest bit first; bits past the map's slots are 0.

use crate::{answer, count, raw, Refusal, Summary};

/// How many words a mask of `n` slots has.
///
/// ```
/// assert_eq!([0, 64, 65].map(pciv::mask_len), [0, 1, 2]);
/// ```
pub const fn mask_len(n: u64) -> usize {
    n.div_ceil(64) as usize
}

/// The mask of the slots whose distance is below `t`, to the front of `out`. Answers how many words
/// it has. Refusals 1 to 8, then 12.
///
/// ```
/// let file = include_bytes!("../../../examples/map-a.pciv");
/// let mut mask = [0];
/// pciv::mask_below(file, 255, &mut mask)?;
/// assert_eq!(mask, [0b0011]);
/// # Ok::<(), pciv::Refusal>(())
/// ```
pub fn mask_below(file: &[u8], t: u32, out: &mut [u64]) -> Result<usize, Refusal> {
    count(|count, refusal| raw::mask_below(file, t, out, count, refusal))
}

/// The mask of the slots whose distance is at most `t`, as [`mask_below`].
///
/// ```
/// let file = include_bytes!("../../../examples/map-a.pciv");
/// let mut mask = [0];
/// pciv::mask_at_most(file, 254, &mut mask)?;
/// assert_eq!(mask, [3]);
/// # Ok::<(), pciv::Refusal>(())
/// ```
pub fn mask_at_most(file: &[u8], t: u32, out: &mut [u64]) -> Result<usize, Refusal> {
    count(|count, refusal| raw::mask_at_most(file, t, out, count, refusal))
}

/// The mask of the slots whose distance is above `t`, as [`mask_below`].
///
/// ```
/// let file = include_bytes!("../../../examples/map-a.pciv");
/// let mut mask = [0];
/// pciv::mask_above(file, 255, &mut mask)?;
/// assert_eq!(mask, [0b1000]);
/// # Ok::<(), pciv::Refusal>(())
/// ```
pub fn mask_above(file: &[u8], t: u32, out: &mut [u64]) -> Result<usize, Refusal> {
    count(|count, refusal| raw::mask_above(file, t, out, count, refusal))
}

/// The mask of the slots whose distance is at least `t`, as [`mask_below`].
///
/// ```
/// let file = include_bytes!("../../../examples/map-a.pciv");
/// let mut mask = [0];
/// pciv::mask_at_least(file, 255, &mut mask)?;
/// assert_eq!(mask, [12]);
/// assert_eq!(pciv::set_bits(4, &mask)?, 2);
/// # Ok::<(), pciv::Refusal>(())
/// ```
pub fn mask_at_least(file: &[u8], t: u32, out: &mut [u64]) -> Result<usize, Refusal> {
    count(|count, refusal| raw::mask_at_least(file, t, out, count, refusal))
}

/// The near mask at `t`: the slots whose distance is from 1 to `t`, none for `t` = 0, as
/// [`mask_below`]. It is [`mask_at_most`] without the zero distances, where nothing was measured.
///
/// ```
/// let file = include_bytes!("../../../examples/map-a.pciv");
/// let mut mask = [0, 7];
/// assert_eq!(pciv::near_mask(file, 254, &mut mask)?, 1);
/// assert_eq!(mask, [0b0010, 7]);
/// # Ok::<(), pciv::Refusal>(())
/// ```
pub fn near_mask(file: &[u8], t: u32, out: &mut [u64]) -> Result<usize, Refusal> {
    count(|count, refusal| raw::near_mask(file, t, out, count, refusal))
}

/// The slots in both of two masks of `n` slots, to the front of `out`. Answers how many words the
/// result has. Refusals 3 with map 1 where `n` is above 1,048,576, 13 where `a` or `b` is no mask of
/// `n` slots, then 12.
///
/// ```
/// let mut out = [0];
/// pciv::mask_and(4, &[0b0011], &[0b0110], &mut out)?;
/// assert_eq!(out, [0b0010]);
///
/// let refusal = pciv::mask_and(4, &[0b10000], &[0b0110], &mut out).unwrap_err();
/// assert_eq!(refusal.number, pciv::Refusal::BAD_MASK);
/// # Ok::<(), pciv::Refusal>(())
/// ```
pub fn mask_and(n: u64, a: &[u64], b: &[u64], out: &mut [u64]) -> Result<usize, Refusal> {
    count(|count, refusal| raw::mask_and(n, a, b, out, count, refusal))
}

/// The slots in at least one of two masks, as [`mask_and`].
///
/// ```
/// let mut out = [0];
/// pciv::mask_or(4, &[0b0011], &[0b0110], &mut out)?;
/// assert_eq!(out, [0b0111]);
/// # Ok::<(), pciv::Refusal>(())
/// ```
pub fn mask_or(n: u64, a: &[u64], b: &[u64], out: &mut [u64]) -> Result<usize, Refusal> {
    count(|count, refusal| raw::mask_or(n, a, b, out, count, refusal))
}

/// The slots in exactly one of two masks, as [`mask_and`].
///
/// ```
/// let mut out = [0];
/// pciv::mask_xor(4, &[0b0011], &[0b0110], &mut out)?;
/// assert_eq!(out, [0b0101]);
/// # Ok::<(), pciv::Refusal>(())
/// ```
pub fn mask_xor(n: u64, a: &[u64], b: &[u64], out: &mut [u64]) -> Result<usize, Refusal> {
    count(|count, refusal| raw::mask_xor(n, a, b, out, count, refusal))
}

/// The slots that are not in a mask of `n` slots; bits past `n` stay 0. As [`mask_and`].
///
/// ```
/// let mut out = [0];
/// pciv::mask_not(4, &[0b0011], &mut out)?;
/// assert_eq!(out, [0b1100]);
/// # Ok::<(), pciv::Refusal>(())
/// ```
pub fn mask_not(n: u64, mask: &[u64], out: &mut [u64]) -> Result<usize, Refusal> {
    count(|count, refusal| raw::mask_not(n, mask, out, count, refusal))
}

/// The number of set bits of a mask of `n` slots. Refusals 3 with map 1 where `n` is above
/// 1,048,576, then 13.
///
/// ```
/// assert_eq!(pciv::set_bits(65, &[u64::MAX, 1])?, 65);
/// let refusal = pciv::set_bits(64, &[u64::MAX, 1]).unwrap_err();
/// assert_eq!(refusal.number, pciv::Refusal::BAD_MASK);
/// # Ok::<(), pciv::Refusal>(())
/// ```
pub fn set_bits(n: u64, mask: &[u64]) -> Result<u64, Refusal> {
    answer(|count, refusal| raw::set_bits(n, mask, count, refusal))
}

/// A mask of `n` slots as a map: distance 1 where the mask is 1, else 0, as a file to the front of
/// `out`. Answers its summary. Refusals 3 with map 1 where `n` is above 1,048,576, 13, then 12.
///
/// ```
/// let mut out = [0; 44];
/// pciv::map_of_mask(4, &[0b1100], &mut out)?;
/// assert_eq!(pciv::primary(&out), [0, 0, 1, 1]);
/// # Ok::<(), pciv::Refusal>(())
/// ```
pub fn map_of_mask(n: u64, mask: &[u64], out: &mut [u8]) -> Result<Summary, Refusal> {
    answer(|summary, refusal| raw::map_of_mask(n, mask, out, summary, refusal))
}

/// The map's distances where the mask is 1, and 0 elsewhere, as a file to the front of `out`.
/// Answers its summary. Refusals 1 to 8, then 13 where `mask` is no mask of the map's slots, then
/// 12.
///
/// ```
/// let file = include_bytes!("../../../examples/map-a.pciv");
/// let mut out = [0; 56];
/// pciv::keep_masked(file, &[0b1010], &mut out)?;
/// let mut distances = [0; 4];
/// pciv::scan(&out, &mut distances)?;
/// assert_eq!(distances, [0, 254, 0, 300]);
/// # Ok::<(), pciv::Refusal>(())
/// ```
pub fn keep_masked(file: &[u8], mask: &[u64], out: &mut [u8]) -> Result<Summary, Refusal> {
    answer(|summary, refusal| raw::keep_masked(file, mask, out, summary, refusal))
}

/// The map's distances, one more where the mask is 1, as a file to the front of `out`. Answers its
/// summary. Refusals 1 to 8, then 13 where `mask` is no mask of the map's slots, then 11 with the
/// least slot whose distance would be above 4,294,967,295 as place, then 12.
///
/// ```
/// let file = include_bytes!("../../../examples/map-a.pciv");
/// let mut out = [0; 80];
/// pciv::increment_masked(file, &[0b0110], &mut out)?;
/// let mut distances = [0; 4];
/// pciv::scan(&out, &mut distances)?;
/// assert_eq!(distances, [0, 255, 256, 300]);
/// # Ok::<(), pciv::Refusal>(())
/// ```
pub fn increment_masked(file: &[u8], mask: &[u64], out: &mut [u8]) -> Result<Summary, Refusal> {
    answer(|summary, refusal| raw::increment_masked(file, mask, out, summary, refusal))
}
