//! Masks: a bit for each slot, in words of 64 bits, the lowest bit first. Masks of a map, masks of
//! masks, and files from masks.

use crate::write::write_distances;
use crate::{require_capacity, require_few_slots, Map, Refusal, Summary};

/// How a distance is compared with a threshold.
#[derive(Clone, Copy, Debug, PartialEq, Eq)]
pub enum Comparison {
    /// Below the threshold.
    Below,
    /// At most the threshold.
    AtMost,
    /// Above the threshold.
    Above,
    /// At least the threshold.
    AtLeast,
}

impl Comparison {
    fn holds(self, distance: u32, threshold: u32) -> bool {
        match self {
            Comparison::Below => distance < threshold,
            Comparison::AtMost => distance <= threshold,
            Comparison::Above => distance > threshold,
            Comparison::AtLeast => distance >= threshold,
        }
    }
}

/// How many words a mask of `n` slots has.
pub fn mask_len(n: usize) -> usize {
    n.div_ceil(WORD_BITS)
}

const WORD_BITS: usize = 64;

/// The mask of the slots whose distance compares with `threshold`, to the front of `out`. Refusals
/// 1 to 8, then 12. Answers how many words it has.
pub fn threshold(
    file: &[u8],
    comparison: Comparison,
    threshold: u32,
    out: &mut [u64],
) -> Result<u64, Refusal> {
    select(file, |distance| comparison.holds(distance, threshold), out)
}

/// The mask of the slots whose distance is from 1 to `threshold`, as [`threshold`](fn@threshold).
pub fn near_mask(file: &[u8], threshold: u32, out: &mut [u64]) -> Result<u64, Refusal> {
    let near = 1..=threshold;
    select(file, |distance| near.contains(&distance), out)
}

fn select(file: &[u8], test: impl Fn(u32) -> bool, out: &mut [u64]) -> Result<u64, Refusal> {
    let map = Map::open(file)?;
    let len = mask_len(map.primary().len());
    require_capacity(len, out.len())?;
    out[..len].fill(0);
    for (slot, distance) in map.distances().enumerate() {
        out[slot / WORD_BITS] |= u64::from(test(distance)) << (slot % WORD_BITS);
    }
    Ok(len as u64)
}

/// The slots in both masks, to the front of `out`. Refusals 3, 13, 12. Answers how many words the
/// result has.
pub fn mask_and(n: usize, a: &[u64], b: &[u64], out: &mut [u64]) -> Result<u64, Refusal> {
    combine(n, a, b, out, |x, y| x & y)
}

/// The slots in either mask, as [`mask_and`].
pub fn mask_or(n: usize, a: &[u64], b: &[u64], out: &mut [u64]) -> Result<u64, Refusal> {
    combine(n, a, b, out, |x, y| x | y)
}

/// The slots in exactly one mask, as [`mask_and`].
pub fn mask_xor(n: usize, a: &[u64], b: &[u64], out: &mut [u64]) -> Result<u64, Refusal> {
    combine(n, a, b, out, |x, y| x ^ y)
}

fn combine(
    n: usize,
    a: &[u64],
    b: &[u64],
    out: &mut [u64],
    operation: impl Fn(u64, u64) -> u64,
) -> Result<u64, Refusal> {
    require_few_slots(n)?;
    require_mask(n, a)?;
    require_mask(n, b)?;
    require_capacity(a.len(), out.len())?;
    for (out, (&x, &y)) in out.iter_mut().zip(a.iter().zip(b)) {
        *out = operation(x, y);
    }
    Ok(a.len() as u64)
}

/// The slots that are not in a mask, as [`mask_and`].
pub fn mask_not(n: usize, mask: &[u64], out: &mut [u64]) -> Result<u64, Refusal> {
    require_few_slots(n)?;
    require_mask(n, mask)?;
    require_capacity(mask.len(), out.len())?;
    for (out, &word) in out.iter_mut().zip(mask) {
        *out = !word;
    }
    if n % WORD_BITS > 0 {
        out[n / WORD_BITS] &= below(n % WORD_BITS);
    }
    Ok(mask.len() as u64)
}

/// The number of set bits. Refusals 3, 13.
pub fn set_bits(n: usize, mask: &[u64]) -> Result<u64, Refusal> {
    require_few_slots(n)?;
    require_mask(n, mask)?;
    Ok(mask.iter().map(|word| u64::from(word.count_ones())).sum())
}

/// The map with 1 where the mask is 1 and 0 elsewhere, as a file to the front of `out`. Refusals 3,
/// 13, 12. Answers the summary of the result.
pub fn map_of_mask(n: usize, mask: &[u64], out: &mut [u8]) -> Result<Summary, Refusal> {
    require_few_slots(n)?;
    require_mask(n, mask)?;
    write_distances((0..n).map(|slot| Some(u32::from(is_set(mask, slot)))), out)
}

/// Each distance where the mask is 1 and 0 elsewhere, as a file to the front of `out`. Refusals 1
/// to 8, 13, 12. Answers the summary of the result.
pub fn keep_masked(file: &[u8], mask: &[u64], out: &mut [u8]) -> Result<Summary, Refusal> {
    masked(file, mask, out, |distance, bit| {
        Some(if bit { distance } else { 0 })
    })
}

/// Each distance, plus 1 where the mask is 1, as a file to the front of `out`. Refusals 1 to 8, 13,
/// 11, 12. Answers the summary of the result.
pub fn increment_masked(file: &[u8], mask: &[u64], out: &mut [u8]) -> Result<Summary, Refusal> {
    masked(file, mask, out, |distance, bit| {
        distance.checked_add(u32::from(bit))
    })
}

fn masked(
    file: &[u8],
    mask: &[u64],
    out: &mut [u8],
    operation: impl Fn(u32, bool) -> Option<u32>,
) -> Result<Summary, Refusal> {
    let map = Map::open(file)?;
    require_mask(map.primary().len(), mask)?;
    let slots = map.distances().enumerate();
    write_distances(
        slots.map(|(slot, distance)| operation(distance, is_set(mask, slot))),
        out,
    )
}

/// Refusal 13: a mask has as many words as its slots need, and no bit set past them.
fn require_mask(n: usize, mask: &[u64]) -> Result<(), Refusal> {
    let used = n % WORD_BITS;
    let is_clear = |last: &u64| used == 0 || last >> used == 0;
    if mask.len() == mask_len(n) && mask.last().is_none_or(is_clear) {
        Ok(())
    } else {
        Err(Refusal::of_call(13, 0))
    }
}

/// Whether a slot is in a mask.
fn is_set(mask: &[u64], slot: usize) -> bool {
    mask[slot / WORD_BITS] >> (slot % WORD_BITS) & 1 == 1
}

/// The lowest `count` bits, fewer than 64.
fn below(count: usize) -> u64 {
    (1 << count) - 1
}

#[cfg(test)]
mod tests {
    use super::*;

    #[test]
    fn words_that_n_slots_need() {
        assert_eq!([0, 1, 63, 64, 65].map(mask_len), [0, 1, 1, 1, 2]);
    }

    #[test]
    fn the_lowest_bit_comes_first() {
        let mask = [0b1011, 1 << 63];
        let set: Vec<usize> = (0..128).filter(|&slot| is_set(&mask, slot)).collect();
        assert_eq!(set, [0, 1, 3, 127]);
    }

    #[test]
    fn zero_distances_are_in_the_mask_for_at_most_and_not_near() {
        let file = crate::encode(&[0, 1, 254, 255, 256, u32::MAX]).unwrap();
        let word = |call: &dyn Fn(&mut [u64]) -> Result<u64, Refusal>| {
            let mut out = [7];
            assert_eq!(call(&mut out), Ok(1));
            out[0]
        };
        let cases = [
            (0, 0b000000),
            (1, 0b000010),
            (253, 0b000010),
            (254, 0b000110),
            (255, 0b001110),
            (256, 0b011110),
            (u32::MAX, 0b111110),
        ];
        for (t, near) in cases {
            assert_eq!(word(&|out| near_mask(&file, t, out)), near);
            let at_most = word(&|out| threshold(&file, Comparison::AtMost, t, out));
            assert_eq!(at_most, near | 1);
        }
    }

    #[test]
    fn bits_past_n_are_no_mask() {
        for n in 1..130 {
            let mut mask = vec![0; mask_len(n)];
            mask[(n - 1) / 64] |= 1 << ((n - 1) % 64);
            assert_eq!(set_bits(n, &mask), Ok(1));
            if n % 64 > 0 {
                mask[n / 64] |= 1 << (n % 64);
                assert_eq!(set_bits(n, &mask), Err(Refusal::of_call(13, 0)));
            }
        }
    }
}
