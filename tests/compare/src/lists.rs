//! Lists of distances to make sound files of.

use crate::rng::Rng;

/// The lists of the worked examples in `docs/FORMAT.md`.
pub const EXAMPLES: [&[u32]; 4] = [
    &[0, 254, 255, 300],
    &[1, 1, 1, u32::MAX],
    &[1, 1, 1, 1],
    &[],
];

/// Distances next to a rule's border.
const CORNERS: [u32; 7] = [0, 1, 254, 255, 256, 300, u32::MAX];

/// Numbers of overflow entries where the step of the sparse index changes.
pub const STEP_BORDERS: [usize; 6] = [2_047, 2_048, 2_049, 4_095, 4_096, 4_097];

/// Sizes next to those in which a program may work block by block.
const BLOCK_BORDERS: [usize; 24] = [
    1, 2, 3, 7, 8, 9, 63, 64, 65, 127, 128, 129, 191, 192, 193, 255, 256, 257, 1_023, 1_024, 1_025,
    2_047, 2_048, 2_049,
];

/// A size up to 2,049, 0 included, often next to a block's border.
pub fn size(rng: &mut Rng) -> usize {
    match rng.below(4) {
        0 => rng.below(700),
        1 => rng.below(20),
        _ => rng.pick(&BLOCK_BORDERS),
    }
}

/// The sum of a list's distances.
pub fn sum(list: &[u32]) -> u64 {
    list.iter().copied().map(u64::from).sum()
}

/// How the chosen slots of a list lie.
#[derive(Clone, Copy, Debug)]
pub enum Spread {
    /// They are the first slots.
    Front,
    /// They are the last slots.
    Back,
    /// They are random.
    Scattered,
}

/// All of them.
pub const SPREADS: [Spread; 3] = [Spread::Front, Spread::Back, Spread::Scattered];

/// A list of `n` distances in one of several mixtures.
pub fn mixed(rng: &mut Rng, n: usize) -> Vec<u32> {
    let distance: fn(&mut Rng) -> u32 = rng.pick(&[
        corner,
        inline,
        overflow,
        mostly_inline,
        |_| 0,
        |_| 255,
        |rng| rng.word() as u32,
    ]);
    (0..n).map(|_| distance(rng)).collect()
}

/// A list of `n` distances of which exactly `k` are in overflow.
pub fn with_overflow(rng: &mut Rng, n: usize, k: usize, spread: Spread) -> Vec<u32> {
    placed(rng, n, k, spread, overflow, inline)
}

/// A list of `n` distances, made by `chosen` at exactly `k` slots and by `other` elsewhere.
pub fn placed(
    rng: &mut Rng,
    n: usize,
    k: usize,
    spread: Spread,
    chosen: impl Fn(&mut Rng) -> u32,
    other: impl Fn(&mut Rng) -> u32,
) -> Vec<u32> {
    let mut left = k;
    (0..n)
        .map(|slot| {
            let is_chosen = match spread {
                Spread::Front => slot < k,
                Spread::Back => slot >= n - k,
                Spread::Scattered => rng.below(n - slot) < left,
            };
            if is_chosen {
                left -= 1;
                chosen(rng)
            } else {
                other(rng)
            }
        })
        .collect()
}

/// A list that tells something beside another one: equal, next to it, with sums and differences at
/// the borders of overflow, or unrelated. Mostly all sums are within the largest distance.
pub fn beside(rng: &mut Rng, list: &[u32]) -> Vec<u32> {
    let mut other = match rng.below(4) {
        0 => list.to_vec(),
        1 => mixed(rng, list.len()),
        _ => list.iter().map(|&x| distance_beside(rng, x)).collect(),
    };
    if rng.below(4) > 0 {
        for (y, x) in other.iter_mut().zip(list) {
            *y = (*y).min(u32::MAX - x);
        }
    }
    other
}

fn distance_beside(rng: &mut Rng, x: u32) -> u32 {
    match rng.below(7) {
        0 => x,
        1 => x.saturating_add(1),
        2 => x.saturating_add(255),
        3 => x.saturating_sub(rng.pick(&[1, 253, 254, 255, 256])),
        4 => rng.pick(&[253, 254, 255, 256u32]).saturating_sub(x),
        5 => u32::MAX - x,
        _ => corner(rng),
    }
}

/// A list with the same primary array: every distance in overflow is another one.
pub fn other_overflow(rng: &mut Rng, list: &[u32]) -> Vec<u32> {
    let another = |rng: &mut Rng, old| match overflow(rng) {
        same if same == old => (old ^ 256) | 255,
        other => other,
    };
    list.iter()
        .map(|&x| if x < 255 { x } else { another(rng, x) })
        .collect()
}

/// Distances which, shifted, are next to 0, 255 or the largest distance; some lists have one above
/// that.
pub fn about_shift(rng: &mut Rng, n: usize, by: i32) -> Vec<u32> {
    let largest = i64::from(u32::MAX);
    let above = rng.below(3) == 0;
    let shifted = [
        -1,
        0,
        1,
        253,
        254,
        255,
        256,
        largest - 1,
        largest,
        largest + 1,
    ];
    let distances: Vec<u32> = shifted
        .into_iter()
        .filter(|&result| above || result <= largest)
        .filter_map(|result| u32::try_from(result - i64::from(by)).ok())
        .collect();
    (0..n)
        .map(|_| match rng.below(3) {
            0 => inline(rng),
            _ => rng.pick(&distances),
        })
        .collect()
}

/// Zero distances, which a shift keeps, among distances which, shifted, are at 0, 1, the border of
/// overflow or the largest distance; some lists have one above that.
pub fn zeros_beside_shifted(rng: &mut Rng, n: usize, by: i32) -> Vec<u32> {
    let largest = i64::from(u32::MAX);
    let above = rng.below(3) == 0;
    let shifted = [0, 1, 254, 255, 256, largest, largest + 1];
    let mut distances: Vec<u32> = shifted
        .into_iter()
        .filter(|&result| above || result <= largest)
        .filter_map(|result| u32::try_from(result - i64::from(by)).ok())
        .collect();
    distances.push(1);
    (0..n)
        .map(|_| match rng.below(2) {
            0 => 0,
            _ => rng.pick(&distances),
        })
        .collect()
}

/// Distances of which exactly `k`, shifted, are in overflow, and `others` that are not: about half of
/// these are zero distances, or all where no others can be.
pub fn shifted_to(rng: &mut Rng, by: i32, k: usize, others: usize, spread: Spread) -> Vec<u32> {
    /// The results differ from the border of overflow by less than this.
    const REACH: usize = 600;
    let border = 255 - i64::from(by);
    let overflow = |rng: &mut Rng| (border.max(1) as usize + rng.below(REACH)) as u32;
    let inline = |rng: &mut Rng| match rng.below(2) {
        0 => 0,
        _ => (border - 1 - rng.below(REACH) as i64).max(0) as u32,
    };
    placed(rng, k + others, k, spread, overflow, inline)
}

/// A list of `n` distances of 0 and 1: both, or one of them but for a slot, or at every slot.
pub fn zeros_and_ones(rng: &mut Rng, n: usize) -> Vec<u32> {
    zeros_and(rng, n, |_| 1)
}

/// A list of `n` zero distances and others, made by `other`: of each kind some, one, or none.
pub fn zeros_and(rng: &mut Rng, n: usize, other: impl Fn(&mut Rng) -> u32) -> Vec<u32> {
    let k = match rng.below(6) {
        0 => 0,
        1 => n,
        2 => n.min(1),
        3 => n.saturating_sub(1),
        _ => rng.below(n + 1),
    };
    placed(rng, n, k, Spread::Scattered, other, |_| 0)
}

fn corner(rng: &mut Rng) -> u32 {
    rng.pick(&CORNERS)
}

/// A distance below 255.
pub fn inline(rng: &mut Rng) -> u32 {
    (rng.word() % 255) as u32
}

/// A distance of 255 or more, often at a border.
pub fn overflow(rng: &mut Rng) -> u32 {
    match rng.below(4) {
        0 => corner(rng).max(255),
        1 => 255 + inline(rng),
        _ => (rng.word() as u32).max(255),
    }
}

fn mostly_inline(rng: &mut Rng) -> u32 {
    match rng.below(50) {
        0 => overflow(rng),
        _ => inline(rng),
    }
}

#[cfg(test)]
mod tests {
    use super::*;

    #[test]
    fn zero_distances_do_not_count_among_the_shifted_in_overflow() {
        for by in [i32::MIN, -300, -1, 0, 1, 254, 255, 300, i32::MAX] {
            for spread in SPREADS {
                let list = shifted_to(&mut Rng::new(7), by, 2_048, 100, spread);
                let results = list.iter().filter(|&&x| x > 0);
                let results = results.map(|&x| i64::from(x) + i64::from(by));
                assert_eq!(results.filter(|&result| result >= 255).count(), 2_048);
                assert!(list.contains(&0));
                assert_eq!(list.len(), 2_148);
            }
        }
    }
}
