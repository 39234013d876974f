//! The maps and masks that the calls of one table are about.

use crate::table::thousands;
use compare::lists;
use compare::rng::Rng;
use std::array;

/// Edits of a list of edits.
pub const LIST_LEN: usize = 1_000;
/// Slots of a list of lookups: more than a processor keeps in mind from one call to the next.
pub const ASKED_LEN: usize = 16_000;
/// Neighbouring slots that are in overflow together where they are clustered.
const RUN: usize = 256;

/// A sparse mask has one slot of this many set.
const SET_OF: usize = 100;

/// Frames of a bundle.
pub const FRAMES: usize = 8;

/// A spoiled file has one overflow entry of this many spoiled.
const SPOILED_OF: usize = 100;

/// Kinds of masks.
pub const HALF_SET: &str = "half set";
pub const SPARSE: &str = "1 % scattered";
pub const BRUSH: &str = "1 % in a disc";

/// How the slots in overflow lie.
#[derive(Clone, Copy, PartialEq, Eq)]
pub enum Spread {
    /// At random.
    Scattered,
    /// In runs of neighbours, as in a part of a picture.
    Clustered,
}

/// A size of maps.
#[derive(Clone, Copy, PartialEq, Eq)]
pub struct Size {
    pub width: usize,
    pub height: usize,
}

impl Size {
    pub fn slots(self) -> usize {
        self.width * self.height
    }

    pub fn named(self) -> String {
        format!("{} by {}", thousands(self.width), thousands(self.height))
    }
}

/// A map and what it is made of.
pub struct Map {
    pub list: Vec<u32>,
    pub file: Vec<u8>,
    /// Slots and distances of the overflow entries.
    pub slots: Vec<u64>,
    pub distances: Vec<u32>,
}

impl Map {
    /// A map with `k` slots in overflow and inline distances below `inline`.
    fn new(rng: &mut Rng, n: usize, k: usize, spread: Spread, inline: usize) -> Map {
        let overflow = |rng: &mut Rng| 255 + rng.below(60_000) as u32;
        let inline = |rng: &mut Rng| rng.below(inline) as u32;
        let list = match spread {
            Spread::Scattered => {
                lists::placed(rng, n, k, lists::Spread::Scattered, overflow, inline)
            }
            Spread::Clustered => clustered(rng, n, k, overflow, inline),
        };
        let placed = (0u64..).zip(list.iter().copied());
        let (slots, distances) = placed.filter(|&(_, distance)| distance >= 255).unzip();
        Map {
            file: reference::encode(&list).expect("few slots"),
            list,
            slots,
            distances,
        }
    }

    pub fn primary(&self) -> &[u8] {
        reference::primary(&self.file)
    }

    pub fn entries<E>(&self, entry: impl Fn(u64, u32) -> E) -> Vec<E> {
        let pairs = self.slots.iter().zip(&self.distances);
        pairs
            .map(|(&slot, &distance)| entry(slot, distance))
            .collect()
    }
}

/// The maps of one table.
pub struct Scene {
    pub size: Size,
    /// Slots in overflow, in thousandths.
    pub share: usize,
    pub spread: Spread,
    pub a: Map,
    /// Like the first one: half of the sums become overflow.
    pub b: Map,
    /// With small inline distances: few sums become overflow.
    pub small: Map,
    /// Like the first two: with them, the frames of a bundle.
    others: Vec<Map>,
    /// Slots of the first map in overflow.
    pub asked: Vec<u64>,
    /// Masks with half of their bits set.
    pub mask: Vec<u64>,
    pub other_mask: Vec<u64>,
    /// A mask with a bit of a hundred set, at random.
    pub sparse_mask: Vec<u64>,
    /// A mask with a bit of a hundred set: a disc in the middle, as a brush makes.
    pub brush_mask: Vec<u64>,
}

impl Scene {
    pub fn new(size: Size, share: usize, spread: Spread) -> Scene {
        let n = size.slots();
        let k = n * share / 1_000;
        let mut rng = Rng::new((n + k) as u64);
        let a = Map::new(&mut rng, n, k, spread, 255);
        Scene {
            size,
            share,
            spread,
            b: Map::new(&mut rng, n, k, spread, 255),
            small: Map::new(&mut rng, n, k, spread, 3),
            asked: (0..ASKED_LEN).map(|_| rng.pick(&a.slots)).collect(),
            mask: random_mask(&mut rng, n),
            other_mask: random_mask(&mut rng, n),
            sparse_mask: sparse_mask(&mut rng, n),
            others: (2..FRAMES)
                .map(|_| Map::new(&mut rng, n, k, spread, 255))
                .collect(),
            brush_mask: brush_mask(size),
            a,
        }
    }

    /// The masks of each kind, with what the names of calls say of them.
    pub fn masks(&self) -> [(&'static str, &[u64]); 3] {
        [
            (HALF_SET, &self.mask),
            (SPARSE, &self.sparse_mask),
            (BRUSH, &self.brush_mask),
        ]
    }

    /// The first slot from the middle on that is stored inline.
    pub fn inline_slot(&self) -> u64 {
        let middle = self.a.list.len() / 2;
        let inline = self.a.list[middle..].iter().position(|&d| d < 255);
        (middle + inline.expect("an inline slot")) as u64
    }

    /// The middle one of the slots in overflow.
    pub fn overflow_slot(&self) -> u64 {
        self.a.slots[self.a.slots.len() / 2]
    }

    /// The frames of a bundle.
    pub fn frames(&self) -> [&Map; FRAMES] {
        let first = [&self.a, &self.b];
        let mut frames = first.into_iter().chain(&self.others);
        array::from_fn(|_| frames.next().expect("eight frames"))
    }

    /// The bundle of them.
    pub fn bundle(&self) -> Vec<u8> {
        let files = self.frames().map(|map| &map.file[..]);
        let mut bundle = vec![0; pciv::bundle::bundle_len(&files)];
        let len = reference::bundle::write(&files, FRAMES as u64, &mut bundle);
        assert_eq!(len, Ok(bundle.len() as u64));
        bundle
    }

    /// The first map's file with one overflow entry of a hundred spoiled: its distance is 0.
    pub fn spoiled(&self) -> Vec<u8> {
        let mut file = self.a.file.clone();
        let entries = reference::HEADER_LEN + self.a.list.len();
        for entry in (0..self.a.slots.len()).step_by(SPOILED_OF) {
            let distance = entries + 12 * entry + 8;
            file[distance..distance + 4].fill(0);
        }
        file
    }

    /// The first map's file, with space for a longer one behind it.
    pub fn edit_buffer(&self) -> Vec<u8> {
        let mut buffer = self.a.file.clone();
        buffer.resize(buffer.len() + 40_000, 0);
        buffer
    }
}

/// A mask of `n` slots, a multiple of 64, with half of its bits set.
fn random_mask(rng: &mut Rng, n: usize) -> Vec<u64> {
    (0..n / 64).map(|_| rng.word()).collect()
}

/// A mask of `n` slots, a multiple of 64, with a bit of a hundred set, at random.
fn sparse_mask(rng: &mut Rng, n: usize) -> Vec<u64> {
    let (one, zero) = (|_: &mut Rng| 1, |_: &mut Rng| 0);
    let scattered = lists::Spread::Scattered;
    packed(lists::placed(rng, n, n / SET_OF, scattered, one, zero))
}

/// A mask with about a bit of a hundred set: a disc in the middle.
fn brush_mask(size: Size) -> Vec<u64> {
    let square = size.slots() as f64 / SET_OF as f64 / std::f64::consts::PI;
    let apart = |place: usize, whole: usize| place as f64 + 0.5 - whole as f64 / 2.0;
    let is_set = |slot: usize| {
        let x = apart(slot % size.width, size.width);
        let y = apart(slot / size.width, size.height);
        u32::from(x * x + y * y < square)
    };
    packed((0..size.slots()).map(is_set).collect())
}

/// The words of bits, a multiple of 64.
fn packed(bits: Vec<u32>) -> Vec<u64> {
    let word = |bits: &[u32; 64]| {
        let bits = bits.iter().rev();
        bits.fold(0, |word, &bit| word << 1 | u64::from(bit))
    };
    bits.as_chunks().0.iter().map(word).collect()
}

/// A list of `n` distances, made by `overflow` at exactly `k` slots in runs, and by `inline`
/// elsewhere.
fn clustered(
    rng: &mut Rng,
    n: usize,
    k: usize,
    overflow: impl Fn(&mut Rng) -> u32,
    inline: impl Fn(&mut Rng) -> u32,
) -> Vec<u32> {
    let runs = k.div_ceil(RUN);
    let chosen = |_: &mut Rng| 1;
    let other = |_: &mut Rng| 0;
    let scattered = lists::Spread::Scattered;
    let is_run = lists::placed(rng, n / RUN, runs, scattered, chosen, other);
    let mut left = k;
    let mut list = Vec::with_capacity(n);
    for slot in 0..n {
        let is_overflow = left > 0 && is_run.get(slot / RUN) == Some(&1);
        left -= usize::from(is_overflow);
        list.push(if is_overflow {
            overflow(rng)
        } else {
            inline(rng)
        });
    }
    list
}

#[cfg(test)]
mod tests {
    use super::*;
    use crate::flat::set_bits;

    #[test]
    fn sparse_masks_have_a_slot_of_a_hundred_set() {
        let size = Size {
            width: 160,
            height: 120,
        };
        let sparse = sparse_mask(&mut Rng::new(1), size.slots());
        assert_eq!(set_bits(&sparse), 192);
        let words = sparse.iter().filter(|&&word| word != 0).count();
        assert!(words > 100, "{words}");
        let brush = brush_mask(size);
        assert!((180..=204).contains(&set_bits(&brush)));
        let words = brush.iter().filter(|&&word| word != 0).count();
        assert!(words < 40, "{words}");
    }

    #[test]
    fn spoiled_files_lose_an_entry_of_a_hundred() {
        let size = Size {
            width: 160,
            height: 120,
        };
        for (share, k, lost) in [(1, 19, 1), (10, 192, 2), (100, 1_920, 20)] {
            let file = Scene::new(size, share, Spread::Scattered).spoiled();
            let (mut out, mut corrections) = (vec![0; file.len()], vec![0; 4 * 100]);
            let repaired = reference::repair(&file, 19_200, k, &mut out, &mut corrections).unwrap();
            assert_eq!(repaired.summary.k, k - lost);
            // the number of entries in the header, and for each entry lost its own line and its slot's
            assert_eq!(repaired.lines, 1 + 2 * lost);
        }
    }

    #[test]
    fn clustered_maps_have_as_many_slots_in_overflow() {
        for (n, k) in [(19_200, 19), (19_200, 1_920), (786_432, 7_864)] {
            let map = Map::new(&mut Rng::new(n as u64), n, k, Spread::Clustered, 255);
            assert_eq!(map.slots.len(), k);
            let neighbours = map.slots.windows(2).filter(|pair| pair[0] + 1 == pair[1]);
            assert!(neighbours.count() >= k - k.div_ceil(RUN));
        }
    }
}
