//! Faults to put into a sound file.

use compare::rng::Rng;
use reference::Summary;

const MAGIC_LEN: usize = 8;
const OVERFLOW_ENTRY_LEN: usize = 12;
const INDEX_ENTRY_LEN: usize = 16;

/// A change of a file.
#[derive(Clone, Debug)]
pub enum Damage {
    /// These bytes stand at this offset.
    Write(usize, Vec<u8>),
    /// The file ends at this length.
    Truncate(usize),
    /// The file is longer by these bytes.
    Extend(Vec<u8>),
}

impl Damage {
    fn write64(at: usize, value: u64) -> Damage {
        Damage::Write(at, value.to_le_bytes().into())
    }

    fn write32(at: usize, value: u32) -> Damage {
        Damage::Write(at, value.to_le_bytes().into())
    }

    /// Applies to the file what of it lies within.
    pub fn apply(&self, file: &mut Vec<u8>) {
        match self {
            Damage::Write(at, bytes) => {
                for (old, new) in file.iter_mut().skip(*at).zip(bytes) {
                    *old = *new;
                }
            }
            Damage::Truncate(len) => file.truncate(*len),
            Damage::Extend(bytes) => file.extend(bytes),
        }
    }
}

/// Faults in every field of the layout of a sound file.
pub fn every_field(file: &[u8], summary: &Summary) -> Vec<Damage> {
    let layout = Layout::of(summary);
    [
        magic(file),
        counts(summary),
        lengths(file),
        primary(file, &layout),
        overflow(file, &layout),
        index(file, &layout),
    ]
    .concat()
}

/// Up to three random bytes of the file, changed.
pub fn random_flips(rng: &mut Rng, file: &[u8]) -> Vec<Damage> {
    (0..1 + rng.below(3))
        .map(|_| {
            let at = rng.below(file.len());
            Damage::Write(at, vec![file[at] ^ rng.byte().max(1)])
        })
        .collect()
}

/// Offsets of a sound file's parts.
struct Layout {
    n: usize,
    k: usize,
    m: usize,
    primary: usize,
    overflow: usize,
    index: usize,
}

impl Layout {
    fn of(summary: &Summary) -> Layout {
        let [n, k, m] = [summary.n, summary.k, summary.m].map(|count| count as usize);
        let primary = reference::HEADER_LEN;
        let overflow = primary + n;
        Layout {
            n,
            k,
            m,
            primary,
            overflow,
            index: overflow + OVERFLOW_ENTRY_LEN * k,
        }
    }
}

fn magic(file: &[u8]) -> Vec<Damage> {
    (0..MAGIC_LEN)
        .flat_map(|at| flipped(file, at, &[0x01, 0x20, 0x80]))
        .collect()
}

/// The byte at `at` with each of these patterns flipped.
fn flipped(file: &[u8], at: usize, patterns: &[u8]) -> Vec<Damage> {
    let flip = |pattern| Damage::Write(at, vec![file[at] ^ pattern]);
    patterns.iter().map(flip).collect()
}

/// One of the counts n, k, m and step, or several together.
fn counts(summary: &Summary) -> Vec<Damage> {
    let Summary { n, k, m, step, .. } = *summary;
    let fields = [(8, n), (16, k), (24, m), (32, step)];
    let single = fields
        .into_iter()
        .flat_map(|(at, value)| other_values(value).map(move |wrong| Damage::write64(at, wrong)));
    let combined = wrapping_counts(n, k, m, step)
        .into_iter()
        .map(|counts| Damage::Write(8, counts.map(u64::to_le_bytes).concat()));
    single.chain(combined).collect()
}

/// Other values for a count: next to it, at borders, and equal to it in its low bits.
fn other_values(value: u64) -> impl Iterator<Item = u64> {
    let neighbours = [value.wrapping_sub(1), value + 1, value + 2, value ^ 1];
    let borders = [
        0,
        1,
        2,
        2_048,
        2_049,
        1 << 20,
        (1 << 20) + 1,
        1 << 63,
        u64::MAX,
    ];
    let low_bits = [8, 16, 32, 60, 62].map(|bit| value + (1 << bit));
    neighbours
        .into_iter()
        .chain(borders)
        .chain(low_bits)
        .filter(move |&wrong| wrong != value)
}

/// Counts n, k, m, step with which 40 + n + 12k + 16m is the file's length only modulo 2^64, or
/// with which parts of it pass 2^64.
fn wrapping_counts(n: u64, k: u64, m: u64, step: u64) -> Vec<[u64; 4]> {
    let high = 1 << 63;
    vec![
        [n, k + (1 << 62), m, step],
        [n, k, m + (1 << 60), step],
        [n, k + (1 << 62), m + (1 << 60), step],
        [n.wrapping_sub(12), k + 1, m, step],
        [n.wrapping_add(12), k.wrapping_sub(1), m, step],
        [n.wrapping_sub(16), k, m + 1, step],
        [n + 16, k, m.wrapping_sub(1), step],
        [n.wrapping_sub(40), k, m, step],
        [high, high, high, high],
        [u64::MAX, u64::MAX, u64::MAX, u64::MAX],
        [u64::MAX - 39, 0, 0, 0],
        [u64::MAX, u64::MAX, 0, 0],
        [u64::MAX, 0, 0, 0],
        [n, u64::MAX, u64::MAX, step],
        [n, high, high, step],
        [n, u64::MAX, 2_048, u64::MAX.div_ceil(2_048)],
        [n, high, 2_048, high / 2_048],
        [1 << 20, 1 << 20, 2_048, 512],
        [1 << 20, 0, 0, 0],
        [(1 << 20) + 1, (1 << 20) + 1, 2_046, 513],
    ]
}

fn lengths(file: &[u8]) -> Vec<Damage> {
    let header = reference::HEADER_LEN;
    let shorter = [1, OVERFLOW_ENTRY_LEN, INDEX_ENTRY_LEN]
        .into_iter()
        .filter_map(|missing| file.len().checked_sub(missing));
    let fixed = [0, 1, 8, header - 1, header];
    let longer = [1, OVERFLOW_ENTRY_LEN, INDEX_ENTRY_LEN].map(|len| Damage::Extend(vec![0; len]));
    shorter
        .chain(fixed)
        .filter(|&len| len < file.len())
        .map(Damage::Truncate)
        .chain(longer)
        .collect()
}

/// Sentinels taken away and sentinels too many, at both ends and in between.
fn primary(file: &[u8], layout: &Layout) -> Vec<Damage> {
    let part = &file[layout.primary..layout.overflow];
    let is_sentinel = |slot: &usize| part[*slot] == reference::SENTINEL;
    let sentinels: Vec<usize> = (0..layout.n).filter(is_sentinel).collect();
    let inline: Vec<usize> = (0..layout.n).filter(|slot| !is_sentinel(slot)).collect();
    let write = |slot: usize, byte| Damage::Write(layout.primary + slot, vec![byte]);
    let taken = ends_and_middle(sentinels.len())
        .into_iter()
        .flat_map(|i| [0, 1, 44, 254].map(|byte| write(sentinels[i], byte)));
    let added = ends_and_middle(inline.len())
        .into_iter()
        .map(|i| write(inline[i], reference::SENTINEL));
    taken.chain(added).collect()
}

/// The first, second, middle, last but one and last of `len` places.
pub fn ends_and_middle(len: usize) -> Vec<usize> {
    let mut places: Vec<usize> = [0, 1, len / 2, len.wrapping_sub(2), len.wrapping_sub(1)]
        .into_iter()
        .filter(|&place| place < len)
        .collect();
    places.sort_unstable();
    places.dedup();
    places
}

fn overflow(file: &[u8], layout: &Layout) -> Vec<Damage> {
    ends_and_middle(layout.k)
        .into_iter()
        .flat_map(|i| overflow_entry(file, layout, i))
        .collect()
}

/// Faults in overflow entry `i`: each byte, wrong slots, distances at the border, a wrong order.
fn overflow_entry(file: &[u8], layout: &Layout, i: usize) -> Vec<Damage> {
    let at = layout.overflow + OVERFLOW_ENTRY_LEN * i;
    let entry = &file[at..at + OVERFLOW_ENTRY_LEN];
    let slot = le64(entry);
    let bytes = (at..at + OVERFLOW_ENTRY_LEN).flat_map(|at| flipped(file, at, &[0x01, 0x80, 0xFF]));
    let slots = [
        0,
        slot + 1,
        slot.wrapping_sub(1),
        slot + (1 << 32),
        layout.n as u64 - 1,
        layout.n as u64,
        1 << 63,
        u64::MAX,
    ]
    .map(|wrong| Damage::write64(at, wrong));
    let distances = [0, 1, 44, 254, 255, 256, u32::MAX].map(|wrong| Damage::write32(at + 8, wrong));
    let from_previous = (i > 0).then(|| {
        let previous = &file[at - OVERFLOW_ENTRY_LEN..at];
        [
            Damage::Write(at, previous.into()),
            Damage::Write(at - OVERFLOW_ENTRY_LEN, [entry, previous].concat()),
        ]
    });
    bytes
        .chain(slots)
        .chain(distances)
        .chain(from_previous.into_iter().flatten())
        .collect()
}

fn index(file: &[u8], layout: &Layout) -> Vec<Damage> {
    ends_and_middle(layout.m)
        .into_iter()
        .flat_map(|i| {
            let at = layout.index + INDEX_ENTRY_LEN * i;
            [at, at + 8].into_iter().flat_map(|half| {
                let bytes = (half..half + 8).flat_map(|at| flipped(file, at, &[0x01, 0x80]));
                let value = le64(&file[half..half + 8]);
                let values = other_values(value).map(move |wrong| Damage::write64(half, wrong));
                bytes.chain(values).collect::<Vec<_>>()
            })
        })
        .collect()
}

pub fn le64(bytes: &[u8]) -> u64 {
    u64::from_le_bytes(bytes[..8].try_into().expect("eight bytes"))
}
