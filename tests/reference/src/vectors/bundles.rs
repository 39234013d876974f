//! The bundles among the vectors, with the answers of read, row and nearest. Their bytes are put together
//! here; the reference's writer has no part in them.

use super::{
    file_of, list_fields, sorted, table_of, with, with64, with_overflow, Fields, Vector, MAP_A,
};
use crate::bundle::{Counts, MAX_FRAMES};
use crate::Refusal;

/// What a sound bundle holds.
pub struct Contents {
    /// The two counts.
    pub counts: Counts,
    /// How many records are skipped.
    pub others: u64,
    /// The list of each frame.
    pub lists: Vec<Vec<u32>>,
    /// The nearest distances.
    pub nearest: Vec<u32>,
}

const COLUMNS: [&str; 13] = [
    "file", "number", "map", "place", "slots", "frames", "others", "rows", "sum", "readings",
    "first", "last", "weighted",
];

/// All vectors of bundles, in order of their names.
pub fn vectors() -> Vec<Vector<Contents>> {
    let all = [good(), skipped(), bad_first(), bad_records(), bad_frames()];
    sorted(all.into_iter().flatten().collect())
}

/// The table of their answers.
pub fn table(vectors: &[Vector<Contents>]) -> String {
    table_of(&COLUMNS, vectors)
}

impl Fields for Contents {
    fn fields(&self) -> Vec<String> {
        let Counts { slots, frames } = self.counts;
        let sum = self.nearest.iter().copied().map(u64::from).sum();
        let numbers = [slots, frames, self.others, rows(&self.lists), sum];
        let mut fields = numbers.map(|x| x.to_string()).to_vec();
        fields.extend(list_fields(&self.nearest));
        fields
    }
}

/// The sum of (8 × slot + frame) × distance over all slots and all frames, from 1.
fn rows(lists: &[Vec<u32>]) -> u64 {
    let weighted = |(frame, list): (u64, &Vec<u32>)| -> u64 {
        let slots = (0u64..).zip(list);
        let terms = slots.map(|(slot, &distance)| (8 * slot + frame) * u64::from(distance));
        terms.sum()
    };
    (1..).zip(lists).map(weighted).sum()
}

const MAP_B: [u32; 4] = [1, 1, 1, u32::MAX];

/// Distances in two frames, and the nearest: next to the borders of inline and overflow and to the largest.
const BORDERS: [[u32; 3]; 10] = [
    [254, 255, 254],
    [255, 254, 254],
    [256, 255, 255],
    [0, u32::MAX, u32::MAX],
    [1, u32::MAX, 1],
    [u32::MAX, 0, u32::MAX],
    [u32::MAX, u32::MAX - 1, u32::MAX - 1],
    [0, 255, 255],
    [300, 44, 44],
    [65_536, 65_535, 65_535],
];

/// A record: its length, its kind and its payload.
fn record(kind: u16, payload: &[u8]) -> Vec<u8> {
    let len = payload.len() as u32 + 2;
    [&len.to_le_bytes()[..], &kind.to_le_bytes(), payload].concat()
}

fn header(slots: u32, frames: u16) -> Vec<u8> {
    record(
        0,
        &[&slots.to_le_bytes()[..], &frames.to_le_bytes()].concat(),
    )
}

fn frame(list: &[u32]) -> Vec<u8> {
    record(1, &file_of(list))
}

/// The header and the frames of some lists.
fn records(lists: &[Vec<u32>]) -> Vec<Vec<u8>> {
    let header = header(lists[0].len() as u32, lists.len() as u16);
    let frames = lists.iter().map(|list| frame(list));
    [header].into_iter().chain(frames).collect()
}

fn good() -> Vec<Vector<Contents>> {
    let (a, b) = (MAP_A.to_vec(), MAP_B.to_vec());
    let burst = |frame: u32| (0..5).map(|slot| 40 * frame + slot).collect();
    let steps = |shift: u32| (0..4_097).map(|slot| (slot + shift) % 255).collect();
    let column = |of: fn([u32; 3]) -> u32| BORDERS.map(of).to_vec();
    vec![
        accepted("1-frame-a", vec![a.clone()], MAP_A.to_vec()),
        accepted("2-frames-a-and-b", vec![a, b], vec![1, 1, 1, 300]),
        accepted(
            "8-frames",
            (1..=8).map(burst).collect(),
            vec![40, 41, 42, 43, 44],
        ),
        accepted(
            "8-frames-rising-and-falling",
            vec![
                vec![0, 0, 300, 1_000],
                vec![0, 9, 299, 0],
                vec![0, 8, 298, 0],
                vec![0, 7, 297, 999],
                vec![0, 6, 298, 998],
                vec![0, 0, 299, 999],
                vec![0, 6, 300, 0],
                vec![0, 255, 0, 0],
            ],
            vec![0, 6, 297, 998],
        ),
        accepted("0-slots-3-frames", vec![vec![]; 3], vec![]),
        accepted("3-frames-zeros", vec![vec![0; 70]; 3], vec![0; 70]),
        accepted_of("3-frames-zero-inline-overflow", three_of_each()),
        accepted(
            "2-frames-borders",
            vec![column(|[a, _, _]| a), column(|[_, b, _]| b)],
            column(|[_, _, nearest]| nearest),
        ),
        accepted_of("4097-slots-2-frames", vec![steps(0), steps(128)]),
        accepted_of(
            "2-frames-2049-overflow",
            vec![with_overflow(2_100, 2_049), with_overflow(2_100, 2_048)],
        ),
    ]
}

/// Three frames with a slot for each choice of a zero, an inline and an overflow distance in each.
fn three_of_each() -> Vec<Vec<u32>> {
    let distance = |frame: u32, slot: u32| match slot / 3u32.pow(frame) % 3 {
        0 => 0,
        1 => 100 - 10 * frame + slot,
        _ => 500 - 100 * frame + slot,
    };
    let list = |frame| (0..27).map(|slot| distance(frame, slot)).collect();
    (0..3).map(list).collect()
}

/// Bundles of A and B with records to be skipped.
fn skipped() -> Vec<Vector<Contents>> {
    let lists = [MAP_A.to_vec(), MAP_B.to_vec()];
    let inner = records(&lists).concat();
    vec![
        skipping("behind-header", &[(1, record(2, &[]))]),
        skipping("between-frames", &[(2, record(3, &[1, 2, 3, 4, 5]))]),
        skipping("at-end", &[(3, record(65_535, &[0]))]),
        skipping("kind-256", &[(1, record(256, &[4, 0, 0, 0, 2, 0]))]),
        skipping("kind-257", &[(2, record(257, &file_of(&[7, 7, 7, 7])))]),
        skipping("records-in-a-record", &[(2, record(2, &inner))]),
        skipping(
            "everywhere",
            &[
                (3, record(4, &[0; 300])),
                (3, record(2, &[1])),
                (2, record(32_768, &[])),
                (2, record(2, &[0, 0])),
                (1, record(2, &[0, 0, 0])),
                (1, record(9, &[])),
            ],
        ),
    ]
}

/// A vector of A and B with further records, each before the record of its number, the last ones first.
fn skipping(what: &str, others: &[(usize, Vec<u8>)]) -> Vector<Contents> {
    let lists = vec![MAP_A.to_vec(), MAP_B.to_vec()];
    let mut records = records(&lists);
    for (at, record) in others {
        records.insert(*at, record.clone());
    }
    let mut vector = accepted(&format!("skipped-{what}"), lists, vec![1, 1, 1, 300]);
    vector.file = records.concat();
    if let Ok(contents) = &mut vector.answer {
        contents.others = others.len() as u64;
    }
    vector
}

/// Faults of the first record, and bundles without one.
fn bad_first() -> Vec<Vector<Contents>> {
    let (a, b) = (frame(&MAP_A), frame(&MAP_B));
    let of_a = |header: Vec<u8>| [header, a.clone()].concat();
    let counts = [4, 0, 0, 0, 1, 0];
    let nine: Vec<u8> = (0..9).flat_map(|_| b.clone()).collect();
    let cut = of_a(header(4, 1))[..11].to_vec();
    vec![
        refused([14, 0, 0], "no-bytes", vec![]),
        refused([14, 0, 0], "3-bytes", vec![8, 0, 0]),
        refused([14, 0, 0], "cut-short", cut),
        refused([14, 0, 0], "length-0", of_a(vec![0; 12])),
        refused([14, 0, 0], "length-7", of_a(record(0, &counts[..5]))),
        refused(
            [14, 0, 0],
            "length-9",
            of_a(record(0, &[&counts[..], &[0]].concat())),
        ),
        refused([14, 0, 0], "frame-first", a.clone()),
        refused([14, 0, 0], "pciv-file", file_of(&MAP_A)),
        refused([14, 0, 0], "kind-1", of_a(record(1, &counts))),
        refused([14, 0, 0], "kind-256", of_a(record(256, &counts))),
        refused(
            [14, 0, 0],
            "other-record-first",
            [record(2, &[]), header(4, 1), a.clone()].concat(),
        ),
        refused([14, 0, 0], "frame-count-0", header(4, 0)),
        refused([14, 0, 0], "frame-count-9", [header(4, 9), nine].concat()),
        refused([14, 0, 0], "frame-count-257", of_a(header(4, 257))),
    ]
}

/// Faults of later records, and missing frames.
fn bad_records() -> Vec<Vector<Contents>> {
    let (a, b, other) = (frame(&MAP_A), frame(&MAP_B), record(2, &[]));
    let two = |more: &[u8]| [&header(4, 2)[..], &a, &b, more].concat();
    let whole = two(&[]);
    // The lengths of the two frames are at bytes 12 and 86.
    let with32 = |at, length: u32| with(&whole, at, &length.to_le_bytes());
    vec![
        refused([14, 0, 1], "length-0", with32(12, 0)),
        refused([14, 0, 1], "length-1", with32(12, 1)),
        refused(
            [14, 0, 1],
            "header-again",
            [header(4, 1), header(4, 1), a.clone()].concat(),
        ),
        refused([14, 0, 3], "header-without-payload", two(&record(0, &[]))),
        refused([14, 0, 1], "header-alone", header(4, 1)),
        refused(
            [14, 0, 3],
            "frame-missing",
            [header(4, 3), a.clone(), b.clone()].concat(),
        ),
        refused(
            [14, 0, 3],
            "frame-of-kind-257",
            [header(4, 2), a.clone(), record(257, &file_of(&MAP_B))].concat(),
        ),
        refused(
            [14, 0, 2],
            "frame-too-many",
            [header(4, 1), a.clone(), b.clone()].concat(),
        ),
        refused(
            [14, 0, 4],
            "frame-too-many-behind-others",
            [header(4, 1), other.clone(), a.clone(), other, b.clone()].concat(),
        ),
        refused(
            [14, 0, 2],
            "one-byte-short",
            whole[..whole.len() - 1].to_vec(),
        ),
        refused([14, 0, 2], "length-alone", whole[..90].to_vec()),
        refused([14, 0, 2], "length-past-31-bits", with32(86, 1 << 31)),
        refused([14, 0, 2], "length-past-end-by-1", with32(86, 59)),
        refused([14, 0, 2], "length-4294967292", with32(86, 4_294_967_292)),
        refused([14, 0, 3], "1-byte-more", two(&[0])),
        refused([14, 0, 3], "3-bytes-more", two(&[2, 0, 0])),
        refused([14, 0, 3], "4-bytes-more", two(&[0; 4])),
        refused([14, 0, 3], "5-bytes-more", two(&[2, 0, 0, 0, 2])),
        refused(
            [14, 0, 1],
            "two-records",
            [header(4, 2), record(0, &[]), a.clone(), vec![9]].concat(),
        ),
        refused(
            [14, 0, 2],
            "before-01",
            [header(4, 2), record(1, &[])].concat(),
        ),
    ]
}

/// Sound records, and frames at fault: refusals 1 to 8 and 10.
fn bad_frames() -> Vec<Vector<Contents>> {
    let a = file_of(&MAP_A);
    let two =
        |first: &[u8], second: &[u8]| [header(4, 2), record(1, first), record(1, second)].concat();
    let five = file_of(&[7; 5]);
    let lower = with(&a, 0, b"p");
    let distance_254 = with(&a, 52, &[254]);
    let mut eight = vec![file_of(&MAP_B); MAX_FRAMES];
    eight[7] = with(&a, 40, &[255]);
    let eight: Vec<u8> = eight.iter().flat_map(|file| record(1, file)).collect();
    let many = file_of(&with_overflow(2_100, 2_049));
    let sparse = frame(&vec![7; 2_100]);
    let index = record(1, &with64(&many, 26_728 + 8, 1));
    let numbered = |slots| [header(slots, 1), record(1, &a)].concat();
    vec![
        refused([1, 1, 0], "no-payload", two(&[], &a)),
        refused([1, 2, 0], "39-bytes", two(&a, &a[..39])),
        refused([2, 2, 0], "lower-case", two(&a, &lower)),
        refused([2, 2, 0], "before-10", two(&five, &lower)),
        refused(
            [3, 1, 0],
            "1048577-slots",
            two(&with64(&a, 8, 1_048_577), &a),
        ),
        refused([4, 2, 0], "k-above-n", two(&a, &with64(&a, 16, 5))),
        refused([5, 1, 0], "one-byte-short", two(&a[..67], &a)),
        refused(
            [5, 2, 0],
            "one-byte-long",
            two(&a, &[&a[..], &[0]].concat()),
        ),
        refused([6, 2, 0], "distance-254", two(&a, &distance_254)),
        refused([6, 2, 1], "slot-repeated", two(&a, &with(&a, 56, &[2]))),
        refused([6, 1, 0], "before-02", two(&distance_254, &lower)),
        refused([7, 8, 0], "no-entry", [header(4, 8), eight].concat()),
        refused(
            [8, 2, 0],
            "number",
            [header(2_100, 2), sparse, index].concat(),
        ),
        refused([10, 0, 1], "slot-count-5", numbered(5)),
        refused([10, 0, 1], "slot-count-0", numbered(0)),
        refused([10, 0, 1], "slot-count-65540", numbered(65_540)),
        refused([10, 0, 1], "slot-count-1048577", numbered(1_048_577)),
        refused([10, 0, 2], "5-slots", two(&a, &five)),
        refused([10, 0, 1], "both-frames", two(&five, &five)),
    ]
}

/// A vector `good-..`: the lists of its frames, and their nearest distances.
fn accepted(what: &str, lists: Vec<Vec<u32>>, nearest: Vec<u32>) -> Vector<Contents> {
    Vector {
        name: format!("good-{what}.pcib"),
        file: records(&lists).concat(),
        answer: Ok(Contents {
            counts: Counts {
                slots: nearest.len() as u64,
                frames: lists.len() as u64,
            },
            others: 0,
            lists,
            nearest,
        }),
    }
}

/// The same, with the least distance but 0 of each slot.
fn accepted_of(what: &str, lists: Vec<Vec<u32>>) -> Vector<Contents> {
    let least = |slot: usize| {
        let distances = lists.iter().map(|list| list[slot]);
        distances.filter(|&distance| distance > 0).min()
    };
    let slots = 0..lists[0].len();
    let nearest = slots.map(|slot| least(slot).unwrap_or(0)).collect();
    accepted(what, lists, nearest)
}

/// A vector `bad-..`: number, map and place of the refusal, and the bundle. The map is part of the name
/// where there is one, the place where the number has places.
fn refused([number, map, place]: [u64; 3], what: &str, file: Vec<u8>) -> Vector<Contents> {
    let mut name = format!("bad-{number:02}");
    if map > 0 {
        name += &format!("-map-{map}");
    }
    if !(1..=5).contains(&number) {
        name += &format!("-place-{place}");
    }
    Vector {
        name: format!("{name}-{what}.pcib"),
        file,
        answer: Err(Refusal { number, map, place }),
    }
}
