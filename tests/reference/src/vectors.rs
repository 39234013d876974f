//! The files of `tests/vectors`, made from scratch, with the answers that every reader has to give.
//! Summaries and refusals are written down here; `tests/vectors.rs` holds the reference to them. The
//! bundles among the files are in a module of their own.

pub mod bundles;

use crate::layout::le64;
use crate::{encode, Refusal, Summary};

/// A file and what a reader has to answer.
pub struct Vector<C> {
    /// The file's name, with the verdict.
    pub name: String,
    /// Its bytes.
    pub file: Vec<u8>,
    /// What it holds, or why it is refused.
    pub answer: Result<C, Refusal>,
}

/// The fields of a table after the name, for what a sound file holds.
pub trait Fields {
    /// As many as there are columns behind those of the refusal; `-` stands where there is nothing to
    /// tell.
    fn fields(&self) -> Vec<String>;
}

/// A table of answers: a line of columns, then one for each vector, with tabs between the fields. The
/// first columns are the name and the three numbers of the refusal.
fn table_of<C: Fields>(columns: &[&str], vectors: &[Vector<C>]) -> String {
    let mut text = columns.join("\t") + "\n";
    for Vector { name, answer, .. } in vectors {
        let (refusal, fields) = match answer {
            Ok(contents) => ([0; 3], contents.fields()),
            Err(Refusal { number, map, place }) => {
                let nothing = vec!["-".to_string(); columns.len() - 4];
                ([*number, *map, *place], nothing)
            }
        };
        let [number, map, place] = refusal;
        let fields = fields.join("\t");
        text += &format!("{name}\t{number}\t{map}\t{place}\t{fields}\n");
    }
    text
}

/// In order of their names.
fn sorted<C>(mut vectors: Vec<Vector<C>>) -> Vec<Vector<C>> {
    vectors.sort_by(|a, b| a.name.cmp(&b.name));
    vectors
}

/// What a sound file holds.
pub struct Contents {
    /// The counts, the file's length, and the sum of the distances.
    pub summary: Summary,
    /// The distances.
    pub list: Vec<u32>,
}

/// All vectors of maps, in order of their names.
pub fn vectors() -> Vec<Vector<Contents>> {
    let all = [good(), bad_counts(), bad_parts(), bad_index()];
    sorted(all.into_iter().flatten().collect())
}

/// The columns of the table of answers.
const COLUMNS: [&str; 14] = [
    "file", "number", "map", "place", "n", "k", "m", "step", "L", "sum", "readings", "first",
    "last", "weighted",
];

/// The table of their answers.
pub fn table(vectors: &[Vector<Contents>]) -> String {
    table_of(&COLUMNS, vectors)
}

impl Fields for Contents {
    fn fields(&self) -> Vec<String> {
        let Summary {
            n,
            k,
            m,
            step,
            len,
            sum,
        } = self.summary;
        let mut fields = [n, k, m, step, len, sum].map(|x| x.to_string()).to_vec();
        fields.extend(list_fields(&self.list));
        fields
    }
}

/// The readings, both ends and the weighted sum of a list.
fn list_fields(list: &[u32]) -> [String; 4] {
    let end = |end: Option<&u32>| end.map_or_else(|| "-".into(), u32::to_string);
    [
        readings(list).to_string(),
        end(list.first()),
        end(list.last()),
        weighted(list).to_string(),
    ]
}

fn readings(list: &[u32]) -> u64 {
    list.iter().filter(|&&distance| distance != 0).count() as u64
}

/// The sum of (slot + 1) × distance, which tells lists apart that have the same sum.
fn weighted(list: &[u32]) -> u64 {
    (1..)
        .zip(list)
        .map(|(i, &distance)| i * u64::from(distance))
        .sum()
}

const MAP_A: [u32; 4] = [0, 254, 255, 300];

/// Distances next to the borders of inline and overflow and of their bytes.
const BORDERS: [u32; 16] = [
    0,
    1,
    253,
    254,
    255,
    256,
    300,
    65_535,
    65_536,
    16_777_215,
    16_777_216,
    2_147_483_647,
    2_147_483_648,
    4_294_967_040,
    4_294_967_294,
    4_294_967_295,
];

/// A list of `n` distances of which `k` are in overflow; the inline ones are evenly spread, and the
/// last slot is one of them.
fn with_overflow(n: u32, k: u32) -> Vec<u32> {
    let inline_before = |slot| slot * (n - k) / n;
    (0..n)
        .map(|slot| {
            if inline_before(slot + 1) > inline_before(slot) {
                slot % 7 * 42
            } else {
                255 + 1_000 * slot
            }
        })
        .collect()
}

/// 65,538 zeros, but for the slots about which a slot needs another byte.
fn long_slots() -> Vec<u32> {
    let mut list = vec![0; 65_538];
    for (slot, distance) in [(255, 1_000), (256, 2_000), (65_535, 3_000), (65_536, 4_000)] {
        list[slot] = distance;
    }
    list
}

fn good() -> Vec<Vector<Contents>> {
    vec![
        accepted("empty", vec![], [0, 0, 0, 0, 40, 0]),
        accepted("zeros", vec![0; 100], [100, 0, 0, 0, 140, 0]),
        accepted("inline", (0..255).collect(), [255, 0, 0, 0, 295, 32_385]),
        accepted("all-in-overflow", vec![300; 3], [3, 3, 0, 0, 79, 900]),
        accepted("map-a", MAP_A.into(), [4, 2, 0, 0, 68, 809]),
        accepted(
            "map-b",
            vec![1, 1, 1, u32::MAX],
            [4, 1, 0, 0, 56, 4_294_967_298],
        ),
        accepted(
            "borders",
            BORDERS.into(),
            [16, 12, 0, 0, 200, 17_213_555_745],
        ),
        accepted(
            "long-slots",
            long_slots(),
            [65_538, 4, 0, 0, 65_626, 10_000],
        ),
        accepted(
            "1048576-slots",
            vec![0; 1_048_576],
            [1_048_576, 0, 0, 0, 1_048_616, 0],
        ),
        accepted(
            "2048-overflow-no-index",
            with_overflow(2_100, 2_048),
            [2_100, 2_048, 0, 0, 26_716, 2_148_857_296],
        ),
        accepted(
            "2049-overflow-step-2",
            with_overflow(2_100, 2_049),
            [2_100, 2_049, 1_025, 2, 43_128, 2_149_906_299],
        ),
        accepted(
            "4096-overflow-step-2",
            with_overflow(4_200, 4_096),
            [4_200, 4_096, 2_048, 2, 86_160, 8_598_514_592],
        ),
        accepted(
            "4097-overflow-step-3",
            with_overflow(4_200, 4_097),
            [4_200, 4_097, 1_366, 3, 75_260, 8_600_609_839],
        ),
    ]
}

/// Faults of the header and of the length.
fn bad_counts() -> Vec<Vector<Contents>> {
    let [empty, a] = [file_of(&[]), file_of(&MAP_A)];
    let [many, more] = [with_overflow(2_100, 2_049), with_overflow(4_200, 4_097)];
    let slots = with64(&empty, 8, 1_048_577);
    let entry = |slot: u64| [&slot.to_le_bytes()[..], &[0x2C, 0x01, 0, 0]].concat();
    vec![
        refused(1, 0, "no-bytes", vec![]),
        refused(1, 0, "39-bytes", empty[..39].into()),
        refused(1, 0, "before-02", with(&empty, 0, b"p")[..39].into()),
        refused(2, 0, "lower-case", with(&a, 0, b"p")),
        refused(2, 0, "byte-7-not-0", with(&a, 7, &[1])),
        refused(2, 0, "before-03", with(&slots, 4, &[1])),
        refused(3, 0, "n-past-32-bits", with64(&a, 8, (1 << 32) + 4)),
        refused(3, 0, "before-04", with64(&slots, 16, 1_048_578)),
        refused(3, 0, "1048577-slots", slots),
        refused(
            4,
            0,
            "k-above-n",
            [
                &with64(&a, 16, 5)[..40],
                &[255; 4],
                &(0..5).flat_map(entry).collect::<Vec<u8>>(),
            ]
            .concat(),
        ),
        refused(4, 0, "k-past-32-bits", with64(&a, 16, (1 << 32) + 2)),
        refused(4, 0, "index-of-few-entries", indexed(&MAP_A, 2, 1)),
        refused(4, 0, "m-without-step", indexed(&MAP_A, 1, 0)),
        refused(4, 0, "2049-overflow-no-index", indexed(&many, 0, 0)),
        refused(4, 0, "2049-overflow-step-3", indexed(&many, 683, 3)),
        refused(4, 0, "2049-overflow-m-1024", indexed(&many, 1_024, 2)),
        refused(4, 0, "4097-overflow-step-2", indexed(&more, 2_049, 2)),
        refused(4, 0, "before-05", with64(&a, 32, 1)[..67].into()),
        refused(5, 0, "header-alone", a[..40].into()),
        refused(5, 0, "one-byte-short", a[..67].into()),
        refused(5, 0, "one-byte-long", [&a[..], &[0]].concat()),
        refused(
            5,
            0,
            "before-06",
            [&with(&a, 52, &[254])[..], &[0]].concat(),
        ),
    ]
}

/// Faults of overflow entries and of the primary array. Map A has its primary array at byte 40 and
/// its entries at bytes 44 and 56; the last of 2,049 entries of 2,100 slots is at byte 26,716.
fn bad_parts() -> Vec<Vector<Contents>> {
    let a = file_of(&MAP_A);
    let three = file_of(&[300; 3]);
    let many = file_of(&with_overflow(2_100, 2_049));
    let mut sentinel_last = vec![7; 70];
    sentinel_last[0] = 300;
    let sentinel_last = file_of(&sentinel_last);
    vec![
        refused(6, 0, "distance-254", with(&a, 52, &[254])),
        refused(6, 0, "primary-254", with(&a, 42, &[254])),
        refused(6, 0, "slot-past-32-bits", with64(&a, 44, (1 << 32) + 2)),
        refused(6, 1, "slot-n", with(&a, 56, &[4])),
        refused(6, 1, "slot-repeated", with(&a, 56, &[2])),
        refused(
            6,
            1,
            "not-rising",
            [&a[..44], &a[56..], &a[44..56]].concat(),
        ),
        // The distances of its three entries are at bytes 51, 63 and 75.
        refused(
            6,
            1,
            "two-entries",
            with(&with(&three, 75, &[1, 0]), 63, &[1, 0]),
        ),
        refused(6, 1, "before-07", with(&with(&a, 40, &[255]), 65, &[0])),
        refused(
            6,
            2_048,
            "distance-254",
            with(&many, 26_724, &254u32.to_le_bytes()),
        ),
        refused(7, 0, "no-entry", with(&a, 40, &[255])),
        refused(7, 1, "no-entry", with(&a, 41, &[255])),
        refused(7, 3, "entry-missing", with64(&a, 16, 1)[..56].into()),
        refused(7, 69, "last-slot", with(&sentinel_last, 109, &[255])),
    ]
}

/// Faults of an index of 1,025 entries, which is at byte 26,728, and of one of 1,366 entries, which
/// is at byte 53,404. Where the number of index entry 0 is wrong, another fault comes before.
fn bad_index() -> Vec<Vector<Contents>> {
    let file = file_of(&with_overflow(2_100, 2_049));
    let next = |at: usize| with64(&file, at, le64(&file[at..at + 8]) + 1);
    let first_wrong = next(26_728 + 8);
    let step_3 = file_of(&with_overflow(4_200, 4_097));
    let last = 53_404 + 16 * 1_365;
    vec![
        refused(
            6,
            2_048,
            "before-08",
            with(&first_wrong, 26_724, &254u32.to_le_bytes()),
        ),
        refused(7, 2_099, "before-08", with(&first_wrong, 2_139, &[255])),
        refused(8, 0, "slot", next(26_728)),
        refused(8, 1, "slot", next(26_728 + 16)),
        refused(8, 512, "number", next(26_728 + 16 * 512 + 8)),
        refused(8, 1_024, "last", next(26_728 + 16 * 1_024 + 8)),
        refused(8, 1, "slot-of-step-2", with64(&step_3, 53_404 + 16, 2)),
        refused(
            8,
            1_365,
            "other-entry",
            with64(&with64(&step_3, last, 4_198), last + 8, 4_096),
        ),
    ]
}

/// A vector `good-..`: its list, and n, k, m, step, L and the sum of its file's summary.
fn accepted(what: &str, list: Vec<u32>, [n, k, m, step, len, sum]: [u64; 6]) -> Vector<Contents> {
    Vector {
        name: format!("good-{what}.pciv"),
        file: file_of(&list),
        answer: Ok(Contents {
            summary: Summary {
                n,
                k,
                m,
                step,
                len,
                sum,
            },
            list,
        }),
    }
}

/// A vector `bad-..`: the refusal's number and place, of map 1, and the file. The place is part of
/// the name where the number has places.
fn refused(number: u64, place: u64, what: &str, file: Vec<u8>) -> Vector<Contents> {
    let name = match number {
        6..=8 => format!("bad-{number:02}-place-{place}-{what}.pciv"),
        _ => format!("bad-{number:02}-{what}.pciv"),
    };
    Vector {
        name,
        file,
        answer: Err(Refusal {
            number,
            map: 1,
            place,
        }),
    }
}

fn file_of(list: &[u32]) -> Vec<u8> {
    encode(list).expect("at most 1,048,576 slots")
}

/// The file with these bytes at an offset.
fn with(file: &[u8], at: usize, bytes: &[u8]) -> Vec<u8> {
    let mut file = file.to_vec();
    file[at..at + bytes.len()].copy_from_slice(bytes);
    file
}

/// The file with a number of eight bytes at an offset.
fn with64(file: &[u8], at: usize, number: u64) -> Vec<u8> {
    with(file, at, &number.to_le_bytes())
}

/// The file of a list with another index: `m` entries for every `step`-th overflow entry, and these
/// counts in its header.
fn indexed(list: &[u32], m: u64, step: u64) -> Vec<u8> {
    let slots: Vec<u64> = (0..)
        .zip(list)
        .filter(|(_, &distance)| distance >= 255)
        .map(|(slot, _)| slot)
        .collect();
    let file = with64(&with64(&file_of(list), 24, m), 32, step);
    let mut file = file[..40 + list.len() + 12 * slots.len()].to_vec();
    for number in (0..m).map(|i| i * step) {
        file.extend(slots[number as usize].to_le_bytes());
        file.extend(number.to_le_bytes());
    }
    file
}
