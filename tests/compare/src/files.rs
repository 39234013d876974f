//! Cases about one file: the file of a list, a damaged file, random bytes.

use crate::damage::{self, Damage};
use crate::judge::Judge;
use crate::parts::Parts;
use crate::routines;
use crate::run::{Run, Subject};
use compare::lists::{self, Spread, SPREADS};
use compare::rng::{case_seed, Rng};

/// All groups of such cases.
pub fn run_all(run: &mut Run) {
    worked_examples(run);
    small_lists(run);
    zeros_and_ones(run);
    overflow_counts(run);
    largest_maps(run);
    report_limit(run);
    damaged_files(run);
    random_bytes(run);
}

/// A file to compare on, and the list it was made of if it is one's.
pub struct Case {
    what: String,
    file: Vec<u8>,
    distances: Option<Vec<u32>>,
}

impl Case {
    fn of_list(what: String, distances: Vec<u32>) -> Case {
        Case {
            what: format!("{what} {} slots", distances.len()),
            file: encode(&distances),
            distances: Some(distances),
        }
    }

    fn of_bytes(what: impl Into<String>, file: Vec<u8>) -> Case {
        Case {
            what: what.into(),
            file,
            distances: None,
        }
    }
}

impl Subject for Case {
    fn describe(&self) -> String {
        format!("{}, {} bytes", self.what, self.file.len())
    }

    fn compare(&self, judge: &mut Judge, rng: &mut Rng) {
        if let Some(distances) = &self.distances {
            routines::compare_list(judge, rng, &self.file, distances);
        }
        routines::compare_file(judge, rng, &self.file);
    }
}

pub fn encode(distances: &[u32]) -> Vec<u8> {
    reference::encode(distances).expect("at most 1,048,576 slots")
}

fn worked_examples(run: &mut Run) {
    for (number, list) in lists::EXAMPLES.into_iter().enumerate() {
        run.case("worked example", number, |_| {
            Case::of_list("list of".into(), list.to_vec())
        });
    }
}

fn small_lists(run: &mut Run) {
    for number in 0..4_000 {
        run.case("small list", number, |rng| {
            let n = lists::size(rng);
            Case::of_list("list of".into(), lists::mixed(rng, n))
        });
    }
}

fn zeros_and_ones(run: &mut Run) {
    for number in 0..400 {
        run.case("zeros and ones", number, |rng| {
            let n = lists::size(rng);
            Case::of_list("list of".into(), lists::zeros_and_ones(rng, n))
        });
    }
}

fn overflow_counts(run: &mut Run) {
    const COUNTS: [usize; 12] = [
        1, 2_047, 2_048, 2_049, 4_095, 4_096, 4_097, 6_144, 6_145, 8_191, 8_193, 20_481,
    ];
    for (number, k) in COUNTS.into_iter().enumerate() {
        for (inner, spread) in SPREADS.into_iter().enumerate() {
            run.case("overflow count", 4 * number + inner, |rng| {
                let n = k + rng.below(5_000);
                overflow_case(rng, n, k, spread)
            });
        }
        run.case("overflow count", 4 * number + 3, |rng| {
            overflow_case(rng, k, k, Spread::Front)
        });
    }
}

fn overflow_case(rng: &mut Rng, n: usize, k: usize, spread: Spread) -> Case {
    let distances = lists::with_overflow(rng, n, k, spread);
    Case::of_list(format!("{k} in overflow ({spread:?}) of"), distances)
}

fn largest_maps(run: &mut Run) {
    let n = reference::MAX_SLOTS as usize;
    for (number, k) in [n, n / 200, 2_048, 0].into_iter().enumerate() {
        run.case("largest map", number, |rng| {
            overflow_case(rng, n, k, Spread::Scattered)
        });
    }
    run.case("largest map", 4, |_| {
        Case::of_list("all at the largest distance,".into(), vec![u32::MAX; n])
    });
    run.case("largest map", 5, |_| {
        let mut file = encode(&vec![0; n]);
        file[8..16].copy_from_slice(&(n as u64 + 1).to_le_bytes());
        file.push(0);
        Case::of_bytes("one slot too many, all zero", file)
    });
}

/// Sound maps of 65,535 to 65,537 bytes, without and with a sparse index.
fn report_limit(run: &mut Run) {
    for (number, len) in (reference::MAX_INPUT - 1..=reference::MAX_INPUT + 1).enumerate() {
        for (inner, k) in [0, 1_000, 2_500].into_iter().enumerate() {
            run.case("report limit", 3 * number + inner, |rng| {
                let n = len - reference::file_len(0, k as u64) as usize;
                overflow_case(rng, n, k, Spread::Scattered)
            });
        }
    }
}

/// The sound files to damage: slots and overflow entries, and how many cases of two faults and of
/// random flips each gets.
const BASES: [(usize, usize, usize); 8] = [
    (0, 0, 1_000),
    (1, 1, 2_000),
    (4, 2, 8_000),
    (65, 3, 8_000),
    (300, 120, 6_000),
    (2_100, 2_049, 1_200),
    (5_000, 4_097, 800),
    (20_000, 2_048, 400),
];

fn damaged_files(run: &mut Run) {
    for (number, (n, k, count)) in BASES.into_iter().enumerate() {
        let mut rng = Rng::new(case_seed(run.seed, "base", number));
        let base = encode(&lists::with_overflow(&mut rng, n, k, Spread::Scattered));
        let summary = reference::check(&base).expect("a list's file is sound");
        let single = damage::every_field(&base, &summary);
        let name = format!("{n} slots, {k} in overflow");
        for (case, damage) in single.iter().enumerate() {
            run.case(&format!("one fault, {name},"), case, |_| {
                damaged(&base, std::slice::from_ref(damage))
            });
        }
        for case in 0..count {
            run.case(&format!("two faults, {name},"), case, |rng| {
                let pair = [0; 2].map(|_| single[rng.below(single.len())].clone());
                damaged(&base, &pair)
            });
            run.case(&format!("random flips, {name},"), case, |rng| {
                damaged(&base, &damage::random_flips(rng, &base))
            });
        }
    }
}

fn damaged(base: &[u8], faults: &[Damage]) -> Case {
    let mut file = base.to_vec();
    for fault in faults {
        fault.apply(&mut file);
    }
    Case::of_bytes(format!("{faults:?}"), file)
}

fn random_bytes(run: &mut Run) {
    for number in 0..4_000 {
        run.case("random bytes", number, |rng| {
            let len = rng.below(81);
            Case::of_bytes("random", rng.bytes(len))
        });
        run.case("random bytes after the magic", number, |rng| {
            let len = rng.below(73);
            let file = [&b"PCIV\0\0\0\0"[..], &rng.bytes(len)].concat();
            Case::of_bytes("random", file)
        });
    }
    for number in 0..20_000 {
        run.case("random parts", number, random_parts);
    }
}

/// A file with the right lengths, whose few primary bytes and overflow entries are random.
fn random_parts(rng: &mut Rng) -> Case {
    let Parts {
        primary,
        slots,
        distances,
    } = Parts::random(rng);
    let mut file = b"PCIV\0\0\0\0".to_vec();
    for count in [primary.len(), slots.len(), 0, 0] {
        file.extend((count as u64).to_le_bytes());
    }
    file.extend(primary);
    for (slot, distance) in slots.iter().zip(distances) {
        file.extend(slot.to_le_bytes());
        file.extend(distance.to_le_bytes());
    }
    Case::of_bytes(format!("random {file:?}"), file)
}
