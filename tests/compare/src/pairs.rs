//! Cases about two files: minimum, maximum, sum, difference, signed difference and figures.

use crate::call::{capacities, file_capacities, Answer, Call};
use crate::damage::{self, Damage};
use crate::files::encode;
use crate::judge::Judge;
use crate::masks::THRESHOLDS;
use crate::read_only::ReadOnly;
use crate::run::{Run, Subject};
use compare::lists::{self, Spread};
use compare::rng::{case_seed, Rng};
use pciv::{raw, Refusal, Summary};

/// All groups of such cases.
pub fn run_all(run: &mut Run) {
    worked_examples(run);
    small_pairs(run);
    sums_above(run);
    overflow_counts(run);
    largest_pairs(run);
    unequal_sizes(run);
    damaged_pairs(run);
}

/// A routine that combines two files into a third.
struct Combining {
    name: &'static str,
    reference: Theirs,
    library: Ours,
}

type Theirs = fn(&[u8], &[u8], &mut [u8]) -> Answer<reference::Summary>;
type Ours = fn(&[u8], &[u8], &mut [u8], &mut Summary, &mut Refusal) -> u64;

const COMBINING: [Combining; 4] = [
    Combining {
        name: "minimum",
        reference: reference::minimum,
        library: raw::minimum,
    },
    Combining {
        name: "maximum",
        reference: reference::maximum,
        library: raw::maximum,
    },
    Combining {
        name: "sum_maps",
        reference: reference::sum_maps,
        library: raw::sum_maps,
    },
    Combining {
        name: "difference",
        reference: reference::difference,
        library: raw::difference,
    },
];

/// Two files.
struct Pair {
    what: String,
    a: Vec<u8>,
    b: Vec<u8>,
}

impl Pair {
    fn of_lists(what: impl Into<String>, a: &[u32], b: &[u32]) -> Pair {
        Pair {
            what: what.into(),
            a: encode(a),
            b: encode(b),
        }
    }
}

impl Subject for Pair {
    fn describe(&self) -> String {
        let Pair { what, a, b } = self;
        format!("{what}, {} and {} bytes", a.len(), b.len())
    }

    fn compare(&self, judge: &mut Judge, rng: &mut Rng) {
        let mut pair = ReadOnlyPair::new(rng, &self.a, &self.b);
        for routine in &COMBINING {
            pair.combine(judge, rng, routine);
        }
        pair.signed_difference(judge, rng);
        pair.figures(judge, rng.pick(&THRESHOLDS));
    }
}

/// Two files that the library only reads; a file beside itself is the same memory.
struct ReadOnlyPair {
    a: ReadOnly<u8>,
    b: Option<ReadOnly<u8>>,
}

impl ReadOnlyPair {
    fn new(rng: &mut Rng, a: &[u8], b: &[u8]) -> ReadOnlyPair {
        let mut guard = |file| ReadOnly::new(rng, file, reference::SENTINEL);
        ReadOnlyPair {
            a: guard(a),
            b: (a != b).then(|| guard(b)),
        }
    }

    fn second(&self) -> &ReadOnly<u8> {
        self.b.as_ref().unwrap_or(&self.a)
    }

    fn contents(&self) -> (&[u8], &[u8]) {
        (self.a.contents(), self.second().contents())
    }

    fn original(&self) -> (&[u8], &[u8]) {
        (self.a.original(), self.second().original())
    }

    fn combine(&mut self, judge: &mut Judge, rng: &mut Rng, routine: &Combining) {
        let (a, b) = self.original();
        let answer = (routine.reference)(a, b, judge.scratch());
        for capacity in file_capacities(rng, &answer) {
            let call = Call::with_capacity(routine.name, capacity);
            let ((a, b), (ours_a, ours_b)) = (self.original(), self.contents());
            judge.file(
                &call,
                capacity,
                |out| (routine.reference)(a, b, out),
                |out, summary, refusal| (routine.library)(ours_a, ours_b, out, summary, refusal),
            );
            self.settle(judge, &call);
        }
    }

    fn signed_difference(&mut self, judge: &mut Judge, rng: &mut Rng) {
        let n = reference::check(self.a.original()).map_or(9, |summary| summary.n);
        for capacity in capacities(rng, n as usize) {
            let call = Call::with_capacity("signed_difference", capacity);
            let ((a, b), (ours_a, ours_b)) = (self.original(), self.contents());
            judge.buffer(
                &call,
                capacity,
                |out| reference::signed_difference(a, b, out),
                |out, count, refusal| raw::signed_difference(ours_a, ours_b, out, count, refusal),
            );
            self.settle(judge, &call);
        }
    }

    /// The figures, to the bit, beside the nearest floats to their fractions.
    fn figures(&mut self, judge: &mut Judge, t: u32) {
        let ((a, b), (ours_a, ours_b)) = (self.original(), self.contents());
        let calls = [
            Call::new("bray_curtis", ""),
            Call::new("jaccard", format!(" at {t}")),
        ];
        let parts = [
            reference::bray_curtis_parts(a, b),
            reference::jaccard_parts(a, b, t),
        ];
        let plain = [reference::bray_curtis(a, b), reference::jaccard(a, b, t)];
        let library: [&dyn Fn(&mut f64, &mut Refusal) -> u64; 2] = [
            &|figure, refusal| raw::bray_curtis(ours_a, ours_b, figure, refusal),
            &|figure, refusal| raw::jaccard(ours_a, ours_b, t, figure, refusal),
        ];
        for (i, call) in calls.iter().enumerate() {
            let answer = parts[i].map(|parts| reference::nearest_quotient(parts).to_bits());
            judge.same(call, answer, plain[i].map(f64::to_bits));
            judge.value(call, answer, |bits, refusal| {
                let mut figure = f64::from_bits(*bits);
                let number = library[i](&mut figure, refusal);
                *bits = figure.to_bits();
                number
            });
        }
        calls.iter().for_each(|call| self.settle(judge, call));
    }

    fn settle(&mut self, judge: &mut Judge, call: &Call) {
        self.a.settle(judge, call, "the first file");
        if let Some(b) = &mut self.b {
            b.settle(judge, call, "the second file");
        }
    }
}

fn worked_examples(run: &mut Run) {
    for (number, a) in lists::EXAMPLES.into_iter().enumerate() {
        for (inner, b) in lists::EXAMPLES.into_iter().enumerate() {
            run.case("worked example of two", 4 * number + inner, |_| {
                Pair::of_lists(format!("{a:?} and {b:?}"), a, b)
            });
        }
    }
}

fn small_pairs(run: &mut Run) {
    for number in 0..6_000 {
        run.case("small pair", number, |rng| {
            let n = lists::size(rng);
            let a = lists::mixed(rng, n);
            let b = lists::beside(rng, &a);
            match rng.below(2) {
                0 => Pair::of_lists("small lists", &a, &b),
                _ => Pair::of_lists("small lists", &b, &a),
            }
        });
    }
}

/// Sums above the largest distance at one slot or several: the first, the last, random ones, all.
fn sums_above(run: &mut Run) {
    for number in 0..2_000 {
        run.case("sums above", number, |rng| {
            let n = lists::size(rng).max(1);
            let mut a = lists::mixed(rng, n);
            let mut b: Vec<u32> = a.iter().map(|x| (u32::MAX - x).min(256)).collect();
            let slots = match rng.below(5) {
                0 => vec![0],
                1 => vec![n - 1],
                2 => (0..n).collect(),
                _ => (0..2 + rng.below(3)).map(|_| rng.below(n)).collect(),
            };
            for &slot in &slots {
                let least = 1 + rng.pick(&[0, 1, 253, 254, 255, u32::MAX - 1]);
                a[slot] = a[slot].max(least);
                b[slot] = u32::MAX - rng.below(a[slot] as usize) as u32;
            }
            Pair::of_lists(format!("above at slots {slots:?}"), &a, &b)
        });
    }
}

/// Makes the two distances of a slot.
type Kind = fn(&mut Rng) -> (u32, u32);

/// Kinds of slots, by the results that are in overflow there.
const KINDS: [Kind; 6] = [
    |rng| (600 + wide(rng), 255 + below(rng, 90)), // minimum, maximum, sum, difference
    |rng| (255 + below(rng, 255), 255),            // minimum, maximum, sum
    |rng| (510 + wide(rng), below(rng, 255)),      // maximum, sum, difference
    |rng| (below(rng, 255), 255 + wide(rng)),      // maximum, sum
    |rng| (128 + below(rng, 127), 127 + below(rng, 128)), // sum
    |rng| (below(rng, 128), below(rng, 127)),      // none
];

/// The kinds of slots where the results of minimum, maximum, sum and difference are in overflow.
const IN_OVERFLOW: [&[usize]; 4] = [&[0, 1], &[0, 1, 2, 3], &[0, 1, 2, 3, 4], &[0, 2]];

fn below(rng: &mut Rng, bound: usize) -> u32 {
    rng.below(bound) as u32
}

/// A number of any size whose double is a distance.
fn wide(rng: &mut Rng) -> u32 {
    let bits = rng.below(31);
    below(rng, 1 << bits)
}

/// Results with as many overflow entries as change the step: a minimum or difference of maps with
/// more, a maximum or sum of maps with fewer.
fn overflow_counts(run: &mut Run) {
    let mut number = 0;
    for kinds in IN_OVERFLOW {
        for k in lists::STEP_BORDERS {
            for others in [1, 200, 2_500] {
                for scattered in [false, true] {
                    run.case("pair with an overflow count", number, |rng| {
                        counted_pair(rng, kinds, k, others, scattered)
                    });
                    number += 1;
                }
            }
        }
    }
}

/// Lists with `k` slots of the given kinds, and fewer than `others` of each other kind.
fn counted_pair(rng: &mut Rng, kinds: &[usize], k: usize, others: usize, scattered: bool) -> Pair {
    let mut slots: Vec<usize> = (0..k).map(|_| rng.pick(kinds)).collect();
    for kind in (0..KINDS.len()).filter(|kind| !kinds.contains(kind)) {
        slots.extend(vec![kind; rng.below(others)]);
    }
    if scattered {
        for i in (1..slots.len()).rev() {
            slots.swap(i, rng.below(i + 1));
        }
    }
    let (a, b): (Vec<u32>, Vec<u32>) = slots.iter().map(|&kind| KINDS[kind](rng)).unzip();
    Pair::of_lists(format!("{k} slots of kinds {kinds:?}"), &a, &b)
}

fn largest_pairs(run: &mut Run) {
    let n = reference::MAX_SLOTS as usize;
    run.case("largest pair", 0, |_| {
        Pair::of_lists("all at 254 and all at 1", &vec![254; n], &vec![1; n])
    });
    run.case("largest pair", 1, |rng| {
        let a = lists::with_overflow(rng, n, n / 100, Spread::Scattered);
        let b = lists::beside(rng, &a);
        Pair::of_lists("1 % in overflow", &a, &b)
    });
    run.case("largest pair", 2, |rng| {
        let mut a = lists::with_overflow(rng, n, 0, Spread::Front);
        a[n - 1] = u32::MAX;
        let b = vec![1; n];
        Pair::of_lists("a sum above at the last slot", &a, &b)
    });
    run.case("largest pair", 3, |_| {
        Pair::of_lists("sizes differ by one", &vec![9; n], &vec![9; n - 1])
    });
    for (number, distance) in [u32::MAX, 0].into_iter().enumerate() {
        run.case("largest sum of a pair", number, |_| {
            let what = format!("all at the largest distance and all at {distance}");
            Pair::of_lists(what, &vec![u32::MAX; n], &vec![distance; n])
        });
    }
}

/// Sound maps of different sizes, some with sums above the largest distance.
fn unequal_sizes(run: &mut Run) {
    const SIZES: [(usize, usize); 8] = [
        (0, 1),
        (1, 2),
        (4, 5),
        (63, 64),
        (64, 65),
        (3, 700),
        (255, 256),
        (2_048, 2_060),
    ];
    for (number, (n, m)) in SIZES.into_iter().enumerate() {
        for inner in 0..40 {
            run.case("unequal sizes", 40 * number + inner, |rng| {
                let (a, b) = (lists::mixed(rng, n), lists::mixed(rng, m));
                match rng.below(2) {
                    0 => Pair::of_lists("sizes differ", &a, &b),
                    _ => Pair::of_lists("sizes differ", &b, &a),
                }
            });
        }
    }
}

/// The sound files to damage: slots and overflow entries of both, and how many cases with both
/// damaged each gets.
const BASES: [(usize, usize, usize); 6] = [
    (0, 0, 500),
    (1, 1, 1_000),
    (4, 2, 2_000),
    (65, 3, 2_000),
    (300, 120, 1_000),
    (2_100, 2_049, 200),
];

/// Either file damaged, then both; the other one has the same size, or another one.
fn damaged_pairs(run: &mut Run) {
    for (number, (n, k, count)) in BASES.into_iter().enumerate() {
        let mut rng = Rng::new(case_seed(run.seed, "base of a pair", number));
        let mut base = |n| encode(&lists::with_overflow(&mut rng, n, k, Spread::Scattered));
        let (base, sound, longer) = (base(n), base(n), base(n + 1));
        let summary = reference::check(&base).expect("a list's file is sound");
        let single = damage::every_field(&base, &summary);
        let name = format!("{n} slots, {k} in overflow");
        for (case, fault) in single.iter().enumerate() {
            run.case(&format!("first file damaged, {name},"), case, |rng| {
                let b = rng.pick(&[&sound, &longer]);
                damaged(&base, &[fault], b, &[])
            });
            run.case(&format!("second file damaged, {name},"), case, |rng| {
                let a = rng.pick(&[&sound, &longer]);
                damaged(a, &[], &base, &[fault])
            });
        }
        for case in 0..count {
            run.case(&format!("both files damaged, {name},"), case, |rng| {
                let [a, b] = [0; 2].map(|_| &single[rng.below(single.len())]);
                damaged(&base, &[a], &base, &[b])
            });
        }
    }
}

fn damaged(a: &[u8], in_a: &[&Damage], b: &[u8], in_b: &[&Damage]) -> Pair {
    let [mut a, mut b] = [a, b].map(<[u8]>::to_vec);
    in_a.iter().for_each(|fault| fault.apply(&mut a));
    in_b.iter().for_each(|fault| fault.apply(&mut b));
    Pair {
        what: format!("{in_a:?} in the first, {in_b:?} in the second"),
        a,
        b,
    }
}
