//! Cases about masks: of a map, of masks, and files from masks.

use crate::call::{capacities, file_capacities, Answer, Call};
use crate::files::encode;
use crate::judge::Judge;
use crate::read_only::ReadOnly;
use crate::run::{Run, Subject};
use crate::trial::Trial;
use compare::lists::{self, Spread};
use compare::rng::Rng;
use pciv::{raw, Refusal, Summary};
use reference::{mask_len, Comparison};

/// Thresholds next to a rule's border.
pub const THRESHOLDS: [u32; 8] = [0, 1, 200, 254, 255, 256, 300, u32::MAX];

/// All groups of such cases.
pub fn run_all(run: &mut Run) {
    thresholds(run);
    zero_distances(run);
    sound_masks(run);
    bits_past_n(run);
    wrong_lengths(run);
    too_many_slots(run);
    masked_files(run);
    overflow_counts(run);
    largest_maps(run);
}

/// A routine that makes a mask of a file.
pub struct Selecting {
    pub name: &'static str,
    pub reference: fn(&[u8], u32, &mut [u64]) -> Answer<u64>,
    pub library: fn(&[u8], u32, &mut [u64], &mut u64, &mut Refusal) -> u64,
}

pub const SELECTING: [Selecting; 5] = [
    Selecting {
        name: "mask_below",
        reference: |file, t, out| reference::threshold(file, Comparison::Below, t, out),
        library: raw::mask_below,
    },
    Selecting {
        name: "mask_at_most",
        reference: |file, t, out| reference::threshold(file, Comparison::AtMost, t, out),
        library: raw::mask_at_most,
    },
    Selecting {
        name: "mask_above",
        reference: |file, t, out| reference::threshold(file, Comparison::Above, t, out),
        library: raw::mask_above,
    },
    Selecting {
        name: "mask_at_least",
        reference: |file, t, out| reference::threshold(file, Comparison::AtLeast, t, out),
        library: raw::mask_at_least,
    },
    Selecting {
        name: "near_mask",
        reference: reference::near_mask,
        library: raw::near_mask,
    },
];

/// A routine that makes a file of a file and a mask.
pub struct Masking {
    pub name: &'static str,
    pub reference: fn(&[u8], &[u64], &mut [u8]) -> Answer<reference::Summary>,
    pub library: fn(&[u8], &[u64], &mut [u8], &mut Summary, &mut Refusal) -> u64,
}

pub const MASKING: [Masking; 2] = [
    Masking {
        name: "keep_masked",
        reference: reference::keep_masked,
        library: raw::keep_masked,
    },
    Masking {
        name: "increment_masked",
        reference: reference::increment_masked,
        library: raw::increment_masked,
    },
];

/// A routine that combines two masks.
struct Combining {
    name: &'static str,
    reference: fn(usize, &[u64], &[u64], &mut [u64]) -> Answer<u64>,
    library: fn(u64, &[u64], &[u64], &mut [u64], &mut u64, &mut Refusal) -> u64,
}

const COMBINING: [Combining; 3] = [
    Combining {
        name: "mask_and",
        reference: reference::mask_and,
        library: raw::mask_and,
    },
    Combining {
        name: "mask_or",
        reference: reference::mask_or,
        library: raw::mask_or,
    },
    Combining {
        name: "mask_xor",
        reference: reference::mask_xor,
        library: raw::mask_xor,
    },
];

/// Two lists of words as masks of `n` slots.
struct Masks {
    n: u64,
    a: Vec<u64>,
    b: Vec<u64>,
}

impl Subject for Masks {
    fn describe(&self) -> String {
        let Masks { n, a, b } = self;
        format!("{n} slots, {} and {} words", a.len(), b.len())
    }

    fn compare(&self, judge: &mut Judge, rng: &mut Rng) {
        let n = self.n as usize;
        let mut guard = |words| ReadOnly::new(rng, words, u64::MAX);
        let (mut a, mut b) = (guard(&self.a), guard(&self.b));
        let len = a.original().len();
        for routine in &COMBINING {
            for capacity in capacities(rng, len) {
                let call = Call::with_capacity(routine.name, capacity);
                judge.buffer(
                    &call,
                    capacity,
                    |out| (routine.reference)(n, a.original(), b.original(), out),
                    |out, count, refusal| {
                        (routine.library)(self.n, a.contents(), b.contents(), out, count, refusal)
                    },
                );
                a.settle(judge, &call, "the first mask");
                b.settle(judge, &call, "the second mask");
            }
        }
        self.one_mask(judge, rng, &mut a);
    }
}

impl Masks {
    /// The calls on the first mask alone.
    fn one_mask(&self, judge: &mut Judge, rng: &mut Rng, mask: &mut ReadOnly<u64>) {
        let n = self.n as usize;
        for capacity in capacities(rng, mask.original().len()) {
            let call = Call::with_capacity("mask_not", capacity);
            judge.buffer(
                &call,
                capacity,
                |out| reference::mask_not(n, mask.original(), out),
                |out, count, refusal| raw::mask_not(self.n, mask.contents(), out, count, refusal),
            );
            mask.settle(judge, &call, "the mask");
        }
        let call = Call::new("set_bits", "");
        let answer = reference::set_bits(n, mask.original());
        judge.value(&call, answer, |out, refusal| {
            raw::set_bits(self.n, mask.contents(), out, refusal)
        });
        mask.settle(judge, &call, "the mask");
        let answer = reference::map_of_mask(n, mask.original(), judge.scratch());
        for capacity in file_capacities(rng, &answer) {
            let call = Call::with_capacity("map_of_mask", capacity);
            judge.file(
                &call,
                capacity,
                |out| reference::map_of_mask(n, mask.original(), out),
                |out, summary, refusal| {
                    raw::map_of_mask(self.n, mask.contents(), out, summary, refusal)
                },
            );
            mask.settle(judge, &call, "the mask");
        }
    }
}

/// A mask of `n` slots: all, none, half or few of them.
pub fn random_mask(rng: &mut Rng, n: usize) -> Vec<u64> {
    let bits: fn(&mut Rng) -> u64 = rng.pick(&[
        |_| u64::MAX,
        |_| 0,
        Rng::word,
        |rng| rng.word() & rng.word() & rng.word() & rng.word(),
        |rng| 1 << rng.below(64),
    ]);
    let mut words: Vec<u64> = (0..mask_len(n)).map(|_| bits(rng)).collect();
    if n % 64 > 0 {
        words[n / 64] &= (1 << (n % 64)) - 1;
    }
    words
}

/// A file and a list of words.
struct Masked {
    what: String,
    file: Vec<u8>,
    mask: Vec<u64>,
}

impl Subject for Masked {
    fn describe(&self) -> String {
        let Masked { what, file, mask } = self;
        format!("{what}, {} bytes, {} words", file.len(), mask.len())
    }

    fn compare(&self, judge: &mut Judge, rng: &mut Rng) {
        Trial::new(judge, rng, &self.file).masked(rng, &self.mask);
    }
}

/// A file and a threshold.
struct Selected {
    file: Vec<u8>,
    t: u32,
}

impl Subject for Selected {
    fn describe(&self) -> String {
        format!("a file of {} bytes at {}", self.file.len(), self.t)
    }

    fn compare(&self, judge: &mut Judge, rng: &mut Rng) {
        Trial::new(judge, rng, &self.file).masks(rng, self.t);
    }
}

/// Every threshold on lists with distances at and next to it.
fn thresholds(run: &mut Run) {
    for (number, t) in THRESHOLDS.into_iter().enumerate() {
        for inner in 0..150 {
            run.case("threshold", 150 * number + inner, |rng| {
                let n = lists::size(rng);
                let mut list = lists::mixed(rng, n);
                for distance in &mut list {
                    if rng.below(3) == 0 {
                        *distance = rng.pick(&[t.saturating_sub(1), t, t.saturating_add(1)]);
                    }
                }
                let file = encode(&list);
                Selected { file, t }
            });
        }
    }
}

/// Zero distances beside others at and next to a threshold, and beside ones, on sizes next to a
/// word's and to two words'.
fn zero_distances(run: &mut Run) {
    const SIZES: [usize; 6] = [63, 64, 65, 127, 128, 129];
    let mut number = 0;
    for n in SIZES {
        for t in THRESHOLDS {
            for _ in 0..12 {
                run.case("masks of zero distances", number, |rng| {
                    let beside = [1, t.saturating_sub(1), t, t.saturating_add(1)];
                    let file = encode(&lists::zeros_and(rng, n, |rng| rng.pick(&beside)));
                    Selected { file, t }
                });
                run.case("masks of zeros and ones", number, |rng| {
                    let file = encode(&lists::zeros_and_ones(rng, n));
                    Selected { file, t }
                });
                number += 1;
            }
        }
    }
}

fn sound_masks(run: &mut Run) {
    for number in 0..2_000 {
        run.case("two masks", number, |rng| {
            let n = lists::size(rng);
            Masks {
                n: n as u64,
                a: random_mask(rng, n),
                b: random_mask(rng, n),
            }
        });
    }
}

/// Each bit past n set, in either mask.
fn bits_past_n(run: &mut Run) {
    for n in (1..200).chain([1_000, 1_048_575]).filter(|n| n % 64 > 0) {
        for bit in n % 64..64 {
            run.case("a bit past n", 64 * n + bit, |rng| {
                let mut masks = Masks {
                    n: n as u64,
                    a: random_mask(rng, n),
                    b: random_mask(rng, n),
                };
                let wrong = match rng.below(2) {
                    0 => &mut masks.a,
                    _ => &mut masks.b,
                };
                wrong[n / 64] |= 1 << bit;
                masks
            });
        }
    }
}

/// A word too few or too many, in either mask or both.
fn wrong_lengths(run: &mut Run) {
    for number in 0..600 {
        run.case("masks of wrong lengths", number, |rng| {
            let n = lists::size(rng);
            let [a, b] = [0; 2].map(|_| {
                let mut words = random_mask(rng, n);
                match rng.below(4) {
                    0 => words.push(0),
                    1 => words.push(rng.word()),
                    2 => drop(words.pop()),
                    _ => (),
                }
                words
            });
            Masks { n: n as u64, a, b }
        });
    }
}

/// n at the limit and above it; there are as many words as n needs, if that can be.
fn too_many_slots(run: &mut Run) {
    let most = reference::MAX_SLOTS;
    let sizes = [
        most - 1,
        most,
        most + 1,
        most + 64,
        1 << 32,
        1 << 63,
        u64::MAX,
    ];
    for (number, n) in sizes.into_iter().enumerate() {
        for inner in 0..3 {
            run.case("many slots", 3 * number + inner, |rng| {
                let slots = n.min(most + 64) as usize;
                Masks {
                    n,
                    a: random_mask(rng, slots),
                    b: random_mask(rng, slots),
                }
            });
        }
    }
}

/// Sound maps with sound masks and with wrong ones.
fn masked_files(run: &mut Run) {
    for number in 0..4_000 {
        run.case("a map and a mask", number, |rng| {
            let n = lists::size(rng);
            let mut list = lists::mixed(rng, n);
            // Mostly no distance is the largest one, which must not grow.
            if rng.below(4) > 0 {
                list.iter_mut().for_each(|d| *d = (*d).min(u32::MAX - 1));
            }
            let slots = match rng.below(8) {
                0 => n + 1 + rng.below(100),
                1 => n.saturating_sub(1 + rng.below(70)),
                _ => n,
            };
            Masked {
                what: format!("{n} slots, a mask of {slots}"),
                file: encode(&list),
                mask: random_mask(rng, slots),
            }
        });
    }
}

/// Results with as many overflow entries as change the step: entries that the mask drops, and
/// distances of 254 that it makes 255.
fn overflow_counts(run: &mut Run) {
    let mut number = 0;
    for k in lists::STEP_BORDERS {
        for others in [1, 300, 2_500] {
            for keeps in [false, true] {
                run.case("masked to an overflow count", number, |rng| {
                    let (chosen, rest) = (k + rng.below(3), rng.below(others));
                    let n = chosen + rest;
                    let distance = if keeps { 255 } else { 254 };
                    let list = lists::placed(
                        rng,
                        n,
                        chosen,
                        Spread::Scattered,
                        |_| distance,
                        |rng| rng.pick(&[0, 253, 254, 255, 300]),
                    );
                    let mut mask = vec![0; mask_len(n)];
                    for slot in (0..n).filter(|&slot| list[slot] == distance).take(k) {
                        mask[slot / 64] |= 1 << (slot % 64);
                    }
                    Masked {
                        what: format!("{k} set slots at {distance}"),
                        file: encode(&list),
                        mask,
                    }
                });
                number += 1;
            }
        }
    }
}

fn largest_maps(run: &mut Run) {
    let n = reference::MAX_SLOTS as usize;
    for (number, t) in [200, 255, 40_000].into_iter().enumerate() {
        run.case("masks of the largest map", number, |rng| {
            let file = encode(&lists::with_overflow(rng, n, n / 100, Spread::Scattered));
            Selected { file, t }
        });
    }
    for number in 0..3 {
        run.case("a mask on the largest map", number, |rng| Masked {
            what: "1 % in overflow".into(),
            file: encode(&lists::with_overflow(rng, n, n / 100, Spread::Scattered)),
            mask: random_mask(rng, n),
        });
    }
    // What the mask keeps, what it leaves, and what it increments.
    let kinds = [
        (u32::MAX, u64::MAX),
        (u32::MAX, 0),
        (u32::MAX - 1, u64::MAX),
    ];
    for (number, (distance, word)) in kinds.into_iter().enumerate() {
        run.case("a mask to the largest sum", number, |_| Masked {
            what: format!("all at {distance}, words {word:#x}"),
            file: encode(&vec![distance; n]),
            mask: vec![word; mask_len(n)],
        });
    }
}
