//! Cases about repair: sound files, files damaged in every field, counts that are not the file's,
//! overflow entries dropped about the numbers where the sparse index changes, and any bytes.

use crate::call::{capacities, summary_of, told, Answer, Call};
use crate::corrections::corrected;
use crate::damage::{self, ends_and_middle, le64, Damage};
use crate::files::encode;
use crate::judge::Judge;
use crate::parts::Parts;
use crate::read_only::ReadOnly;
use crate::run::{Run, Subject};
use crate::trial::Trial;
use compare::lists::{self, Spread, SPREADS, STEP_BORDERS};
use compare::rng::{case_seed, Rng};
use pciv::{raw, Correction, Repaired, Summary};
use reference::{CORRECTION_LEN, HEADER_LEN, MAX_SLOTS, SENTINEL};

/// All groups of such cases.
pub fn run_all(run: &mut Run) {
    sound_files(run);
    damaged_files(run);
    other_counts(run);
    about_index(run);
    cut_files(run);
    random_parts(run);
    random_bytes(run);
    largest_maps(run);
}

/// A file and the counts that are given for it.
struct Repair {
    what: String,
    file: Vec<u8>,
    n: u64,
    k: u64,
}

impl Repair {
    fn new(what: impl Into<String>, file: Vec<u8>, n: u64, k: u64) -> Repair {
        let what = what.into();
        Repair { what, file, n, k }
    }
}

/// Up to this many slots a repair is tried with every pair of capacities.
const FEW_SLOTS: u64 = 200_000;

impl Subject for Repair {
    fn describe(&self) -> String {
        let Repair { what, file, n, k } = self;
        format!("{what}, {} bytes, n = {n}, k = {k}", file.len())
    }

    fn compare(&self, judge: &mut Judge, rng: &mut Rng) {
        let Repair { file, n, k, .. } = self;
        let mut file = ReadOnly::new(rng, file, SENTINEL);
        let wanted = wanted(file.original(), *n, *k);
        for pair in pairs(rng, &wanted, *n) {
            compare_call(judge, &mut file, (*n, *k), pair);
        }
        if let Ok(wanted) = wanted {
            let Wanted {
                summary,
                out,
                lines,
            } = wanted;
            let met = corrected(file.original(), (*n, *k), &lines);
            judge.corrections.extend(met);
            compare_from_rust(judge, &mut file, (*n, *k), (out.len(), lines.len()));
            compare_result(judge, rng, &summary, &out);
        }
    }
}

/// What a repair has to give.
struct Wanted {
    summary: Summary,
    out: Vec<u8>,
    lines: Vec<[u64; CORRECTION_LEN]>,
}

fn wanted(file: &[u8], n: u64, k: u64) -> Answer<Wanted> {
    // A call that is done has no more slots, and no more entries, than the file has bytes. A line for
    // each of them, seven more, and the longest index are always enough.
    let [slots, entries] = [n, k].map(|count| count.min(file.len() as u64) as usize);
    let mut out = vec![0; HEADER_LEN + slots + 12 * entries + 16 * 2_048];
    let mut numbers = vec![0; CORRECTION_LEN * (slots + entries + 7)];
    let reference::Repaired { summary, lines } =
        reference::repair(file, n, k, &mut out, &mut numbers)?;
    out.truncate(summary.len as usize);
    numbers.truncate(CORRECTION_LEN * lines as usize);
    Ok(Wanted {
        summary: summary_of(summary),
        out,
        lines: numbers.as_chunks().0.to_vec(),
    })
}

/// Capacities of both buffers: exact, generous, one short and none, of the list also two and three
/// short. All pairs of these, or for a long map those with an exact one.
fn pairs(rng: &mut Rng, wanted: &Answer<Wanted>, n: u64) -> Vec<(usize, usize)> {
    let Ok(Wanted { out, lines, .. }) = wanted else {
        return vec![(0, 0), (rng.pick(&[39, 41, 100, 3_000]), rng.below(60))];
    };
    let (len, numbers) = (out.len(), CORRECTION_LEN * lines.len());
    let files = capacities(rng, len);
    let mut lists = capacities(rng, numbers);
    if numbers > 0 {
        lists.extend([numbers - 2, numbers - 3, numbers + 1 + rng.below(3)]);
    }
    let all = |&file: &usize| lists.iter().map(move |&list| (file, list)).collect();
    let pairs: Vec<Vec<(usize, usize)>> = files.iter().map(all).collect();
    let is_tried =
        |&(file, list): &(usize, usize)| n <= FEW_SLOTS || file == len || list == numbers;
    pairs.concat().into_iter().filter(is_tried).collect()
}

/// Compares one call as C makes it.
fn compare_call(
    judge: &mut Judge,
    file: &mut ReadOnly<u8>,
    (n, k): (u64, u64),
    (len, numbers): (usize, usize),
) {
    let call = Call::new("repair", format!(", capacities {len} and {numbers}"));
    let mut done = None;
    judge.buffers(
        &call,
        (len, numbers),
        |out, corrections| {
            let answer = reference::repair(file.original(), n, k, out, corrections);
            let answer = answer.map(|done| (summary_of(done.summary), done.lines));
            done = answer.ok();
            answer
        },
        |out, corrections, (summary, count), refusal| {
            raw::repair(
                file.contents(),
                n,
                k,
                out,
                corrections,
                summary,
                count,
                refusal,
            )
        },
    );
    if let Some((summary, _)) = done {
        judge.sum(call.routine, &summary);
    }
    file.settle(judge, &call, "the file");
}

/// Compares calls as Rust makes them: with an exact list, one that is longer, and one that is a line
/// short.
fn compare_from_rust(
    judge: &mut Judge,
    file: &mut ReadOnly<u8>,
    (n, k): (u64, u64),
    (len, lines): (usize, usize),
) {
    for capacity in [Some(lines), Some(lines + 2), lines.checked_sub(1)] {
        let Some(capacity) = capacity else {
            continue;
        };
        let call = Call::new("repair", format!(" from Rust, {capacity} lines"));
        judge.buffers(
            &call,
            (len, capacity),
            |out, corrections: &mut [Correction]| {
                let mut numbers = vec![0; CORRECTION_LEN * capacity];
                let done = reference::repair(file.original(), n, k, out, &mut numbers)?;
                let (lines, _) = numbers.as_chunks();
                let lines = &lines[..done.lines as usize];
                for (correction, &line) in corrections.iter_mut().zip(lines) {
                    *correction = correction_of(line);
                }
                Ok(Repaired {
                    summary: summary_of(done.summary),
                    lines: lines.len(),
                })
            },
            |out, corrections, repaired, refusal| {
                let answer = pciv::repair(file.contents(), n, k, out, corrections);
                told(answer, repaired, refusal)
            },
        );
        file.settle(judge, &call, "the file");
    }
}

/// A line in the library's type.
fn correction_of([kind, place, before, after]: [u64; CORRECTION_LEN]) -> Correction {
    Correction {
        kind,
        place,
        before,
        after,
    }
}

/// A result, which is what the library gave, is checked and read, and repaired again with its own
/// counts, which gives itself and no lines.
fn compare_result(judge: &mut Judge, rng: &mut Rng, summary: &Summary, out: &[u8]) {
    let checked = reference::check(out).map(summary_of);
    judge.same(
        &"the reference's check of the result",
        Ok(*summary),
        checked,
    );
    let mut trial = Trial::new(judge, rng, out);
    trial.check();
    trial.scan(summary.n as usize);

    let call = Call::new("repair", " of the result");
    let mut file = ReadOnly::new(rng, out, SENTINEL);
    judge.buffers(
        &call,
        (out.len() + rng.below(3), rng.below(3)),
        |again, _: &mut [u64]| {
            again[..out.len()].copy_from_slice(out);
            Ok((*summary, 0))
        },
        |again, corrections, (summary, count), refusal| {
            let (file, n, k) = (file.contents(), slots_of(out), entries_of(out));
            raw::repair(file, n, k, again, corrections, summary, count, refusal)
        },
    );
    file.settle(judge, &call, "the file");
}

/// The counts that the header of a sound file has.
fn slots_of(file: &[u8]) -> u64 {
    le64(&file[8..])
}

fn entries_of(file: &[u8]) -> u64 {
    le64(&file[16..])
}

fn sound_files(run: &mut Run) {
    for number in 0..1_000 {
        run.case("sound file to repair", number, |rng| {
            let n = lists::size(rng);
            sound("list", lists::mixed(rng, n))
        });
    }
    for (number, k) in [0, 1].into_iter().chain(STEP_BORDERS).enumerate() {
        for (inner, spread) in SPREADS.into_iter().enumerate() {
            run.case(
                "sound file to repair, overflow count",
                3 * number + inner,
                |rng| {
                    let n = k + rng.below(3_000);
                    sound("list", lists::with_overflow(rng, n, k, spread))
                },
            );
        }
    }
}

/// A sound file with its own counts.
fn sound(what: &str, list: Vec<u32>) -> Repair {
    let file = encode(&list);
    let (n, k) = (slots_of(&file), entries_of(&file));
    Repair::new(what, file, n, k)
}

/// The sound files to damage: slots and overflow entries, and how many cases of two faults and of
/// random flips each gets.
const BASES: [(usize, usize, usize); 8] = [
    (0, 0, 200),
    (1, 1, 400),
    (4, 2, 2_000),
    (65, 3, 2_000),
    (300, 120, 1_500),
    (2_100, 2_049, 200),
    (5_000, 4_097, 150),
    (20_000, 2_048, 60),
];

/// One fault in every field with the file's own counts, two faults, and random flips.
fn damaged_files(run: &mut Run) {
    for (number, (n, k, count)) in BASES.into_iter().enumerate() {
        let mut rng = Rng::new(case_seed(run.seed, "file to repair", number));
        let base = encode(&lists::with_overflow(&mut rng, n, k, Spread::Scattered));
        let summary = reference::check(&base).expect("a list's file is sound");
        let single = damage::every_field(&base, &summary);
        let name = format!("{n} slots, {k} in overflow");
        for (case, damage) in single.iter().enumerate() {
            run.case(&format!("repair of one fault, {name},"), case, |_| {
                damaged(&base, std::slice::from_ref(damage))
            });
        }
        for case in 0..count {
            run.case(&format!("repair of two faults, {name},"), case, |rng| {
                let pair = [0; 2].map(|_| single[rng.below(single.len())].clone());
                damaged(&base, &pair)
            });
            run.case(&format!("repair of random flips, {name},"), case, |rng| {
                damaged(&base, &damage::random_flips(rng, &base))
            });
        }
    }
}

/// A sound file with faults, and the counts that it had.
fn damaged(base: &[u8], faults: &[Damage]) -> Repair {
    let mut file = base.to_vec();
    for fault in faults {
        fault.apply(&mut file);
    }
    Repair::new(
        format!("{faults:?}"),
        file,
        slots_of(base),
        entries_of(base),
    )
}

/// Counts that are given for files with others: with a k that is too large, bytes of the index are read
/// as entries, with another n the bytes of entries as slots.
fn other_counts(run: &mut Run) {
    for (number, (n, k, _)) in BASES.into_iter().enumerate() {
        let mut rng = Rng::new(case_seed(run.seed, "counts to repair by", number));
        let base = encode(&lists::with_overflow(&mut rng, n, k, Spread::Scattered));
        let mut case = 0;
        for given_n in beside(n as u64) {
            for given_k in beside(k as u64).chain(beside(given_n)) {
                let group = format!("repair by other counts, {n} slots, {k} in overflow,");
                run.case(&group, case, |rng| {
                    let mut file = base.clone();
                    let more = rng.pick(&[0, 0, 1, 12, 600]);
                    file.extend(rng.bytes(more));
                    Repair::new("counts", file, given_n, given_k)
                });
                case += 1;
            }
        }
    }
}

/// A count, those next to it, and those at a border.
fn beside(count: u64) -> impl Iterator<Item = u64> {
    let near = [
        count,
        count.wrapping_sub(1),
        count.wrapping_add(1),
        count.wrapping_add(12),
        count / 2,
    ];
    let borders = [0, MAX_SLOTS, MAX_SLOTS + 1, 1 << 32, 1 << 63, u64::MAX];
    near.into_iter().chain(borders)
}

/// What stands behind the entries.
#[derive(Clone, Copy, Debug)]
enum Tail {
    /// The index of the entries that are kept.
    Right,
    /// The index of the sound file, before entries were damaged.
    Former,
    /// The right one, with a byte changed at the front, in the middle, at the end.
    Changed(usize),
    /// The right one and some bytes more, or some bytes fewer.
    Longer(usize),
    Shorter(usize),
}

const TAILS: [Tail; 11] = [
    Tail::Right,
    Tail::Former,
    Tail::Changed(0),
    Tail::Changed(1),
    Tail::Changed(2),
    Tail::Longer(1),
    Tail::Longer(16),
    Tail::Longer(5_000),
    Tail::Shorter(1),
    Tail::Shorter(16),
    Tail::Shorter(usize::MAX),
];

/// Numbers of entries kept about those where the step changes, with some more that are dropped.
fn about_index(run: &mut Run) {
    let mut number = 0;
    for kept in STEP_BORDERS {
        for dropped in [0, 1, 7] {
            for spread in SPREADS {
                for tail in TAILS {
                    run.case("repair about an overflow count", number, |rng| {
                        kept_of(rng, kept, dropped, spread, tail)
                    });
                    number += 1;
                }
            }
        }
    }
}

fn kept_of(rng: &mut Rng, kept: usize, dropped: usize, spread: Spread, tail: Tail) -> Repair {
    let (k, inline) = (kept + dropped, rng.below(300));
    let n = k + inline;
    let mut list = lists::with_overflow(rng, n, k, spread);
    let former = encode(&list);
    let entries = HEADER_LEN + n;
    let index = entries + 12 * k;
    let mut file = former.clone();
    let mut numbers: Vec<usize> = (0..k).collect();
    for _ in 0..dropped {
        let number = numbers.swap_remove(rng.below(numbers.len()));
        let at = entries + 12 * number;
        let slot = le64(&file[at..]) as usize;
        match rng.below(3) {
            0 => Damage::Write(at, vec![0xFF; 8]),
            1 => Damage::Write(at + 8, vec![254, 0, 0, 0]),
            _ => Damage::Write(HEADER_LEN + slot, vec![7]),
        }
        .apply(&mut file);
        list[slot] = 254;
    }
    let right = encode(&list);
    let right = &right[entries + 12 * kept..];
    file.truncate(index);
    match tail {
        Tail::Right => file.extend(right),
        Tail::Former => file.extend(&former[index..]),
        Tail::Changed(place) => {
            file.extend(right);
            if let Some(last) = right.len().checked_sub(1) {
                file[index + [0, last / 2, last][place]] ^= 1 << rng.below(8);
            }
        }
        Tail::Longer(more) => {
            file.extend(right);
            file.extend(vec![rng.byte(); more]);
        }
        Tail::Shorter(fewer) => file.extend(&right[..right.len().saturating_sub(fewer)]),
    }
    let what = format!("{kept} kept of {k} ({spread:?}), index {tail:?}");
    Repair::new(what, file, n as u64, k as u64)
}

/// Files that end at the end of the entries, a byte before it, and about other borders; and files that
/// are longer than the result.
fn cut_files(run: &mut Run) {
    for (number, (n, k, _)) in BASES.into_iter().enumerate() {
        let mut rng = Rng::new(case_seed(run.seed, "file to cut", number));
        let base = encode(&lists::with_overflow(&mut rng, n, k, Spread::Scattered));
        let end = HEADER_LEN + n + 12 * k;
        let lens = [
            0,
            1,
            HEADER_LEN - 1,
            HEADER_LEN,
            HEADER_LEN + n,
            end.saturating_sub(12),
            end - 1,
            end,
            end + 1,
            base.len() - 1,
            base.len() + 1,
            base.len() + 16,
            base.len() + 1_000,
        ];
        for (case, len) in lens.into_iter().enumerate() {
            run.case(
                &format!("repair of {n} slots, {k} in overflow, cut,"),
                case,
                |rng| {
                    let mut file = base.clone();
                    file.resize(len, rng.byte());
                    Repair::new("cut or longer", file, n as u64, k as u64)
                },
            );
        }
    }
}

/// Few primary bytes and entries, which may fit each other, behind any header and before any bytes.
fn random_parts(run: &mut Run) {
    for number in 0..10_000 {
        run.case("random parts to repair", number, |rng| {
            let Parts {
                primary,
                mut slots,
                distances,
            } = Parts::random(rng);
            let (n, k) = (primary.len() as u64, slots.len() as u64);
            if k > 0 && rng.below(3) == 0 {
                let at = rng.below(slots.len());
                slots[at] = rng.pick(&[0, n, n + 1, n.wrapping_sub(1), 1 << 32, u64::MAX]);
            }
            let mut file = b"PCIV\0\0\0\0".to_vec();
            for count in [n, k, 0, 0] {
                file.extend(count.to_le_bytes());
            }
            if rng.below(2) == 0 {
                let (at, byte) = (rng.below(HEADER_LEN), rng.byte());
                file[at] = byte;
            }
            file.extend(primary);
            for (slot, distance) in slots.iter().zip(distances) {
                file.extend(slot.to_le_bytes());
                file.extend(distance.to_le_bytes());
            }
            if rng.below(3) == 0 {
                let len = rng.below(30);
                file.extend(rng.bytes(len));
            }
            // Mostly as many entries as there are, else fewer, or more than there is space for.
            let k = match rng.below(4) {
                0 => rng.below(n as usize + 2) as u64,
                _ => k,
            };
            Repair::new(format!("random {file:?}"), file, n, k)
        });
    }
}

fn random_bytes(run: &mut Run) {
    for number in 0..3_000 {
        run.case("random bytes to repair", number, |rng| {
            let len = rng.below(160);
            let file = match rng.below(2) {
                0 => rng.bytes(len),
                _ => (0..len).map(|_| rng.pick(&[0, 1, 2, 255])).collect(),
            };
            let (n, k) = (rng.below(100) as u64, rng.below(10) as u64);
            Repair::new(format!("random {file:?}"), file, n, k)
        });
    }
}

/// The largest map: sound with all, few and no slots in overflow, and at the largest distance; every
/// byte 255 without an entry; the ends and the middle of its entries dropped; one slot more.
fn largest_maps(run: &mut Run) {
    let n = MAX_SLOTS as usize;
    for (number, k) in [n, n / 100, 0].into_iter().enumerate() {
        run.case("repair of the largest map", number, |rng| {
            sound("list", lists::with_overflow(rng, n, k, Spread::Scattered))
        });
        run.case("repair of the largest map", 3 + number, |rng| {
            let mut file = encode(&lists::with_overflow(rng, n, k, Spread::Scattered));
            for entry in ends_and_middle(k) {
                file[HEADER_LEN + n + 12 * entry + 7] = 1;
            }
            file[16..HEADER_LEN].fill(0xFF);
            Repair::new("entries dropped", file, n as u64, k as u64)
        });
    }
    run.case("repair of the largest map", 6, |_| {
        sound("all at the largest distance", vec![u32::MAX; n])
    });
    run.case("repair of the largest map", 7, |_| {
        let file = vec![SENTINEL; HEADER_LEN + n];
        Repair::new("all bytes 255", file, n as u64, 0)
    });
    run.case("repair of the largest map", 8, |_| {
        let file = vec![SENTINEL; HEADER_LEN + 13 * n];
        Repair::new("all bytes and entries 255", file, n as u64, n as u64)
    });
    run.case("repair of the largest map", 9, |_| {
        let file = vec![0; HEADER_LEN + n + 1];
        Repair::new("one slot more", file, n as u64 + 1, 0)
    });
}
