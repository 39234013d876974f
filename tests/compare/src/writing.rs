//! Cases about writing: a list to its file, and parts to theirs.

use crate::call::{file_capacities, Call};
use crate::judge::Judge;
use crate::parts::{every_fault, Fault, Parts};
use crate::read_only::ReadOnly;
use crate::run::{Run, Subject};
use compare::lists::{self, Spread};
use compare::rng::{case_seed, Rng};
use pciv::{raw, Entry};

/// All groups of such cases. Lists and their parts are compared with their files, too.
pub fn run_all(run: &mut Run) {
    too_many_distances(run);
    long_primaries(run);
    faulty_parts(run);
    random_parts(run);
}

/// Compares write on a list.
pub fn compare_write(judge: &mut Judge, rng: &mut Rng, list: &[u32]) {
    let answer = reference::write(list, judge.scratch());
    let mut list = ReadOnly::new(rng, list, 300);
    for capacity in file_capacities(rng, &answer) {
        let call = Call::with_capacity("write", capacity);
        judge.file(
            &call,
            capacity,
            |out| reference::write(list.original(), out),
            |out, summary, refusal| raw::write(list.contents(), out, summary, refusal),
        );
        list.settle(judge, &call, "the list");
    }
}

/// Compares close, and close_entries where slots and distances are pairs.
impl Subject for Parts {
    fn describe(&self) -> String {
        format!("{self:?}")
    }

    fn compare(&self, judge: &mut Judge, rng: &mut Rng) {
        let Parts {
            primary,
            slots,
            distances,
        } = self;
        let answer = reference::close(primary, slots, distances, judge.scratch());
        let capacities = file_capacities(rng, &answer);
        let mut primary = ReadOnly::new(rng, primary, reference::SENTINEL);
        self.compare_close(judge, rng, &mut primary, &capacities);
        if slots.len() == distances.len() {
            self.compare_close_entries(judge, rng, &mut primary, &capacities);
        }
    }
}

impl Parts {
    fn compare_close(
        &self,
        judge: &mut Judge,
        rng: &mut Rng,
        primary: &mut ReadOnly<u8>,
        capacities: &[usize],
    ) {
        let mut slots = ReadOnly::new(rng, &self.slots, u64::MAX);
        let mut distances = ReadOnly::new(rng, &self.distances, 300);
        for &capacity in capacities {
            let call = Call::with_capacity("close", capacity);
            judge.file(
                &call,
                capacity,
                |out| {
                    reference::close(
                        primary.original(),
                        slots.original(),
                        distances.original(),
                        out,
                    )
                },
                |out, summary, refusal| {
                    raw::close(
                        primary.contents(),
                        slots.contents(),
                        distances.contents(),
                        out,
                        summary,
                        refusal,
                    )
                },
            );
            primary.settle(judge, &call, "the primary array");
            slots.settle(judge, &call, "the list of slots");
            distances.settle(judge, &call, "the list of distances");
        }
    }

    fn compare_close_entries(
        &self,
        judge: &mut Judge,
        rng: &mut Rng,
        primary: &mut ReadOnly<u8>,
        capacities: &[usize],
    ) {
        let around = Entry {
            slot: u64::MAX,
            distance: 300,
        };
        let theirs = self.entries(|slot, distance| reference::Entry { slot, distance });
        let ours = self.entries(|slot, distance| Entry { slot, distance });
        let mut ours = ReadOnly::new(rng, &ours, around);
        for &capacity in capacities {
            let call = Call::with_capacity("close_entries", capacity);
            judge.file(
                &call,
                capacity,
                |out| reference::close_entries(primary.original(), &theirs, out),
                |out, summary, refusal| {
                    raw::close_entries(primary.contents(), ours.contents(), out, summary, refusal)
                },
            );
            primary.settle(judge, &call, "the primary array");
            ours.settle(judge, &call, "the list of entries");
        }
    }

    fn entries<E>(&self, entry: impl Fn(u64, u32) -> E) -> Vec<E> {
        let pairs = self.slots.iter().zip(&self.distances);
        pairs
            .map(|(&slot, &distance)| entry(slot, distance))
            .collect()
    }
}

/// A list with more distances than a file may have.
struct TooMany(Vec<u32>);

impl Subject for TooMany {
    fn describe(&self) -> String {
        format!("list of {} distances", self.0.len())
    }

    fn compare(&self, judge: &mut Judge, rng: &mut Rng) {
        compare_write(judge, rng, &self.0);
    }
}

fn too_many_distances(run: &mut Run) {
    let most = reference::MAX_SLOTS as usize;
    for (number, n) in [most + 1, most + 64, 2 * most].into_iter().enumerate() {
        run.case("too many distances", number, |rng| {
            TooMany(lists::mixed(rng, n))
        });
    }
}

/// Primary arrays about the longest, sound but for their length, and with other faults.
fn long_primaries(run: &mut Run) {
    let most = reference::MAX_SLOTS as usize;
    let faults = [
        None,
        Some(Fault::Byte(0, reference::SENTINEL)),
        Some(Fault::Distance(0, 254)),
        Some(Fault::Slots(0)),
    ];
    for (number, n) in [most, most + 1, most + 64].into_iter().enumerate() {
        for (inner, fault) in faults.iter().enumerate() {
            run.case("long primary", 4 * number + inner, |rng| {
                let mut list = lists::with_overflow(rng, n, 3_000, Spread::Back);
                list[0] = 7;
                let mut parts = Parts::of(&list);
                fault.iter().for_each(|fault| fault.apply(&mut parts));
                parts
            });
        }
    }
}

/// The sound parts to put faults into: slots and overflow entries, and how many cases of two faults
/// each gets.
const BASES: [(usize, usize, usize); 7] = [
    (1, 1, 1_000),
    (4, 2, 3_000),
    (5, 5, 3_000),
    (65, 3, 3_000),
    (300, 120, 2_000),
    (2_100, 2_049, 500),
    (5_000, 4_097, 300),
];

fn faulty_parts(run: &mut Run) {
    for (number, (n, k, count)) in BASES.into_iter().enumerate() {
        let mut rng = Rng::new(case_seed(run.seed, "parts", number));
        let base = Parts::of(&lists::with_overflow(&mut rng, n, k, Spread::Scattered));
        let single = every_fault(&base);
        let name = format!("parts of {n} slots, {k} in overflow");
        for (case, fault) in single.iter().enumerate() {
            run.case(&format!("one fault, {name},"), case, |_| {
                Faulty::new(&base, vec![fault.clone()])
            });
        }
        for case in 0..count {
            run.case(&format!("two faults, {name},"), case, |rng| {
                let pair = [0; 2].map(|_| single[rng.below(single.len())].clone());
                Faulty::new(&base, pair.into())
            });
        }
    }
}

/// Parts and the faults that were put into them.
struct Faulty {
    parts: Parts,
    faults: Vec<Fault>,
}

impl Faulty {
    fn new(base: &Parts, faults: Vec<Fault>) -> Faulty {
        let mut parts = base.clone();
        faults.iter().for_each(|fault| fault.apply(&mut parts));
        Faulty { parts, faults }
    }
}

impl Subject for Faulty {
    fn describe(&self) -> String {
        format!("{:?}, {}", self.faults, self.parts.describe())
    }

    fn compare(&self, judge: &mut Judge, rng: &mut Rng) {
        self.parts.compare(judge, rng);
    }
}

fn random_parts(run: &mut Run) {
    for number in 0..10_000 {
        run.case("random parts to close", number, |rng| {
            let mut parts = Parts::random(rng);
            if rng.below(5) == 0 {
                let len = rng.below(parts.distances.len() + 2);
                parts.distances.resize(len, 300);
            }
            parts
        });
    }
}
