//! A run over all cases: picks them, counts them, concludes.

use crate::judge::Judge;
use crate::{corrections, met, moves, origins, sums, tables};
use compare::rng::{case_seed, Rng};
use std::{env, process};

const DEFAULT_SEED: u64 = 0x5043_4956_0000_0001;

/// A routine, how many files it checks (refusals 1 to 8 of each), and its further refusals with
/// their maps.
type Routine = (&'static str, u64, &'static [(u64, u64)]);

/// What each routine can be refused with. Each must occur in a run.
const ROUTINES: [Routine; 40] = [
    ("check", 1, &[]),
    ("lookup", 1, &[(9, 0)]),
    ("lookup_list", 1, &[(9, 0), (12, 0)]),
    ("scan", 1, &[(12, 0)]),
    ("sum", 1, &[]),
    ("readings", 1, &[]),
    ("write", 0, &[(3, 1), (12, 0)]),
    ("close", 0, &[(3, 1), (6, 1), (7, 1), (12, 0)]),
    ("close_entries", 0, &[(3, 1), (6, 1), (7, 1), (12, 0)]),
    ("minimum", 2, &[(10, 0), (12, 0)]),
    ("maximum", 2, &[(10, 0), (12, 0)]),
    ("sum_maps", 2, &[(10, 0), (11, 0), (12, 0)]),
    ("difference", 2, &[(10, 0), (12, 0)]),
    ("shift", 1, &[(11, 0), (12, 0)]),
    ("signed_difference", 2, &[(10, 0), (12, 0)]),
    ("mask_below", 1, &[(12, 0)]),
    ("mask_at_most", 1, &[(12, 0)]),
    ("mask_above", 1, &[(12, 0)]),
    ("mask_at_least", 1, &[(12, 0)]),
    ("near_mask", 1, &[(12, 0)]),
    ("mask_and", 0, &[(3, 1), (13, 0), (12, 0)]),
    ("mask_or", 0, &[(3, 1), (13, 0), (12, 0)]),
    ("mask_xor", 0, &[(3, 1), (13, 0), (12, 0)]),
    ("mask_not", 0, &[(3, 1), (13, 0), (12, 0)]),
    ("set_bits", 0, &[(3, 1), (13, 0)]),
    ("map_of_mask", 0, &[(3, 1), (13, 0), (12, 0)]),
    ("keep_masked", 1, &[(13, 0), (12, 0)]),
    ("increment_masked", 1, &[(13, 0), (11, 0), (12, 0)]),
    ("bray_curtis", 2, &[(10, 0)]),
    ("jaccard", 2, &[(10, 0)]),
    ("edit", 1, &[(9, 0), (12, 0)]),
    ("edit_list", 1, &[(9, 0), (12, 0)]),
    ("repair", 0, &[(3, 1), (4, 1), (5, 1), (12, 0)]),
    ("bundle_read", 8, &[(14, 0), (10, 0)]),
    ("bundle_row", 8, &[(14, 0), (10, 0), (9, 0)]),
    ("bundle_nearest", 8, &[(14, 0), (10, 0), (12, 0)]),
    ("bundle_write", 8, &[(14, 0), (10, 0), (12, 0)]),
    ("fill_table", 0, &[(19, 0)]),
    ("map_of_frame", 0, &[(3, 1), (12, 0)]),
    ("report", 0, &[(12, 0)]),
];

/// What a case is about.
pub trait Subject {
    /// In words, for the account of a difference.
    fn describe(&self) -> String;

    /// Makes the calls.
    fn compare(&self, judge: &mut Judge, rng: &mut Rng);
}

pub struct Run {
    pub seed: u64,
    only: Option<u64>,
    cases: u64,
    judge: Judge,
}

impl Run {
    pub fn from_environment() -> Run {
        Run {
            seed: number_from("PCIV_SEED").unwrap_or(DEFAULT_SEED),
            only: number_from("PCIV_CASE"),
            cases: 0,
            judge: Judge::default(),
        }
    }

    /// Runs one case unless another one was picked.
    pub fn case<S: Subject>(
        &mut self,
        group: &str,
        number: usize,
        make: impl FnOnce(&mut Rng) -> S,
    ) {
        let seed = case_seed(self.seed, group, number);
        if self.only.is_some_and(|only| only != seed) {
            return;
        }
        let mut rng = Rng::new(seed);
        let subject = make(&mut rng);
        self.cases += 1;
        self.judge.case = format!(
            "{group} {number}, PCIV_SEED={:#x} PCIV_CASE={seed:#x}\n  about:    {}",
            self.seed,
            subject.describe()
        );
        subject.compare(&mut self.judge, &mut rng);
        if self.judge.gives_up() {
            process::exit(self.conclude());
        }
    }

    /// Prints the verdict; answers the exit code.
    pub fn conclude(&self) -> i32 {
        println!(
            "compare: {} cases, {} calls, seed {:#x}, {} differences",
            self.cases, self.judge.calls, self.seed, self.judge.differences
        );
        if self.judge.differences > 0 {
            return 1;
        }
        match self.gap() {
            Some(gap) => {
                println!("compare: {gap}");
                1
            }
            None => 0,
        }
    }

    /// What a run without differences has failed to try.
    fn gap(&self) -> Option<String> {
        if let Some(only) = self.only {
            return (self.cases == 0).then(|| format!("no case has the seed {only:#x}"));
        }
        let missing = |outcome: &_| !self.judge.outcomes.contains(outcome);
        if let Some((routine, number, map)) = outcomes().find(missing) {
            return Some(format!("no call of {routine} gave {number} with map {map}"));
        }
        let missing = |stored: &_| !self.judge.stored.contains(stored);
        if let Some((routine, stored)) = origins::all_stored().find(missing) {
            return Some(format!("no call of {routine} found {stored:?}"));
        }
        let missing = |moves: &_| !self.judge.moves.contains(moves);
        if let Some((routine, moves)) = moves::all_moves().find(missing) {
            return Some(format!("no call of {routine} met {moves:?}"));
        }
        let missing = |sum: &_| !self.judge.sums.contains(sum);
        if let Some((routine, sum)) = sums::all_sums().find(missing) {
            return Some(format!("no summary of {routine} had the sum {sum:?}"));
        }
        let missing = |change: &_| !self.judge.changes.contains(change);
        if let Some((routine, change)) = sums::all_changes().find(missing) {
            return Some(format!("no call of {routine} met for its sum {change:?}"));
        }
        let missing = |corrected: &_| !self.judge.corrections.contains(corrected);
        if let Some(corrected) = corrections::all_corrected().find(missing) {
            return Some(format!("no repair had to correct {corrected:?}"));
        }
        let missing = |met: &_| !self.judge.bundles.contains(met);
        if let Some(met) = met::all_met().find(missing) {
            return Some(format!("no bundle met {met:?}"));
        }
        let missing = |met: &_| !self.judge.frames.contains(met);
        let met = tables::all_met().find(missing)?;
        Some(format!("no map of a frame met {met:?}"))
    }
}

/// The outcomes that must occur: each routine done (0), and its refusals.
fn outcomes() -> impl Iterator<Item = (&'static str, u64, u64)> {
    ROUTINES.into_iter().flat_map(|(routine, files, others)| {
        let of_files = (1..=files).flat_map(|map| (1..=8).map(move |number| (number, map)));
        let all = [(0, 0)].into_iter().chain(of_files);
        all.chain(others.iter().copied())
            .map(move |(number, map)| (routine, number, map))
    })
}

/// A number from the environment, decimal or hexadecimal with 0x.
fn number_from(variable: &str) -> Option<u64> {
    let text = env::var(variable).ok()?;
    let number = match text.strip_prefix("0x") {
        Some(digits) => u64::from_str_radix(digits, 16),
        None => text.parse(),
    };
    Some(number.unwrap_or_else(|_| panic!("{variable} is not a number: {text}")))
}
