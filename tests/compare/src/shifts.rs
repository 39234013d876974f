//! Cases about shift.

use crate::files::encode;
use crate::judge::Judge;
use crate::run::{Run, Subject};
use crate::trial::Trial;
use compare::lists::{self, SPREADS};
use compare::rng::Rng;

/// Shifts at borders.
pub const SHIFTS: [i32; 15] = [
    0,
    1,
    -1,
    50,
    -50,
    254,
    -254,
    255,
    -255,
    256,
    -256,
    300,
    -300,
    i32::MAX,
    i32::MIN,
];

/// All groups of such cases.
pub fn run_all(run: &mut Run) {
    border_distances(run);
    zero_distances(run);
    overflow_counts(run);
    largest_sum(run);
}

/// A file and its shift.
struct Shifted {
    file: Vec<u8>,
    by: i32,
}

impl Subject for Shifted {
    fn describe(&self) -> String {
        format!("a file of {} bytes by {}", self.file.len(), self.by)
    }

    fn compare(&self, judge: &mut Judge, rng: &mut Rng) {
        Trial::new(judge, rng, &self.file).shift(rng, self.by);
    }
}

/// Distances whose shift is next to a rule's border.
fn border_distances(run: &mut Run) {
    for (number, by) in SHIFTS.into_iter().enumerate() {
        for inner in 0..100 {
            run.case("shift to a border", 100 * number + inner, |rng| {
                let n = lists::size(rng);
                let file = encode(&lists::about_shift(rng, n, by));
                Shifted { file, by }
            });
        }
    }
}

/// Zero distances among distances whose shift is at a rule's border, and among ones.
fn zero_distances(run: &mut Run) {
    for (number, by) in SHIFTS.into_iter().enumerate() {
        for inner in 0..100 {
            run.case("shift of zero distances", 100 * number + inner, |rng| {
                let n = lists::size(rng);
                let file = encode(&lists::zeros_beside_shifted(rng, n, by));
                Shifted { file, by }
            });
        }
        for inner in 0..20 {
            run.case("shift of zeros and ones", 20 * number + inner, |rng| {
                let n = lists::size(rng);
                let file = encode(&lists::zeros_and_ones(rng, n));
                Shifted { file, by }
            });
        }
    }
}

/// Results with as many overflow entries as change the step, from fewer and from more, with zero
/// distances, which have none.
fn overflow_counts(run: &mut Run) {
    let mut number = 0;
    for by in SHIFTS {
        for k in lists::STEP_BORDERS {
            for spread in SPREADS {
                run.case("shift to an overflow count", number, |rng| {
                    let others = rng.below(4_000);
                    let file = encode(&lists::shifted_to(rng, by, k, others, spread));
                    Shifted { file, by }
                });
                number += 1;
            }
        }
    }
}

/// All distances become the largest one.
fn largest_sum(run: &mut Run) {
    for (number, by) in [0, 1, i32::MAX].into_iter().enumerate() {
        run.case("shift to the largest sum", number, |_| {
            let list = vec![u32::MAX - by as u32; reference::MAX_SLOTS as usize];
            let file = encode(&list);
            Shifted { file, by }
        });
    }
}
