//! Times contestants in turns.

use std::hint::black_box;
use std::time::{Duration, Instant};

/// Rounds of a race, which is run once in each pass over the calls.
pub const ROUNDS: u32 = 8;
/// A round of a contestant takes at least about this long, so that the clock does not matter.
const ROUND_TIME: Duration = Duration::from_micros(200);

/// Makes a call some times over, after one that is not timed, and tells how long they took.
pub type Contestant<'a> = Box<dyn FnMut(u32) -> Duration + 'a>;

/// The contestant that makes a call of this program.
pub fn contestant<'a>(mut call: impl FnMut() + 'a) -> Contestant<'a> {
    Box::new(move |repeats| {
        call();
        let start = Instant::now();
        for _ in 0..repeats {
            call();
        }
        start.elapsed()
    })
}

/// Microseconds a call of each contestant in its best round; none for one that is missing.
pub fn race<const N: usize>(mut contestants: [Option<Contestant>; N]) -> [Option<f64>; N] {
    let repeats = contestants.each_mut().map(|contestant| {
        let mut repeats = 1;
        while let Some(time) = contestant {
            if time(repeats) >= ROUND_TIME {
                break;
            }
            repeats *= 2;
        }
        repeats
    });
    let mut best = [None; N];
    for _ in 0..ROUNDS {
        for i in 0..N {
            if let Some(time) = &mut contestants[i] {
                let time = time(repeats[i]).as_secs_f64() * 1e6 / f64::from(repeats[i]);
                best[i] = Some(best[i].map_or(time, |best: f64| best.min(time)));
            }
        }
    }
    best
}

/// What several passes say of a time, in microseconds.
#[derive(Clone, Copy, Debug, PartialEq)]
pub struct Time {
    /// The best pass.
    pub best: f64,
    /// How far the passes lie apart, without the worst third of them.
    pub spread: f64,
}

impl Time {
    /// None where there was no pass.
    pub fn of(passes: &[f64]) -> Option<Time> {
        let mut sorted = passes.to_vec();
        sorted.sort_by(f64::total_cmp);
        let best = *sorted.first()?;
        let last = sorted.len() - 1 - sorted.len() / 3;
        Some(Time {
            best,
            spread: sorted[last] - best,
        })
    }
}

pub fn median(values: impl Iterator<Item = f64>) -> f64 {
    let mut sorted: Vec<f64> = values.collect();
    sorted.sort_by(f64::total_cmp);
    sorted[sorted.len() / 2]
}

/// Has the compiler believe that a result is used.
pub fn keep<T>(result: T) {
    black_box(result);
}

#[cfg(test)]
mod tests {
    use super::*;

    fn time(passes: &[f64]) -> Option<(f64, f64)> {
        Time::of(passes).map(|time| (time.best, time.spread))
    }

    #[test]
    fn passes_have_a_best_one_and_a_spread() {
        assert_eq!(time(&[]), None);
        assert_eq!(time(&[5.0]), Some((5.0, 0.0)));
        assert_eq!(time(&[7.0, 5.0]), Some((5.0, 2.0)));
    }

    #[test]
    fn the_worst_third_of_the_passes_is_left_out() {
        assert_eq!(time(&[7.0, 5.0, 90.0, 6.0]), Some((5.0, 2.0)));
        let passes = [7.0, 90.0, 5.0, 6.0, 80.0, 5.5, 6.5];
        assert_eq!(time(&passes), Some((5.0, 2.0)));
    }
}
