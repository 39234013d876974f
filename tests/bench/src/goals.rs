//! The goals for the speed of each routine, and how the library stands to them.
//!
//! A goal that leaves the checks of the files out takes off, on both sides, what the checks alone
//! take in the same race, without the sum. Such a difference is a number only where it is well above what its parts
//! differ by from pass to pass; else the goal cannot be measured, and nothing is said of it.

use crate::own::{self, Recorded};
use crate::scene::{Scene, Size, Spread};
use crate::table::{decimal, Row, Table, Who, FLAT};
use crate::timing::Time;
use std::fmt::Write;

const SIZE: Size = Size {
    width: 1_024,
    height: 768,
};

/// Which maps a goal is about: thousandths in overflow, and how these slots lie.
type Maps = (usize, Spread);
const USUAL: Maps = (10, Spread::Scattered);
const MANY: Maps = (100, Spread::Scattered);
const MANY_CLUSTERED: Maps = (100, Spread::Clustered);

const MAPS: [Maps; 3] = [USUAL, MANY, MANY_CLUSTERED];

/// The sizes, shares and layouts that goals are about.
pub fn maps() -> impl Iterator<Item = (Size, usize, Spread)> {
    MAPS.into_iter()
        .map(|(share, spread)| (SIZE, share, spread))
}

pub fn is_about(scene: &Scene) -> bool {
    scene.size == SIZE && MAPS.contains(&(scene.share, scene.spread))
}

/// The table of the usual maps.
pub fn usual<'a, 'b>(tables: &'a [Table<'b>]) -> Option<&'a Table<'b>> {
    tables.iter().find(|table| is_of(table, USUAL))
}

fn is_of(table: &Table, maps: Maps) -> bool {
    table.size == SIZE && (table.share, table.spread) == maps
}

/// A ratio that misses its goal by as little counts as met.
const TOLERANCE: f64 = 0.01;
/// A number of microseconds is measurable where its noise is at most this part of it.
const MOST_NOISE: f64 = 0.5;

/// Microseconds with what they may be off by.
#[derive(Clone, Copy, Debug, PartialEq)]
pub struct Measured {
    value: f64,
    noise: f64,
}

impl From<Time> for Measured {
    fn from(time: Time) -> Measured {
        Measured {
            value: time.best,
            noise: time.spread,
        }
    }
}

impl Measured {
    /// What is left without a part; its noise is that of both.
    fn minus(self, part: Measured) -> Measured {
        Measured {
            value: self.value - part.value,
            noise: self.noise + part.noise,
        }
    }

    /// Both one after the other.
    fn plus(self, part: Measured) -> Measured {
        Measured {
            value: self.value + part.value,
            noise: self.noise + part.noise,
        }
    }

    fn is_measurable(self) -> bool {
        self.value > 0.0 && self.noise <= MOST_NOISE * self.value
    }
}

/// One time divided by another.
#[derive(Clone, Copy, Debug, PartialEq)]
pub enum Ratio {
    /// With the least and the largest that the noise allows.
    Of { value: f64, low: f64, high: f64 },
    /// One of the times is not told from 0.
    BelowNoise,
}

impl Ratio {
    pub fn new(above: impl Into<Measured>, below: impl Into<Measured>) -> Ratio {
        let (above, below) = (above.into(), below.into());
        match above.is_measurable() && below.is_measurable() {
            true => Ratio::Of {
                value: above.value / below.value,
                low: (above.value - above.noise) / (below.value + below.noise),
                high: (above.value + above.noise) / (below.value - below.noise),
            },
            false => Ratio::BelowNoise,
        }
    }
}

#[derive(Clone, Copy, Debug, PartialEq, Eq)]
pub enum Verdict {
    Met,
    Short,
    NotMeasurable,
}

impl Verdict {
    fn named(self) -> &'static str {
        match self {
            Verdict::Met => "met",
            Verdict::Short => "short",
            Verdict::NotMeasurable => "not measurable here",
        }
    }
}

/// What is divided by what.
#[derive(Clone, Copy, PartialEq, Eq)]
enum Of {
    /// The independent program's time by the library's; at least the goal.
    Independent,
    /// The best time on flat arrays by the library's; at least the goal.
    Flat,
    /// The library's time by the memcpy's; at most the goal.
    Memcpy,
    /// The library's time by that of SSE2 instructions written by hand; at most the goal.
    Sse2,
    /// The library's time by its time of another call on the same maps; at most the goal.
    Own(&'static str),
    /// The library's time by those of two checks of the file without the sum, a memcpy of it and the
    /// sum of its distances; at most the goal.
    Passes,
    /// The library's time by that of its checks of the files, without the sum; at most the goal.
    Checks,
    /// The same with the memcpy behind the checks.
    ChecksAndCopy,
}

/// Near masks are measured by this mask, edits by the check of the file, and rows by the bundle's counts.
const AT_MOST: Of = Of::Own("mask_at_most 200");
const CHECK: Of = Of::Own("check");
const BUNDLE_READ: Of = Of::Own("bundle_read");

impl Of {
    fn named(self) -> String {
        match self {
            Of::Independent => "independent / library".into(),
            Of::Flat => "best flat / library".into(),
            Of::Memcpy => "library / memcpy".into(),
            Of::Sse2 => "library / SSE2 by hand".into(),
            Of::Own(call) => format!("library / library's {call}"),
            Of::Passes => "library / two checks, memcpy and sum".into(),
            Of::Checks => "library / its checks".into(),
            Of::ChecksAndCopy => "library / its checks and memcpy".into(),
        }
    }

    fn is_at_least(self) -> bool {
        matches!(self, Of::Independent | Of::Flat)
    }

    fn verdict(self, ratio: Ratio, goal: f64) -> Verdict {
        let Ratio::Of { value, .. } = ratio else {
            return Verdict::NotMeasurable;
        };
        let is_met = match self.is_at_least() {
            true => value >= goal * (1.0 - TOLERANCE),
            false => value <= goal * (1.0 + TOLERANCE),
        };
        match is_met {
            true => Verdict::Met,
            false => Verdict::Short,
        }
    }
}

/// Whether the checks of the files are part of the times.
#[derive(Clone, Copy, PartialEq, Eq)]
enum Checks {
    Kept,
    Off,
}

struct Goal {
    /// The row of the table, and what the document says beside it.
    call: &'static str,
    note: &'static str,
    maps: Maps,
    checks: Checks,
    of: Of,
    goal: f64,
}

const fn goal(call: &'static str, checks: Checks, of: Of, goal: f64) -> Goal {
    Goal {
        call,
        note: "",
        maps: USUAL,
        checks,
        of,
        goal,
    }
}

const fn noted(note: &'static str, maps: Maps, goal: Goal) -> Goal {
    Goal { note, maps, ..goal }
}

const WITH_CHECKS: &str = ", checks included";
/// The primary array is a check without the sum, and nothing else.
const WITHOUT_SUM: &str = ", without the sum";

const GOALS: [Goal; 77] = [
    goal("check", Checks::Kept, Of::Independent, 12.0),
    goal("check", Checks::Kept, Of::Memcpy, 2.2),
    noted(
        ", 10 % clustered",
        MANY_CLUSTERED,
        goal("check", Checks::Kept, Of::Independent, 4.0),
    ),
    noted(
        WITHOUT_SUM,
        USUAL,
        goal("primary", Checks::Kept, Of::Memcpy, 1.1),
    ),
    goal("sum", Checks::Off, Of::Independent, 10.0),
    goal("sum", Checks::Off, Of::Flat, 3.0),
    goal("readings", Checks::Off, Of::Independent, 18.0),
    goal("readings", Checks::Off, Of::Flat, 5.0),
    goal("mask_below 200", Checks::Off, Of::Independent, 60.0),
    goal("mask_below 200", Checks::Off, Of::Flat, 2.5),
    goal("mask_below 300", Checks::Off, Of::Independent, 80.0),
    noted(
        WITH_CHECKS,
        USUAL,
        goal("near_mask 200", Checks::Kept, AT_MOST, 1.1),
    ),
    noted(
        WITH_CHECKS,
        USUAL,
        goal("near_mask 300", Checks::Kept, AT_MOST, 1.15),
    ),
    goal("minimum", Checks::Off, Of::Independent, 9.0),
    goal("minimum", Checks::Off, Of::Flat, 2.5),
    goal("minimum", Checks::Off, Of::Memcpy, 1.5),
    noted(
        WITH_CHECKS,
        USUAL,
        goal("minimum", Checks::Kept, Of::Independent, 10.0),
    ),
    noted(
        WITH_CHECKS,
        USUAL,
        goal("minimum", Checks::Kept, Of::Flat, 2.0),
    ),
    goal("maximum", Checks::Off, Of::Independent, 9.0),
    goal("maximum", Checks::Off, Of::Flat, 2.5),
    goal("maximum", Checks::Off, Of::Memcpy, 1.5),
    noted(
        WITH_CHECKS,
        USUAL,
        goal("maximum", Checks::Kept, Of::Independent, 10.0),
    ),
    noted(
        WITH_CHECKS,
        USUAL,
        goal("maximum", Checks::Kept, Of::Flat, 2.0),
    ),
    goal("difference", Checks::Off, Of::Independent, 6.0),
    goal("difference", Checks::Off, Of::Flat, 2.0),
    goal("shift by -50", Checks::Off, Of::Independent, 18.0),
    goal("shift by -50", Checks::Off, Of::Flat, 3.0),
    goal(
        "sum_maps, few to overflow",
        Checks::Off,
        Of::Independent,
        6.0,
    ),
    goal("sum_maps, few to overflow", Checks::Off, Of::Flat, 1.0),
    goal(
        "sum_maps, half to overflow",
        Checks::Off,
        Of::Independent,
        7.0,
    ),
    goal("shift by 10", Checks::Off, Of::Independent, 6.0),
    goal("shift by 10", Checks::Off, Of::Flat, 0.9),
    goal(
        "increment_masked, half set",
        Checks::Off,
        Of::Independent,
        4.5,
    ),
    goal("increment_masked, half set", Checks::Off, Of::Flat, 1.2),
    goal("keep_masked, half set", Checks::Off, Of::Independent, 12.0),
    goal("keep_masked, half set", Checks::Off, Of::Flat, 3.5),
    goal("map_of_mask, half set", Checks::Kept, Of::Independent, 3.0),
    goal("map_of_mask, half set", Checks::Kept, Of::Flat, 1.5),
    goal("bray_curtis", Checks::Off, Of::Independent, 6.0),
    goal("bray_curtis", Checks::Off, Of::Flat, 3.5),
    goal("jaccard at 200", Checks::Off, Of::Independent, 20.0),
    goal("jaccard at 200", Checks::Off, Of::Flat, 3.0),
    goal("jaccard at 300", Checks::Off, Of::Independent, 20.0),
    goal("jaccard at 300", Checks::Off, Of::Flat, 3.0),
    goal("scan", Checks::Off, Of::Independent, 2.3),
    goal("scan", Checks::Off, Of::Flat, 1.2),
    goal("scan", Checks::Off, Of::Memcpy, 1.35),
    goal("signed_difference", Checks::Off, Of::Independent, 2.0),
    goal("signed_difference", Checks::Off, Of::Flat, 0.9),
    goal("signed_difference", Checks::Off, Of::Memcpy, 1.35),
    goal("close", Checks::Kept, Of::Independent, 6.0),
    goal("write", Checks::Kept, Of::Independent, 1.1),
    noted(
        ", 10 %",
        MANY,
        goal("write", Checks::Kept, Of::Independent, 2.5),
    ),
    goal("write, longest buffer", Checks::Kept, Of::Independent, 1.6),
    goal("repair", Checks::Kept, Of::Independent, 6.0),
    goal("repair", Checks::Kept, Of::Passes, 1.2),
    goal("lookup_list of 16,000", Checks::Off, Of::Independent, 1.7),
    noted(
        WITH_CHECKS,
        USUAL,
        goal("lookup_list of 16,000", Checks::Kept, Of::Independent, 1.5),
    ),
    noted(
        WITH_CHECKS,
        USUAL,
        goal("edit, inline", Checks::Kept, Of::Independent, 12.0),
    ),
    noted(
        WITH_CHECKS,
        USUAL,
        goal("edit, inline", Checks::Kept, CHECK, 1.05),
    ),
    noted(
        WITH_CHECKS,
        USUAL,
        goal("edit, into and out", Checks::Kept, Of::Independent, 12.0),
    ),
    noted(
        WITH_CHECKS,
        USUAL,
        goal("edit, into and out", Checks::Kept, CHECK, 1.05),
    ),
    goal("mask_and", Checks::Kept, Of::Independent, 1.0),
    goal("mask_and", Checks::Kept, Of::Memcpy, 1.15),
    goal("mask_or", Checks::Kept, Of::Independent, 1.0),
    goal("mask_or", Checks::Kept, Of::Memcpy, 1.15),
    goal("mask_xor", Checks::Kept, Of::Independent, 1.0),
    goal("mask_xor", Checks::Kept, Of::Memcpy, 1.15),
    goal("mask_not", Checks::Kept, Of::Independent, 1.0),
    goal("mask_not", Checks::Kept, Of::Memcpy, 1.15),
    goal("set_bits", Checks::Kept, Of::Independent, 1.0),
    goal("set_bits", Checks::Kept, Of::Sse2, 1.25),
    goal("bundle_read", Checks::Kept, Of::Checks, 1.05),
    goal("bundle_row", Checks::Kept, BUNDLE_READ, 1.05),
    goal("bundle_nearest", Checks::Kept, Of::Independent, 8.0),
    goal("bundle_nearest", Checks::Kept, Of::Flat, 1.8),
    goal("bundle_write", Checks::Kept, Of::ChecksAndCopy, 1.15),
];

impl Goal {
    fn named(&self) -> String {
        format!("{}{}", self.call, self.note)
    }

    fn ratio(&self, tables: &[&Table]) -> Option<Ratio> {
        let table = tables.iter().find(|table| is_of(table, self.maps))?;
        let row = table.find(self.call)?;
        let time = |row: &Row, who| row.time(who).map(Measured::from);
        let without = |row: &Row, who, checks| match self.checks {
            Checks::Kept => time(row, who),
            Checks::Off => Some(time(row, who)?.minus(time(row, checks)?)),
        };
        let library = without(row, Who::Library, Who::Checks)?;
        Some(match self.of {
            Of::Independent => {
                let independent = without(row, Who::Independent, Who::IndependentChecks)?;
                Ratio::new(independent, library)
            }
            Of::Flat => Ratio::new(best_flat(row)?.1, library),
            Of::Memcpy => Ratio::new(library, time(row, Who::Memcpy)?),
            Of::Sse2 => Ratio::new(library, time(row, Who::Sse2)?),
            Of::Own(call) => {
                let other = without(table.find(call)?, Who::Library, Who::Checks)?;
                Ratio::new(library, other)
            }
            Of::Passes => {
                let check = time(row, Who::Checks)?;
                let sum = table.find("sum")?;
                let sum = time(sum, Who::Library)?.minus(time(sum, Who::Checks)?);
                let passes = check.plus(check).plus(time(row, Who::Memcpy)?).plus(sum);
                Ratio::new(library, passes)
            }
            Of::Checks => Ratio::new(library, time(row, Who::Checks)?),
            Of::ChecksAndCopy => {
                let copied = time(row, Who::Checks)?.plus(time(row, Who::Memcpy)?);
                Ratio::new(library, copied)
            }
        })
    }
}

/// The fastest on flat arrays.
pub fn best_flat(row: &Row) -> Option<(Who, Time)> {
    let times = FLAT
        .into_iter()
        .filter_map(|who| Some((who, row.time(who)?)));
    times.min_by(|(_, a), (_, b)| a.best.total_cmp(&b.best))
}

/// How a goal stands.
pub struct Standing {
    goal: &'static Goal,
    ratio: Ratio,
    verdict: Verdict,
}

/// How all goals stand that the tables have something to say of.
pub fn standings(tables: &[&Table]) -> Vec<Standing> {
    let standing = |goal: &'static Goal| {
        let ratio = goal.ratio(tables)?;
        let verdict = goal.of.verdict(ratio, goal.goal);
        Some(Standing {
            goal,
            ratio,
            verdict,
        })
    };
    GOALS.iter().filter_map(standing).collect()
}

impl Standing {
    pub fn call(&self) -> &'static str {
        self.goal.call
    }

    /// The ratio with its goal, as a cell of a table.
    fn cell(&self) -> String {
        let goal = self.goal.goal;
        let name = match self.goal.of {
            Of::Sse2 => "of SSE2 ".into(),
            Of::Own(call) => format!("of {call} "),
            Of::Passes => "of 2 checks, copy, sum ".into(),
            Of::Checks => "of its checks ".into(),
            Of::ChecksAndCopy => "of its checks, copy ".into(),
            _ => String::new(),
        };
        match (self.ratio, self.verdict) {
            (Ratio::Of { value, .. }, Verdict::Short) => {
                format!("{name}**{}** ({goal})", decimal(value))
            }
            (Ratio::Of { value, .. }, _) => format!("{name}{} ({goal})", decimal(value)),
            (Ratio::BelowNoise, _) => format!("{name}not measurable here ({goal})"),
        }
    }
}

/// How many goals are met, short, and not measurable.
pub fn counts(standings: &[Standing]) -> String {
    let count = |verdict| {
        let of_kind = standings.iter().filter(|one| one.verdict == verdict);
        of_kind.count()
    };
    format!(
        "Of {} goals, {} are met; short: {}; not measurable here: {}",
        standings.len(),
        count(Verdict::Met),
        count(Verdict::Short),
        count(Verdict::NotMeasurable)
    )
}

/// The calls that are short of a goal.
pub fn short(standings: &[Standing]) -> Vec<&'static str> {
    let short = standings.iter().filter(|one| one.verdict == Verdict::Short);
    short.map(|one| one.goal.call).collect()
}

/// The table of goals, with the library's own times before and after.
pub fn section(standings: &[Standing], own: &[Table], before: &Recorded) -> String {
    let mut text = String::from(
        "| call | before | after | change | independent / library (at least) | best flat / library (at least) | library / memcpy (at most) |
|---|--:|--:|--:|---|---|---|
",
    );
    let mut shown: Vec<(&str, Maps)> = Vec::new();
    let same = |a: &Standing, b: &Standing| {
        (a.goal.call, a.goal.note, a.goal.maps) == (b.goal.call, b.goal.note, b.goal.maps)
    };
    for group in standings.chunk_by(same) {
        let goal = group[0].goal;
        let cell = |is_column: fn(Of) -> bool| {
            let cells = group.iter().filter(|one| is_column(one.goal.of));
            cells.map(Standing::cell).collect::<Vec<_>>().join(", ")
        };
        // A call's own times include its checks, and stand in its first line.
        let key = (goal.call, goal.maps);
        let own = match shown.contains(&key) {
            true => None,
            false => own.iter().find(|table| is_of(table, goal.maps)),
        };
        shown.push(key);
        let times = own.and_then(|table| own::compared(table, goal.call, before));
        let _ = writeln!(
            text,
            "| {} | {} | {} | {} | {} |",
            goal.named(),
            times.map_or(String::from(" | | "), |times| times.cells()),
            cell(|of| of == Of::Independent),
            cell(|of| of == Of::Flat),
            cell(|of| !of.is_at_least()),
        );
    }
    text
}

/// A table of tab-separated values.
pub fn tsv(standings: &[Standing]) -> String {
    let mut text = String::from(
        "call\toverflow\tlayout\tchecks\tratio\tsign\tgoal\tvalue\tlow\thigh\tverdict\n",
    );
    for Standing {
        goal,
        ratio,
        verdict,
    } in standings
    {
        let (share, spread) = goal.maps;
        let _ = writeln!(
            text,
            "{}\t{}\t{}\t{}\t{}\t{}\t{}\t{}\t{}",
            goal.call,
            share as f64 / 10.0,
            match spread {
                Spread::Scattered => "scattered",
                Spread::Clustered => "clustered",
            },
            match goal.checks {
                Checks::Kept => "included",
                Checks::Off => "off",
            },
            goal.of.named(),
            if goal.of.is_at_least() { ">=" } else { "<=" },
            goal.goal,
            match ratio {
                Ratio::Of { value, low, high } => format!("{value:.3}\t{low:.3}\t{high:.3}"),
                Ratio::BelowNoise => String::from("below the noise\t\t"),
            },
            verdict.named()
        );
    }
    text
}

#[cfg(test)]
mod tests {
    use super::*;
    use crate::report::samples;

    fn measured(value: f64, noise: f64) -> Measured {
        Measured { value, noise }
    }

    fn found(checks: f64, spread: f64, call: &str, of: &str) -> String {
        let tables = [samples::table(checks, spread)];
        let text = tsv(&standings(&tables.iter().collect::<Vec<_>>()));
        let is_meant = |line: &&str| line.starts_with(call) && line.contains(of);
        let line = text.lines().find(is_meant);
        line.unwrap_or_else(|| panic!("{call}: {text}")).to_string()
    }

    #[test]
    fn checks_are_taken_off_where_a_goal_leaves_them_out() {
        let line = found(20.0, 0.0, "minimum", "\toff\tindependent");
        assert!(line.contains("\t40.000\t"), "{line}");
        let line = found(20.0, 0.0, "minimum", "\tincluded\tindependent");
        assert!(line.contains("\t25.000\t"), "{line}");
        let line = found(20.0, 0.0, "minimum", "\toff\tbest flat");
        assert!(line.contains("\t4.500\t4.500\t4.500\tmet"), "{line}");
        let line = found(20.0, 0.0, "minimum", "\toff\tlibrary / memcpy");
        assert!(line.contains("\t1.333\t"), "{line}");
    }

    #[test]
    fn near_masks_are_measured_by_the_mask_for_at_most() {
        let row = |call, library| samples::row(call, library, 100.0, 100.0);
        let tables =
            |near| samples::of_rows([row("mask_at_most 200", 50.0), row("near_mask 200", near)]);
        let told = |near| tsv(&standings(&[&tables(near)]));
        let goal = "included\tlibrary / library's mask_at_most 200\t<=\t1.1\t";
        let met = told(55.0);
        assert!(
            met.contains(&format!("{goal}1.100\t1.100\t1.100\tmet")),
            "{met}"
        );
        let short = told(60.0);
        assert!(
            short.contains(&format!("{goal}1.200\t1.200\t1.200\tshort")),
            "{short}"
        );
    }

    #[test]
    fn a_repair_is_measured_by_two_checks_a_copy_and_a_sum() {
        let told = |repair| {
            let rows = [
                samples::checked_row("sum", 30.0, 10.0, 7.0),
                samples::checked_row("repair", repair, 11.0, 8.0),
            ];
            tsv(&standings(&[&samples::of_rows(rows)]))
        };
        // 11 + 11 + 8 + (30 - 10) = 50
        let goal = "included\tlibrary / two checks, memcpy and sum\t<=\t1.2\t";
        let met = told(60.0);
        assert!(
            met.contains(&format!("{goal}1.200\t1.200\t1.200\tmet")),
            "{met}"
        );
        let short = told(61.0);
        assert!(
            short.contains(&format!("{goal}1.220\t1.220\t1.220\tshort")),
            "{short}"
        );
    }

    #[test]
    fn bundles_are_measured_by_the_checks_of_their_frames() {
        let told = |read, row, write| {
            let rows = [
                samples::checked_row("bundle_read", read, 100.0, 80.0),
                samples::checked_row("bundle_row", row, 100.0, 80.0),
                samples::checked_row("bundle_write", write, 100.0, 80.0),
            ];
            tsv(&standings(&[&samples::of_rows(rows)]))
        };
        // 100 + 80 = 180
        let met = told(105.0, 105.0, 207.0);
        let short = told(107.0, 115.0, 210.0);
        for (goal, is_met, is_short) in [
            ("library / its checks\t<=\t1.05", "1.050", "1.070"),
            (
                "library / library's bundle_read\t<=\t1.05",
                "1.000",
                "1.075",
            ),
            (
                "library / its checks and memcpy\t<=\t1.15",
                "1.150",
                "1.167",
            ),
        ] {
            let line = |ratio, verdict| format!("{goal}\t{ratio}\t{ratio}\t{ratio}\t{verdict}");
            assert!(met.contains(&line(is_met, "met")), "{met}");
            assert!(short.contains(&line(is_short, "short")), "{short}");
        }
    }

    #[test]
    fn a_difference_below_the_noise_has_no_ratio() {
        for (checks, spread) in [(39.9, 1.0), (40.0, 0.0), (45.0, 0.0), (20.0, 15.0)] {
            let line = found(checks, spread, "minimum", "\toff\tbest flat");
            assert!(
                line.ends_with("below the noise\t\t\tnot measurable here"),
                "{line}"
            );
        }
    }

    #[test]
    fn ratios_are_above_0_whatever_the_times() {
        let values = [-5.0, 0.0, 1e-9, 0.4, 1.0, 7.0, 1e6];
        let noises = [0.0, 1e-9, 0.5, 1.0, 100.0];
        for a in values {
            for b in values {
                for noise in noises {
                    let ratio = Ratio::new(measured(a, noise), measured(b, noise));
                    if let Ratio::Of { value, low, high } = ratio {
                        assert!(0.0 < low && low <= value && value <= high, "{ratio:?}");
                        assert!(high <= 3.0 * value * 1.001 && high.is_finite(), "{ratio:?}");
                    }
                }
            }
        }
    }

    #[test]
    fn goals_are_met_on_their_side() {
        let ratio = |value| Ratio::new(measured(value, 0.0), measured(1.0, 0.0));
        let at_least = |value| Of::Flat.verdict(ratio(value), 2.0);
        let at_most = |value| Of::Memcpy.verdict(ratio(value), 2.0);
        assert_eq!(
            [at_least(2.1), at_most(2.1)],
            [Verdict::Met, Verdict::Short]
        );
        assert_eq!(
            [at_least(1.9), at_most(1.9)],
            [Verdict::Short, Verdict::Met]
        );
        assert_eq!(
            [at_least(1.99), at_most(2.01)],
            [Verdict::Met, Verdict::Met]
        );
        let none = Of::Flat.verdict(Ratio::BelowNoise, 2.0);
        assert_eq!(none, Verdict::NotMeasurable);
    }
}
