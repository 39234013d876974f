//! Where the library is behind, and why: families of calls, the ones that matter most first.

use crate::goals::best_flat;
use crate::scene::Spread;
use crate::table::{decimal, percent, Row, Table, Who};
use crate::timing::Time;
use crate::{SHARES, SIZES};
use std::fmt::Write;

/// Another one is ahead where the library takes at least this many times as long, and longer by more
/// than the spreads of both.
const AHEAD: f64 = 1.05;
/// The independent program does the same work on the same files: how much more it counts that it is
/// ahead than that flat arrays are.
const SAME_WORK: f64 = 10.0;
/// How much less it counts to be behind at another share in overflow than the usual one.
const OTHER_SHARE: f64 = 0.1;
/// In thousandths.
const USUAL_SHARE: usize = 10;

/// How often a program makes a call.
#[derive(Clone, Copy)]
enum Often {
    /// While somebody draws or points.
    Stroke,
    /// For each picture of a camera.
    Frame,
    Seldom,
}

impl Often {
    fn named(self) -> &'static str {
        match self {
            Often::Stroke => "each stroke",
            Often::Frame => "each frame",
            Often::Seldom => "seldom",
        }
    }

    fn weight(self) -> f64 {
        match self {
            Often::Stroke => 3.0,
            Often::Frame => 2.0,
            Often::Seldom => 1.0,
        }
    }
}

/// Calls that are behind for the same reason.
pub struct Family {
    name: &'static str,
    calls: &'static [&'static str],
    often: Often,
    why: &'static str,
}

const FAMILIES: [Family; 17] = [
    Family {
        name: "edit_list, into and out of overflow",
        calls: &["edit_list, 1,000 into and out"],
        often: Often::Stroke,
        why: "each edit moves the entries behind its slot and makes the index again; the independent program edits a list and writes the file once.",
    },
    Family {
        name: "lookup, edit, bundle_row",
        calls: &[
            "lookup",
            "edit, inline",
            "edit, in overflow",
            "edit, into and out",
            "bundle_row",
        ],
        often: Often::Stroke,
        why: "the whole file is checked for one slot; `lookup_list` and `edit_list` check once.",
    },
    Family {
        name: "lookup_list, edit_list",
        calls: &[
            "lookup_list of 16,000",
            "edit_list, 1,000 inline",
            "edit_list, 1,000 in overflow",
        ],
        often: Often::Stroke,
        why: "the check, and a search for each slot in overflow; a flat array is accessed once, and names no entry.",
    },
    Family {
        name: "sum_maps, shift up",
        calls: &[
            "sum_maps, few to overflow",
            "sum_maps, half to overflow",
            "shift by 10",
        ],
        often: Often::Frame,
        why: "a count first, since a refused call writes nothing, then the bytes, then the entries: found by mask words, written, filled in.",
    },
    Family {
        name: "increment_masked",
        calls: &[
            "increment_masked, half set",
            "increment_masked, 1 % scattered",
            "increment_masked, 1 % in a disc",
        ],
        often: Often::Frame,
        why: "a count of the set slots that come into overflow, a pass over the bytes (a copy and a walk where few are set), and the entries as for sums.",
    },
    Family {
        name: "keep_masked",
        calls: &[
            "keep_masked, half set",
            "keep_masked, 1 % scattered",
            "keep_masked, 1 % in a disc",
        ],
        often: Often::Frame,
        why: "the mask becomes bytes by a table, eight slots at a time; then the entries are filtered.",
    },
    Family {
        name: "map_of_mask",
        calls: &[
            "map_of_mask, half set",
            "map_of_mask, 1 % scattered",
            "map_of_mask, 1 % in a disc",
        ],
        often: Often::Frame,
        why: "a row of a table for each eight slots.",
    },
    Family {
        name: "minimum, maximum, difference",
        calls: &["minimum", "maximum", "difference"],
        often: Often::Frame,
        why: "two checks, a pass over the bytes, and a walk over the entries of both maps, whose branches are guessed wrong if they are scattered.",
    },
    Family {
        name: "shift down",
        calls: &["shift by -50"],
        often: Often::Frame,
        why: "half of the time is the pass over the bytes, the rest three walks over the entries.",
    },
    Family {
        name: "scan, signed_difference, nearest",
        calls: &["scan", "signed_difference", "bundle_nearest"],
        often: Often::Frame,
        why: "bytes are widened, and the entries put in when the list has left the first-level cache; a flat array has its distances.",
    },
    Family {
        name: "write",
        calls: &["write", "write, longest buffer"],
        often: Often::Frame,
        why: "two passes over the distances, a count and the bytes, then the entries; a flat array is copied.",
    },
    Family {
        name: "masks of a map",
        calls: &[
            "mask_below 200",
            "mask_below 300",
            "mask_at_most 200",
            "mask_above 200",
            "mask_at_least 200",
            "near_mask 200",
            "near_mask 300",
        ],
        often: Often::Frame,
        why: "80 to 88 packed instructions for 128 slots: no loop is compiled to SSE2's `pmovmskb`. Above 254 the entries decide; `near_mask` needs both.",
    },
    Family {
        name: "masks of masks, set_bits",
        calls: &["mask_and", "mask_or", "mask_xor", "mask_not", "set_bits"],
        often: Often::Frame,
        why: "as fast as plain loops compiled for the same processors; OpenCV counts bits faster.",
    },
    Family {
        name: "sum, readings",
        calls: &["sum", "readings"],
        often: Often::Frame,
        why: "bytes become 16-bit numbers before they are added, since no sum is compiled to SSE2's `psadbw`; OpenCV counts by AVX2.",
    },
    Family {
        name: "bray_curtis, jaccard",
        calls: &["bray_curtis", "jaccard at 200", "jaccard at 300"],
        often: Often::Seldom,
        why: "two checks, and the entries of both maps one by one.",
    },
    Family {
        name: "check, primary, report, bundles",
        calls: &["check", "primary", "report", "bundle_read", "bundle_write"],
        often: Often::Frame,
        why: "three instructions for 16 bytes and 13 for an entry; a copy uses wider registers.",
    },
    Family {
        name: "close, repair",
        calls: &["close", "close_entries", "repair", "repair, 1 % dropped"],
        often: Often::Seldom,
        why: "each entry is checked against its byte and the one before; flat arrays take it over.",
    },
];

/// How many times as long the library takes, where the other is ahead beyond the noise.
fn factor(library: Time, other: Time) -> Option<f64> {
    let factor = library.best / other.best;
    let is_clear = library.best - other.best > library.spread + other.spread;
    (is_clear && factor >= AHEAD).then_some(factor)
}

fn independent(row: &Row) -> Option<(Who, f64)> {
    let factor = factor(row.time(Who::Library)?, row.time(Who::Independent)?)?;
    Some((Who::Independent, factor))
}

fn flat(row: &Row) -> Option<(Who, f64)> {
    let (who, time) = best_flat(row)?;
    Some((who, factor(row.time(Who::Library)?, time)?))
}

impl Family {
    /// Who is ahead by most in a call of the family.
    fn worst(&self, table: &Table, who: fn(&Row) -> Option<(Who, f64)>) -> Option<(Who, f64)> {
        let rows = self.calls.iter().filter_map(|call| table.find(call));
        rows.filter_map(who).max_by(|a, b| a.1.total_cmp(&b.1))
    }

    /// How much it matters that the family is behind on the maps of a table.
    fn score(&self, table: &Table) -> f64 {
        let size = |who| {
            self.worst(table, who)
                .map_or(0.0, |(_, factor)| factor.ln())
        };
        let share = match table.share {
            USUAL_SHARE => 1.0,
            _ => OTHER_SHARE,
        };
        share * self.often.weight() * (SAME_WORK * size(independent) + size(flat))
    }

    fn cell(&self, table: &Table) -> String {
        let worst = [independent, flat].map(|who| self.worst(table, who));
        let named = |(who, factor): (Who, f64)| format!("{} {}", who.named(), decimal(factor));
        let cells: Vec<String> = worst.into_iter().flatten().map(named).collect();
        cells.join(", ")
    }

    /// Where the independent program is ahead on the usual maps: both times of the first such call.
    fn times(&self, table: &Table) -> Option<String> {
        let mut rows = self.calls.iter().filter_map(|call| table.find(call));
        let row = rows.find(|row| independent(row).is_some())?;
        Some(format!(
            " At 1 %, `{}`: {} µs, independent {}.",
            row.call,
            decimal(row.best(Who::Library)?),
            decimal(row.best(Who::Independent)?)
        ))
    }
}

/// The families that are behind or short of a goal, the one that matters most first.
pub fn ranked(tables: &[Table], short: &[&str]) -> Vec<&'static Family> {
    let shown = shown(tables);
    let score = |family: &Family| shown.iter().map(|table| family.score(table)).sum::<f64>();
    let is_short = |family: &Family| family.calls.iter().any(|call| short.contains(call));
    let scored = FAMILIES.iter().map(|family| (score(family), family));
    let mut families: Vec<(f64, &Family)> = scored
        .filter(|&(score, family)| score > 0.0 || is_short(family))
        .collect();
    families.sort_by(|a, b| b.0.total_cmp(&a.0));
    families.into_iter().map(|(_, family)| family).collect()
}

/// The names of the first ones.
pub fn first(ranked: &[&Family]) -> String {
    let names: Vec<&str> = ranked.iter().take(3).map(|family| family.name).collect();
    match &names[..] {
        [] => String::from("nothing"),
        _ => names.join("; "),
    }
}

/// The tables that are looked at, by share.
fn shown<'a, 'b>(tables: &'a [Table<'b>]) -> Vec<&'a Table<'b>> {
    let of_share = |&share: &usize| {
        let maps = (SIZES[0], share, Spread::Scattered);
        let is_meant = |table: &&Table| (table.size, table.share, table.spread) == maps;
        tables.iter().find(is_meant)
    };
    SHARES.iter().filter_map(of_share).collect()
}

/// The section: a table of these families, and why, by their numbers in it.
pub fn section(tables: &[Table], ranked: &[&Family]) -> String {
    if ranked.is_empty() {
        return String::from("Nowhere.\n");
    }
    let shown = shown(tables);
    let heads: Vec<String> = shown.iter().map(|table| percent(table.share)).collect();
    let mut text = format!(
        "| | calls | made | {} |\n|--:|---|---|{}\n",
        heads.join(" | "),
        "---|".repeat(shown.len())
    );
    let mut reasons = String::new();
    for (number, family) in (1..).zip(ranked) {
        let cells: Vec<String> = shown.iter().map(|table| family.cell(table)).collect();
        let (name, often) = (family.name, family.often.named());
        let _ = writeln!(
            text,
            "| {number} | {name} | {often} | {} |",
            cells.join(" | ")
        );
        let usual = shown.iter().find(|table| table.share == USUAL_SHARE);
        let times = usual.and_then(|table| family.times(table));
        let times = times.unwrap_or_default();
        let _ = writeln!(reasons, "{number}. {}{times}", family.why);
    }
    format!("{text}\n{reasons}")
}

#[cfg(test)]
mod tests {
    use super::*;
    use crate::report::samples;

    /// The section of the usual maps with some rows.
    fn section_of<const N: usize>(rows: [Row; N], short: &[&str]) -> String {
        let tables = [samples::of_rows(rows)];
        section(&tables, &ranked(&tables, short))
    }

    #[test]
    fn every_call_is_in_one_family() {
        for call in samples::calls() {
            let families = FAMILIES.iter().filter(|one| one.calls.contains(&&call[..]));
            assert_eq!(families.count(), 1, "{call}");
        }
    }

    #[test]
    fn strokes_that_the_independent_program_is_ahead_in_come_first() {
        let stroke = "edit_list, 1,000 into and out";
        let rows = [
            samples::row("lookup", 10.0, 200.0, 0.001),
            samples::row(stroke, 20.0, 10.0, 0.1),
            samples::row("minimum", 20.0, 200.0, 10.0),
        ];
        let text = section_of(rows, &[]);
        for line in [
            "| 1 | edit_list, into and out of overflow | each stroke | independent 2.00, flat Rust 200 |",
            "| 2 | lookup, edit, bundle_row | each stroke | flat Rust 10,000 |",
            "| 3 | minimum, maximum, difference | each frame | flat Rust 2.00 |",
        ] {
            assert!(text.contains(line), "{text}");
        }
        assert!(
            text.contains("At 1 %, `edit_list, 1,000 into and out`: 20.0 µs, independent 10.0."),
            "{text}"
        );
    }

    #[test]
    fn nobody_is_ahead_within_the_noise() {
        let time = |best, spread| Time { best, spread };
        assert_eq!(factor(time(12.0, 1.0), time(10.0, 0.9)), Some(1.2));
        assert_eq!(factor(time(12.0, 1.0), time(10.0, 1.1)), None);
        assert_eq!(factor(time(10.4, 0.0), time(10.0, 0.0)), None);
        let rows = [samples::row("minimum", 10.0, 100.0, 20.0)];
        assert_eq!(section_of(rows, &[]), "Nowhere.\n");
    }

    #[test]
    fn a_family_short_of_a_goal_has_its_reason() {
        let rows = [samples::row("minimum", 10.0, 100.0, 20.0)];
        let text = section_of(rows, &["minimum"]);
        assert!(
            text.contains("| 1 | minimum, maximum, difference |"),
            "{text}"
        );
        assert!(text.contains("\n1. two checks, "), "{text}");
    }
}
