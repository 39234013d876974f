//! The document: what was timed, where, how the library stands to its goals and where it is behind;
//! and the tables beside it.

use crate::own::{self, Change, Compared, Recorded};
use crate::python::Python;
use crate::scene::{BRUSH, HALF_SET, SPARSE};
use crate::table::{decimal, percent, Row, Table, Who, EVERYONE, OTHERS};
use crate::timing::{median, ROUNDS};
use crate::{behind, goals, growth, picture, PASSES};
use std::fmt::Write;
use std::fs;
use std::path::Path;
use std::process::Command;
use std::thread::available_parallelism;

/// Bytes of the document.
const LONGEST: usize = 15_000;

/// What the memcpy of a row copies.
pub const MEMCPY: &str =
    "The memcpy copies the file where a call only reads, else half of the bytes \
    that the call has to read and to\nwrite, so that it reads and writes as many in all.";

/// Calls whose change is told beside those of the goals.
const CHANGES: usize = 5;

/// What a run has measured.
pub struct Run<'a> {
    pub tables: &'a [Table<'a>],
    /// Tables that show how costs grow.
    pub growth: &'a [Table<'a>],
    /// The library's own times, and those of an earlier state.
    pub own: &'a [Table<'a>],
    pub before: &'a Recorded,
    pub python: Option<&'a Python>,
    /// The load before the run.
    pub load: &'a str,
}

/// How many processes want a processor, as a mean over a minute.
pub fn load() -> String {
    let load = fs::read_to_string("/proc/loadavg").unwrap_or_default();
    load.split(' ').next().unwrap_or_default().to_string()
}

/// Writes `docs/BENCHMARKS.md`, its picture, and the tables in `docs/benchmarks`.
pub fn write(root: &Path, run: &Run) {
    let docs = root.join("docs");
    let save = |name: &str, text: &str| {
        fs::write(docs.join(name), text).unwrap_or_else(|error| panic!("docs/{name}: {error}"));
    };
    fs::create_dir_all(docs.join("benchmarks")).expect("docs/benchmarks");
    let all: Vec<&Table> = run.tables.iter().chain(run.growth).collect();
    let standings = goals::standings(&all);
    save("benchmarks/calls.tsv", &calls(run.tables));
    save("benchmarks/goals.tsv", &goals::tsv(&standings));
    save("benchmarks/growth.tsv", &growth::tsv(&all));
    save("benchmarks/own.tsv", &own::tsv(run.own, run.before));
    let shown = goals::usual(run.tables).expect("the table of the picture");
    save("benchmarks.svg", &picture::svg(shown));
    let text = document(run);
    save("BENCHMARKS.md", &text);
    assert!(text.len() <= LONGEST, "{} bytes are too long", text.len());
}

/// All times, as a table of tab-separated values.
fn calls(tables: &[Table]) -> String {
    let mut text = String::from("width\theight\toverflow\tlayout\tcall");
    for who in EVERYONE {
        let _ = write!(text, "\t{}", who.column());
    }
    text += "\tlibrary_spread\n";
    for table in tables {
        for row in &table.rows {
            let _ = write!(text, "{}\t{}", own::maps(table), row.call);
            let number = |time: Option<f64>| time.map(|time| format!("{time:.4}"));
            for who in EVERYONE {
                let _ = write!(text, "\t{}", number(row.best(who)).unwrap_or_default());
            }
            let spread = row.time(Who::Library).map(|time| time.spread);
            let _ = writeln!(text, "\t{}", number(spread).unwrap_or_default());
        }
    }
    text
}

fn document(run: &Run) -> String {
    let all: Vec<&Table> = run.tables.iter().chain(run.growth).collect();
    let standings = goals::standings(&all);
    let compared = own::all(run.own, run.before);
    let ranked = behind::ranked(run.tables, &goals::short(&standings));
    format!(
        "# Benchmarks

Made by `make benchmarks` in one run, on {date}.
Machine: {machine}; load average before the run {load}.
On flat arrays beside Rust: {numpy}, {opencv}.

![Times of others divided by the library's, at 1,024 by 768 with 1 % in overflow](benchmarks.svg)

## In short

{counts}. {changes}.
Behind above all: {first}.

Calls on whole maps, by size and share in overflow: in how many the library is faster, and the median of the other's time
divided by the library's.

{in_short}
## Goals

At 1,024 by 768 with 1 % in overflow, scattered, unless a line says otherwise. Before and after are the library's own
microseconds, checks included: of an earlier state (`tests/bench/before.tsv`) and of this one, by `bench own`. {same_machine}.

Ratios leave the checks of the files, without the sum, out on both sides, unless a line includes them, as all of bundles do: what
they alone take in the same race is taken off. Behind a ratio stands its goal; one in bold is short of it, by more than 1 %.
Best flat is the fastest of flat Rust, numpy and OpenCV. The goals were set on another machine. A summary has the sum of
all distances: check, edits and what writes a file take a pass over the bytes for it.

{goals}
{masks}{others}
## Where we are behind

Who is ahead at 1,024 by 768, and how many times as long the library takes in the worst call of a line: the independent
program, the fastest on flat arrays. What matters most comes first: calls made often, large ratios, at 1 % above all. Lines
without a ratio are short of a goal. A slot in overflow takes 12 bytes of a file where a flat array has 4, and is found
and written one by one; so flat arrays win at 10 % wherever entries are written.

{behind}
## How to read it

| Contestant | What it does |
|---|---|
| library | the routine, called from Rust; files are checked in the same call |
| independent | the same on the same files: `tests/reference`, a straightforward Rust program |
| flat Rust | a plain loop over arrays of `u32` (`tests/bench/src/flat.rs`) |
| numpy, OpenCV | the same on the same arrays (`tests/bench/flat.py`); OpenCV's masks have a byte for each slot |
| SSE2 by hand | the number of set bits by SSE2 instructions, in Rust |
| memcpy | a copy in memory |

A flat array has four bytes a slot and nothing to check, neither its input nor that a sum is a distance. For `write` it is
copied; for `close` it is made of the same bytes and entries.
{MEMCPY}

Times are microseconds a call, one thread. Contestants take turns, {ROUNDS} rounds in each of {PASSES} passes over all calls
(the library's own times: alone, {own_passes} passes, a process each); a turn starts with a call that is not timed, so buffers are warm.
A time is that of the best round; its spread is what the passes' best rounds differ by, without the worst third.
A change is noise where it is at most both spreads together, or at most 13 %: builds of the bench over one archive
differed by up to 12 % in a call. A difference of two times is not measurable here where their spreads
together are more than half of it. All but numpy, OpenCV and memcpy are compiled for every x86-64 processor, without AVX.
numpy and OpenCV have to give flat Rust's results first; `cargo test -p bench` holds these to ours.

## Tables

Tab-separated, of the same run. `overflow` is the share of slots in overflow in per cent, `layout` is scattered or clustered
(runs of 256 slots).

| File | A line for | Columns |
|---|---|---|
| [calls.tsv](benchmarks/calls.tsv) | a call on maps of a size and share | microseconds of each contestant; `_checks`: of its checks alone; `library_spread` |
| [growth.tsv](benchmarks/growth.tsv) | a call, layout and share | picoseconds a slot at 19,200, 786,432 and 1,048,576 slots, of the library and of flat Rust |
| [goals.tsv](benchmarks/goals.tsv) | a goal | the ratio with its `low` and `high` by the spreads, and the verdict |
| [own.tsv](benchmarks/own.tsv) | a call of the library | microseconds and spreads before and after; the change, or noise. `control`: not of the library |
",
        own_passes = own::PASSES,
        date = output("date", &["+%Y-%m-%d"]),
        machine = machine(),
        load = run.load,
        numpy = named("numpy", run.python.and_then(|python| python.numpy.as_ref())),
        opencv = named("OpenCV", run.python.and_then(|python| python.opencv.as_ref())),
        counts = goals::counts(&standings),
        changes = changes(&compared),
        in_short = in_short(run.tables),
        same_machine = own::machine(&compared),
        goals = goals::section(&standings, run.own, run.before),
        masks = masks(run),
        others = others(&compared, &standings),
        first = behind::first(&ranked),
        behind = behind::section(run.tables, &ranked),
    )
}

/// A library with its version, or that it was missing.
fn named(library: &str, version: Option<&String>) -> String {
    match version {
        Some(version) => format!("{library} {version}"),
        None => format!("{library} was missing (its columns are empty)"),
    }
}

fn machine() -> String {
    let cpu = fs::read_to_string("/proc/cpuinfo").unwrap_or_default();
    let model = cpu.lines().find_map(|line| line.strip_prefix("model name"));
    let model = model.map_or("x86-64", |model| model.trim_start_matches([' ', '\t', ':']));
    let cores = available_parallelism().map_or(1, usize::from);
    let rustc = output("rustc", &["--version"]);
    let rustc: Vec<&str> = rustc.split(' ').take(2).collect();
    format!("{model}, {cores} cores, {}", rustc.join(" "))
}

fn output(program: &str, arguments: &[&str]) -> String {
    let output = Command::new(program).args(arguments).output();
    let text = output.map(|output| String::from_utf8_lossy(&output.stdout).into_owned());
    text.unwrap_or_default().trim().to_string()
}

/// How many calls became faster or slower.
fn changes(compared: &[Compared]) -> String {
    let calls: Vec<&Compared> = own::of_library(compared).collect();
    let count = |is_so: fn(Change) -> bool| calls.iter().filter(|one| is_so(one.change)).count();
    format!(
        "Of {} calls on four kinds of maps,\n{} became faster by more than noise, {} slower",
        calls.len(),
        count(Change::is_faster),
        count(Change::is_slower)
    )
}

/// For each other contestant and each table, in how many calls the library is faster.
fn in_short(tables: &[Table]) -> String {
    let heads: Vec<String> = tables.iter().map(Table::named).collect();
    let mut text = format!(
        "| against | {} |\n|---|{}\n",
        heads.join(" | "),
        "---|".repeat(tables.len())
    );
    for who in OTHERS {
        let cell = |table: &Table| {
            let rows = table.rows.iter().filter(|row| row.is_whole());
            let ratios: Vec<f64> = rows.filter_map(|row| row.against(who)).collect();
            if ratios.is_empty() {
                return String::new();
            }
            let faster = ratios.iter().filter(|&&ratio| ratio > 1.0).count();
            let median = decimal(median(ratios.iter().copied()));
            format!("{faster} of {}, {median}", ratios.len())
        };
        let cells: Vec<String> = tables.iter().map(cell).collect();
        let _ = writeln!(text, "| {} | {} |", who.named(), cells.join(" | "));
    }
    text
}

/// The calls with masks, for each kind of mask.
fn masks(run: &Run) -> String {
    let mut text = String::from(
        "Masks of three kinds: half of the slots, at random; 1 %, at random; 1 % in a disc, as a brush makes. Ratios include the checks.

| call, mask | before | after | change | independent / library | best flat / library |
|---|--:|--:|--:|--:|--:|
",
    );
    let (Some(table), Some(own)) = (goals::usual(run.tables), goals::usual(run.own)) else {
        return String::new();
    };
    for name in ["increment_masked", "keep_masked", "map_of_mask"] {
        for kind in [HALF_SET, SPARSE, BRUSH] {
            let call = format!("{name}, {kind}");
            let Some(row) = table.find(&call) else {
                continue;
            };
            let flat = |row: &Row| Some(goals::best_flat(row)?.1.best / row.best(Who::Library)?);
            let times = own::compared(own, &call, run.before);
            let _ = writeln!(
                text,
                "| {call} | {} | {} | {} |",
                times.map_or(String::from(" | | "), |times| times.cells()),
                row.against(Who::Independent)
                    .map(decimal)
                    .unwrap_or_default(),
                flat(row).map(decimal).unwrap_or_default()
            );
        }
    }
    text + "\n"
}

/// The largest changes of calls that are in no line above.
fn others(compared: &[Compared], standings: &[goals::Standing]) -> String {
    let usual = format!("{}, {}", crate::SIZES[0].named(), percent(10));
    let is_above = |one: &&Compared| {
        let is_goal = standings.iter().any(|standing| standing.call() == one.call);
        one.maps == usual && (is_goal || one.call.contains("mask"))
    };
    let size = |one: &Compared| match one.change {
        Change::By(by) => by.abs(),
        Change::Noise => 0.0,
    };
    let mut changed: Vec<&Compared> = own::of_library(compared)
        .filter(|one| one.change != Change::Noise && !is_above(one))
        .collect();
    changed.sort_by(|a, b| size(b).total_cmp(&size(a)));
    if changed.is_empty() {
        return String::from("No other call changed by more than noise.\n");
    }
    let told: Vec<String> = changed
        .iter()
        .take(CHANGES)
        .map(|one| format!("{} ({}) {}", one.call, one.maps, one.change.named()))
        .collect();
    format!(
        "Other calls that changed by more than noise, {} in all, the largest first: {}.\n",
        changed.len(),
        told.join("; ")
    )
}

/// Tables for tests.
#[cfg(test)]
pub mod samples {
    use super::*;
    use crate::calls::CONTROL;
    use crate::scene::{Size, Spread};

    const EARLIER: &str = include_str!("../before.tsv");

    /// A row of times of the library, the independent program and flat Rust.
    pub fn row(call: &str, library: f64, independent: f64, flat: f64) -> Row {
        let mut row = Row::new(call, crate::SIZES[0].slots());
        row.add(times(&[
            (Who::Library, library),
            (Who::Independent, independent),
            (Who::FlatRust, flat),
            (Who::Memcpy, library),
        ]));
        row
    }

    /// A row of times of the library, of its checks alone and of a memcpy.
    pub fn checked_row(call: &str, library: f64, checks: f64, memcpy: f64) -> Row {
        let mut row = Row::new(call, crate::SIZES[0].slots());
        row.add(times(&[
            (Who::Library, library),
            (Who::Checks, checks),
            (Who::Memcpy, memcpy),
        ]));
        row
    }

    fn times(some: &[(Who, f64)]) -> [Option<f64>; EVERYONE.len()] {
        EVERYONE.map(|who| some.iter().find_map(|one| (one.0 == who).then_some(one.1)))
    }

    /// The usual maps with some rows.
    pub fn of_rows(rows: impl IntoIterator<Item = Row>) -> Table<'static> {
        of_maps(crate::SIZES[0], 10, Spread::Scattered, rows)
    }

    fn of_maps(
        size: Size,
        share: usize,
        spread: Spread,
        rows: impl IntoIterator<Item = Row>,
    ) -> Table<'static> {
        Table {
            rows: rows.into_iter().collect(),
            ..Table::of_maps(size, share, spread)
        }
    }

    /// A table of a minimum that takes 40 microseconds, of which `checks` are checks, and `spread`
    /// more in a second pass; 1,000 in the independent program, of which 200 are checks; 90 on flat
    /// arrays; 15 as a copy.
    pub fn table(checks: f64, spread: f64) -> Table<'static> {
        let mut row = Row::new("minimum", crate::SIZES[0].slots());
        for more in [0.0, spread] {
            row.add(times(&[
                (Who::Library, 40.0 + more),
                (Who::Checks, checks),
                (Who::Independent, 1_000.0),
                (Who::IndependentChecks, 200.0),
                (Who::FlatRust, 90.0),
                (Who::Memcpy, 15.0),
            ]));
        }
        of_rows([row])
    }

    /// Calls that the earlier state has not.
    const LATER: [&str; 6] = [
        "repair",
        "repair, 1 % dropped",
        "bundle_read",
        "bundle_row",
        "bundle_nearest",
        "bundle_write",
    ];

    /// The calls of the bench.
    pub fn calls() -> Vec<String> {
        let call = |line: &str| line.split('\t').nth(4).map(String::from);
        let mut calls: Vec<String> = EARLIER.lines().skip(1).filter_map(call).collect();
        calls.extend(LATER.map(String::from));
        calls.retain(|call| !call.starts_with(CONTROL));
        calls.sort();
        calls.dedup();
        calls
    }

    /// Tables of all calls, with long numbers, in which all others are ahead.
    pub fn full() -> Vec<Table<'static>> {
        let row = |call: &String| {
            let mut row = Row::new(call, crate::SIZES[0].slots());
            let times: Vec<(Who, f64)> = EVERYONE
                .into_iter()
                .zip([
                    4_567.8, 123.4, 1_234.5, 123.4, 123.4, 123.4, 123.4, 12.3, 123.4,
                ])
                .collect();
            row.add(self::times(&times));
            row
        };
        let rows = || calls().iter().map(row).collect::<Vec<_>>();
        let scattered = crate::SIZES.into_iter().flat_map(|size| {
            crate::SHARES.map(|share| of_maps(size, share, Spread::Scattered, rows()))
        });
        let clustered = of_maps(crate::SIZES[0], 100, Spread::Clustered, rows());
        scattered.chain([clustered]).collect()
    }
}

#[cfg(test)]
mod tests {
    use super::*;

    const DOCUMENT: &str = include_str!("../../../docs/BENCHMARKS.md");

    fn document_of(tables: &[Table], before: &str) -> String {
        document(&Run {
            tables: &tables[..tables.len().min(6)],
            growth: &tables[tables.len().min(6)..],
            own: tables,
            before: &Recorded::new(before),
            python: None,
            load: "0.00",
        })
    }

    #[test]
    fn the_document_is_short() {
        assert!(DOCUMENT.len() <= LONGEST, "{} bytes", DOCUMENT.len());
        let text = document_of(&samples::full(), include_str!("../before.tsv"));
        assert!(text.len() <= LONGEST, "{} bytes", text.len());
    }

    #[test]
    fn every_table_has_as_many_cells_in_each_line_as_headings() {
        let full = samples::full();
        let all: Vec<&Table> = full.iter().collect();
        let before = Recorded::new(include_str!("../before.tsv"));
        for text in [
            calls(&full),
            goals::tsv(&goals::standings(&all)),
            growth::tsv(&all),
            own::tsv(&full, &before),
            own::lines(&full),
        ] {
            let cells = |line: &str| line.split('\t').count();
            let heads = text.lines().next().map(cells);
            assert!(
                text.lines().all(|line| Some(cells(line)) == heads),
                "{text}"
            );
        }
    }

    #[test]
    fn missing_libraries_are_said_to_be_missing() {
        let text = document_of(&[samples::table(20.0, 0.0)], "");
        assert!(text.contains("numpy was missing"), "{text}");
    }

    #[test]
    fn a_goal_that_is_not_measurable_is_said_to_be_so() {
        let text = document_of(&[samples::table(45.0, 0.0)], "");
        assert!(text.contains("| not measurable here (2.5) |"), "{text}");
        assert!(text.contains("; not measurable here: 3."), "{text}");
    }

    #[test]
    fn times_before_stand_beside_those_after() {
        let line = "1024\t768\t1\tscattered\tminimum\t50.0\t1.0\n";
        let text = document_of(&[samples::table(20.0, 0.0)], &format!("heads\n{line}"));
        assert!(text.contains("| minimum | 50.0 | 40.0 | -20 % |"), "{text}");
        assert!(
            text.contains("1 became faster by more than noise, 0 slower"),
            "{text}"
        );
    }

    #[test]
    fn the_picture_has_a_bar_for_each_time() {
        let shown = samples::of_rows([samples::row("minimum", 10.0, 100.0, 20.0)]);
        let picture = picture::svg(&shown);
        assert_eq!(picture.matches("height=\"5\"").count(), 2, "{picture}");
        assert!(picture.ends_with("</svg>\n"));
    }
}
