//! The library's own times, beside those of an earlier state of it.

use crate::calls::{self, CONTROL};
use crate::scene::{Scene, Size, Spread};
use crate::table::{decimal, Entrants, Table, Who, EVERYONE};
use crate::timing::Time;
use crate::{goals, SIZES};
use std::env;
use std::fmt::Write;
use std::fs;
use std::path::Path;
use std::process::Command;

/// Passes over the calls, with nobody else in the races. Each is a process of its own, as the two runs
/// are that are compared.
pub const PASSES: usize = 9;
/// The command of this program that makes one pass.
pub const ONE_PASS: &str = "own-pass";

/// The times of an earlier state: what `bench own` printed, linked with its archive.
const BEFORE: &str = "tests/bench/before.tsv";

const HEADER: &str = "width\theight\toverflow\tlayout\tcall\tmicroseconds\tspread\n";

/// A change of at most this part of a time is called noise, whatever the spreads: builds of this program
/// over one archive differed by up to 12 % in a call, the same way in every run, while runs of one build
/// agreed. Before and after are always two builds.
const LEAST_NOISE: f64 = 0.13;
/// The same for what has nothing to do with the library.
const LEAST_CONTROL_NOISE: f64 = 0.02;

/// The maps: those of the goals, and small ones.
fn kinds() -> impl Iterator<Item = (Size, usize, Spread)> {
    goals::maps().chain([(SIZES[1], 10, Spread::Scattered)])
}

/// One pass over the calls on all maps.
pub fn one_pass() -> Vec<Table<'static>> {
    let table = |(size, share, spread)| {
        let scene = Scene::new(size, share, spread);
        let mut table = Table::new(&scene, Entrants::Library, None);
        calls::pass(&mut table, &scene);
        table
    };
    kinds().map(table).collect()
}

/// All passes.
pub fn times() -> Vec<Table<'static>> {
    let empty = |(size, share, spread)| Table::of_maps(size, share, spread);
    let mut tables: Vec<Table> = kinds().map(empty).collect();
    for _ in 0..PASSES {
        let program = env::current_exe().expect("this program");
        let output = Command::new(program).arg(ONE_PASS).output();
        let output = output.expect("a pass");
        assert!(output.status.success(), "a pass failed");
        let pass = Recorded::new(&String::from_utf8_lossy(&output.stdout));
        tables.iter_mut().for_each(|table| pass.add_to(table));
    }
    tables
}

/// The columns that say which maps a line is about.
pub fn maps(table: &Table) -> String {
    format!(
        "{}\t{}\t{}\t{}",
        table.size.width,
        table.size.height,
        table.share as f64 / 10.0,
        match table.spread {
            Spread::Scattered => "scattered",
            Spread::Clustered => "clustered",
        }
    )
}

/// A time with its spread, in two columns.
fn columns(time: Option<Time>) -> String {
    match time {
        Some(time) => format!("{:.4}\t{:.4}", time.best, time.spread),
        None => String::from("\t"),
    }
}

/// A line for each call.
pub fn lines(tables: &[Table]) -> String {
    let mut text = String::from(HEADER);
    for table in tables {
        for row in &table.rows {
            let time = columns(row.time(Who::Library));
            let _ = writeln!(text, "{}\t{}\t{time}", maps(table), row.call);
        }
    }
    text
}

/// Times from such lines, by maps and call.
pub struct Recorded(Vec<(String, Time)>);

/// Those of the earlier state.
pub fn read_before(root: &Path) -> Recorded {
    Recorded::new(&fs::read_to_string(root.join(BEFORE)).unwrap_or_default())
}

impl Recorded {
    pub fn new(text: &str) -> Recorded {
        let line = |line: &str| {
            let (rest, spread) = line.rsplit_once('\t')?;
            let (key, best) = rest.rsplit_once('\t')?;
            let (best, spread) = (best.parse().ok()?, spread.parse().ok()?);
            Some((key.to_string(), Time { best, spread }))
        };
        Recorded(text.lines().skip(1).filter_map(line).collect())
    }

    /// Adds the calls on the maps of a table to it, as a pass.
    fn add_to(&self, table: &mut Table) {
        let maps = maps(table) + "\t";
        for (key, time) in &self.0 {
            if let Some(call) = key.strip_prefix(&maps) {
                let mut times = [None; EVERYONE.len()];
                times[Who::Library as usize] = Some(time.best);
                table.push(call, times);
            }
        }
    }

    fn find(&self, table: &Table, call: &str) -> Option<Time> {
        let key = format!("{}\t{call}", maps(table));
        self.0
            .iter()
            .find_map(|(k, time)| (*k == key).then_some(*time))
    }
}

/// What became of a time.
#[derive(Clone, Copy, Debug, PartialEq)]
pub enum Change {
    /// Less than two runs of the same code may differ by.
    Noise,
    /// By how much of the earlier time, below 0 where the call is faster.
    By(f64),
}

impl Change {
    /// `least` is the part of the earlier time that is noise in any case.
    fn of(before: Time, after: Time, least: f64) -> Change {
        let noise = (before.spread + after.spread).max(least * before.best);
        let by = after.best - before.best;
        match by.abs() > noise {
            true => Change::By(by / before.best),
            false => Change::Noise,
        }
    }

    pub fn named(self) -> String {
        match self {
            Change::Noise => String::from("noise"),
            Change::By(by) => format!("{:+.0} %", by * 100.0),
        }
    }

    pub fn is_faster(self) -> bool {
        matches!(self, Change::By(by) if by < 0.0)
    }

    pub fn is_slower(self) -> bool {
        matches!(self, Change::By(by) if by > 0.0)
    }
}

/// A call before and after.
pub struct Compared {
    pub maps: String,
    pub call: String,
    pub before: Time,
    pub after: Time,
    pub change: Change,
}

impl Compared {
    /// Before, after and the change, as cells of a table.
    pub fn cells(&self) -> String {
        format!(
            "{} | {} | {}",
            decimal(self.before.best),
            decimal(self.after.best),
            self.change.named()
        )
    }

    fn is_control(&self) -> bool {
        self.call.starts_with(CONTROL)
    }
}

/// A call of a table before and after.
pub fn compared(table: &Table, call: &str, before: &Recorded) -> Option<Compared> {
    let after = table.find(call)?.time(Who::Library)?;
    let before = before.find(table, call)?;
    let least = match call.starts_with(CONTROL) {
        true => LEAST_CONTROL_NOISE,
        false => LEAST_NOISE,
    };
    Some(Compared {
        maps: table.named(),
        call: call.to_string(),
        before,
        after,
        change: Change::of(before, after, least),
    })
}

/// All of them.
pub fn all(tables: &[Table], before: &Recorded) -> Vec<Compared> {
    let each = |table: &Table| -> Vec<Compared> {
        let rows = table.rows.iter();
        rows.filter_map(|row| compared(table, &row.call, before))
            .collect()
    };
    tables.iter().flat_map(each).collect()
}

/// What the calls that have nothing to do with the library say of the machine.
pub fn machine(compared: &[Compared]) -> String {
    let controls: Vec<&Compared> = compared.iter().filter(|one| one.is_control()).collect();
    let changed = controls.iter().filter_map(|one| match one.change {
        Change::By(by) => Some(by),
        Change::Noise => None,
    });
    let most = changed.max_by(|a, b| a.abs().total_cmp(&b.abs()));
    match (controls.is_empty(), most) {
        (true, _) => String::from("Nothing says whether the machine was as fast then"),
        (_, None) => String::from("A memcpy and a loop of the bench itself took as long then"),
        (_, Some(by)) => format!(
            "**The machine was another or not as quiet then**: a memcpy or a loop of the bench itself changed too, {}",
            Change::By(by).named()
        ),
    }
}

/// The calls of the library among them.
pub fn of_library(compared: &[Compared]) -> impl Iterator<Item = &Compared> {
    compared.iter().filter(|one| !one.is_control())
}

/// A table of tab-separated values.
pub fn tsv(tables: &[Table], before: &Recorded) -> String {
    let mut text = String::from(
        "width\theight\toverflow\tlayout\tcall\tbefore\tbefore_spread\tafter\tafter_spread\tchange\n",
    );
    for table in tables {
        for row in &table.rows {
            let change = compared(table, &row.call, before).map(|one| one.change.named());
            let _ = writeln!(
                text,
                "{}\t{}\t{}\t{}\t{}",
                maps(table),
                row.call,
                columns(before.find(table, &row.call)),
                columns(row.time(Who::Library)),
                change.unwrap_or_default()
            );
        }
    }
    text
}

#[cfg(test)]
mod tests {
    use super::*;

    const EARLIER: &str = include_str!("../before.tsv");

    fn time(best: f64, spread: f64) -> Time {
        Time { best, spread }
    }

    #[test]
    fn a_change_is_larger_than_the_spread_of_both_times() {
        let change = |before, after| Change::of(before, after, LEAST_NOISE);
        assert_eq!(change(time(10.0, 3.0), time(12.9, 0.0)), Change::Noise);
        assert_eq!(change(time(10.0, 1.5), time(7.1, 1.5)), Change::Noise);
        assert_eq!(change(time(10.0, 0.0), time(11.2, 0.0)), Change::Noise);
        assert_eq!(change(time(10.0, 1.0), time(5.0, 1.0)), Change::By(-0.5));
        assert_eq!(change(time(10.0, 1.0), time(20.0, 1.0)), Change::By(1.0));
        assert_eq!(Change::By(-0.5).named(), "-50 %");
        assert!(Change::By(-0.5).is_faster() && !Change::By(-0.5).is_slower());
    }

    #[test]
    fn a_machine_that_was_slower_is_told() {
        let (size, share, spread) = kinds().next().expect("maps");
        let mut table = Table::of_maps(size, share, spread);
        let record = |call: &str, time: &str| {
            let maps = maps(&Table::of_maps(size, share, spread));
            Recorded::new(&format!("{HEADER}{maps}\t{CONTROL}{call}\t{time}\t0\n"))
        };
        record("memcpy", "10").add_to(&mut table);
        let tables = [table];
        let told = |time| machine(&all(&tables, &record("memcpy", time)));
        assert!(told("10").starts_with("A memcpy and a loop"));
        assert!(told("20").ends_with("changed too, -50 %"));
        assert!(machine(&[]).starts_with("Nothing says"));
    }

    #[test]
    fn passes_are_put_together() {
        let (size, share, spread) = kinds().next().expect("maps");
        let mut table = Table::of_maps(size, share, spread);
        for microseconds in [7, 5] {
            let line = format!("{}\tsum\t{microseconds}\t0", maps(&table));
            Recorded::new(&format!("{HEADER}{line}\n")).add_to(&mut table);
        }
        let text = lines(&[table]);
        assert!(text.ends_with("\tsum\t5.0000\t2.0000\n"), "{text}");
    }

    #[test]
    fn the_earlier_times_are_of_calls_on_maps_of_the_bench() {
        assert!(EARLIER.starts_with(HEADER), "its first line");
        let before = Recorded::new(EARLIER);
        assert_eq!(before.0.len(), EARLIER.lines().count() - 1);
        let named = |(size, share, spread)| maps(&Table::of_maps(size, share, spread));
        let tables: Vec<String> = kinds().map(named).collect();
        for (key, time) in &before.0 {
            assert!(tables.iter().any(|maps| key.starts_with(maps)), "{key}");
            assert!(time.best > 0.0 && time.spread >= 0.0, "{key}");
        }
    }
}
