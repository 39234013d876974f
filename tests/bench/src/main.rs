//! Times the library beside the reference, a straightforward program, plain loops over flat arrays,
//! and a memcpy.
//!
//! | Command | What it does |
//! |---|---|
//! | `bench` | prints the times of each call and their ratios |
//! | `bench own` | prints the library's own times, as `tests/bench/before.tsv` holds those of an earlier state |
//! | `bench report` | times numpy and OpenCV on flat arrays too, and writes `docs/BENCHMARKS.md`, its picture, and the tables in `docs/benchmarks` |
//!
//! Contestants take turns. A pass over all calls has the best round of each, a time is that of the
//! best pass, and its spread is what the passes differ by. Every call includes its checks of the
//! files. Buffers are warm, and as long as the result. One thread.

mod behind;
mod calls;
mod counterpart;
mod flat;
mod goals;
mod growth;
mod own;
mod picture;
mod python;
mod report;
mod scene;
mod table;
mod timing;

use python::Python;
use scene::{Scene, Size, Spread};
use std::path::Path;
use std::time::Instant;
use table::{Column, Entrants, Table, Who};
use timing::ROUNDS;

/// Sizes of the tables.
const SIZES: [Size; 2] = [size(1_024, 768), size(160, 120)];
/// Sizes of maps whose costs are compared slot by slot.
const GROWTH_SIZES: [Size; 3] = [size(160, 120), size(1_024, 768), size(1_024, 1_024)];
/// Slots in overflow, in thousandths.
const SHARES: [usize; 3] = [1, 10, 100];

/// Passes over the calls of a table, and of one that only shows how costs grow.
const PASSES: usize = 7;
const GROWTH_PASSES: usize = 3;

const COLUMNS: [Column; 8] = [
    ("library", |row| row.best(Who::Library)),
    ("reference", |row| row.best(Who::Independent)),
    ("flat Rust", |row| row.best(Who::FlatRust)),
    ("memcpy", |row| row.best(Who::Memcpy)),
    ("ps a slot", |row| {
        row.ps_a_slot(Who::Library).filter(|_| row.is_whole())
    }),
    ("reference / library", |row| row.against(Who::Independent)),
    ("flat Rust / library", |row| row.against(Who::FlatRust)),
    ("library / memcpy", |row| {
        row.against(Who::Memcpy).map(f64::recip)
    }),
];

const fn size(width: usize, height: usize) -> Size {
    Size { width, height }
}

fn main() {
    let root = Path::new(env!("CARGO_MANIFEST_DIR")).ancestors().nth(2);
    let root = root.expect("tests/bench");
    match std::env::args().nth(1).as_deref() {
        None => print_tables(),
        Some("own") => print!("{}", own::lines(&own::times())),
        Some(own::ONE_PASS) => print!("{}", own::lines(&own::one_pass())),
        Some("report") => write_report(root),
        Some(other) => {
            eprintln!("no such command: {other}");
            std::process::exit(2);
        }
    }
}

fn print_tables() {
    println!(
        "Microseconds a call, the best of {ROUNDS} rounds in each of {PASSES} passes. Overflow \
         slots are scattered at random. {}",
        report::MEMCPY
    );
    for table in timed(scenes(), PASSES, |_| Entrants::All, None) {
        println!("\n### {}\n\n{}", table.title, table.markdown(&COLUMNS));
    }
}

fn write_report(root: &Path) {
    let start = Instant::now();
    let said = |what: &str| println!("{:4} s: {what}", start.elapsed().as_secs());
    let load = report::load();
    let python = Python::start(root);
    let own = own::times();
    said("the library's own times");
    let tables = timed(scenes(), PASSES, |_| Entrants::All, python.as_ref());
    said("the tables of all contestants");
    let entrants = |scene: &Scene| match goals::is_about(scene) {
        true => Entrants::All,
        false => Entrants::LibraryAndFlatRust,
    };
    let growth = timed(growth_scenes(), GROWTH_PASSES, entrants, None);
    said("how costs grow");
    let run = report::Run {
        tables: &tables,
        growth: &growth,
        own: &own,
        before: &own::read_before(root),
        python: python.as_ref(),
        load: &load,
    };
    report::write(root, &run);
    said("written");
}

/// The scenes of the tables.
fn scenes() -> impl Iterator<Item = Scene> {
    let each = |size| SHARES.map(|share| Scene::new(size, share, Spread::Scattered));
    SIZES.into_iter().flat_map(each)
}

/// The scenes beside them that show how costs grow.
fn growth_scenes() -> impl Iterator<Item = Scene> {
    let spreads = [Spread::Scattered, Spread::Clustered];
    let each = move |size| {
        let shares = spreads.map(|spread| SHARES.map(|share| (size, share, spread)));
        shares.into_iter().flatten()
    };
    let all = GROWTH_SIZES.into_iter().flat_map(each);
    let is_new = |&(size, _, spread): &(Size, usize, Spread)| {
        spread == Spread::Clustered || !SIZES.contains(&size)
    };
    let scene = |(size, share, spread)| Scene::new(size, share, spread);
    all.filter(is_new).map(scene)
}

/// The tables of scenes. A pass goes over all of them, since a machine is slow now and then for longer
/// than a table takes.
fn timed<'a>(
    scenes: impl Iterator<Item = Scene>,
    passes: usize,
    entrants: impl Fn(&Scene) -> Entrants,
    python: Option<&'a Python>,
) -> Vec<Table<'a>> {
    let scenes: Vec<Scene> = scenes.collect();
    let table = |scene| Table::new(scene, entrants(scene), python);
    let mut tables: Vec<Table> = scenes.iter().map(table).collect();
    for _ in 0..passes {
        for (table, scene) in tables.iter_mut().zip(&scenes) {
            calls::pass(table, scene);
        }
    }
    tables
}
