//! The rows of one table: the calls on the maps of a scene, timed in several passes.

use crate::counterpart::Flat;
use crate::python::Python;
use crate::scene::{Scene, Size, Spread};
use crate::timing::{contestant, keep, race, Contestant, Time};
use std::hint::black_box;

/// Bytes.
const PAGE_OFFSET: usize = 2_112;

/// Who takes part in the race for a call.
#[derive(Clone, Copy, Debug, PartialEq, Eq)]
pub enum Who {
    Library,
    /// The library's checks of the files of the call, without the sum, and nothing else.
    Checks,
    /// The straightforward program on the same files.
    Independent,
    /// Its checks of the files of the call, without the sum, and nothing else.
    IndependentChecks,
    /// A plain loop over flat arrays.
    FlatRust,
    /// Instructions of SSE2 written by hand, in Rust.
    Sse2,
    Numpy,
    OpenCv,
    Memcpy,
}

pub const EVERYONE: [Who; 9] = [
    Who::Library,
    Who::Checks,
    Who::Independent,
    Who::IndependentChecks,
    Who::FlatRust,
    Who::Sse2,
    Who::Numpy,
    Who::OpenCv,
    Who::Memcpy,
];

/// Those who work on flat arrays.
pub const FLAT: [Who; 3] = [Who::FlatRust, Who::Numpy, Who::OpenCv];

/// Whom the library is compared with.
pub const OTHERS: [Who; 4] = [Who::Independent, Who::FlatRust, Who::Numpy, Who::OpenCv];

impl Who {
    /// The name in documents.
    pub fn named(self) -> &'static str {
        match self {
            Who::Library => "library",
            Who::Checks => "its checks",
            Who::Independent => "independent",
            Who::IndependentChecks => "independent's checks",
            Who::FlatRust => "flat Rust",
            Who::Sse2 => "SSE2 by hand",
            Who::Numpy => "numpy",
            Who::OpenCv => "OpenCV",
            Who::Memcpy => "memcpy",
        }
    }

    /// The column of a table of tab-separated values.
    pub fn column(self) -> &'static str {
        match self {
            Who::Library => "library",
            Who::Checks => "library_checks",
            Who::Independent => "independent",
            Who::IndependentChecks => "independent_checks",
            Who::FlatRust => "flat_rust",
            Who::Sse2 => "sse2_by_hand",
            Who::Numpy => "numpy",
            Who::OpenCv => "opencv",
            Who::Memcpy => "memcpy",
        }
    }
}

/// Who is let into the races of a table.
#[derive(Clone, Copy, PartialEq, Eq)]
pub enum Entrants {
    Library,
    LibraryAndFlatRust,
    All,
}

impl Entrants {
    fn admit(self, who: Who) -> bool {
        match self {
            Entrants::Library => who == Who::Library,
            Entrants::LibraryAndFlatRust => matches!(who, Who::Library | Who::FlatRust),
            Entrants::All => true,
        }
    }
}

/// A call as the contestants make it.
pub struct Race<'a, 'f> {
    pub library: Contestant<'a>,
    pub independent: Contestant<'a>,
    /// The files that both of them check.
    pub files: &'a [&'a [u8]],
    pub flat: Flat<'f>,
    pub sse2: Option<Contestant<'a>>,
    /// Bytes that are read and written in all, where a memcpy with as much traffic takes part.
    pub traffic: Option<usize>,
}

/// The times of a call.
pub struct Row {
    pub call: String,
    /// Slots of the map.
    pub slots: usize,
    /// Microseconds a call of each contestant, pass by pass.
    passes: [Vec<f64>; EVERYONE.len()],
}

impl Row {
    pub fn new(call: &str, slots: usize) -> Row {
        Row {
            call: call.to_string(),
            slots,
            passes: Default::default(),
        }
    }

    /// Adds the times of a pass.
    pub fn add(&mut self, times: [Option<f64>; EVERYONE.len()]) {
        for (passes, time) in self.passes.iter_mut().zip(times) {
            passes.extend(time);
        }
    }

    pub fn time(&self, who: Who) -> Option<Time> {
        Time::of(&self.passes[who as usize])
    }

    /// Microseconds a call, the best pass.
    pub fn best(&self, who: Who) -> Option<f64> {
        self.time(who).map(|time| time.best)
    }

    /// The other's time divided by the library's.
    pub fn against(&self, who: Who) -> Option<f64> {
        Some(self.best(who)? / self.best(Who::Library)?)
    }

    /// Picoseconds a slot of the map.
    pub fn ps_a_slot(&self, who: Who) -> Option<f64> {
        Some(self.best(who)? * 1e6 / self.slots as f64)
    }

    /// Whether the call has to do with all slots of a map, and not with a few of them.
    pub fn is_whole(&self) -> bool {
        let few = ["lookup", "edit", "bundle_row"];
        !few.iter().any(|call| self.call.starts_with(call))
    }
}

/// A column of numbers: its heading, and how a row has it.
pub type Column = (&'static str, fn(&Row) -> Option<f64>);

/// The calls on the maps of a scene.
pub struct Table<'a> {
    pub size: Size,
    /// Slots in overflow, in thousandths.
    pub share: usize,
    pub spread: Spread,
    pub title: String,
    pub rows: Vec<Row>,
    pub entrants: Entrants,
    /// The process with numpy and OpenCV, and the number that the scene has there.
    pub python: Option<(&'a Python, String)>,
}

impl<'a> Table<'a> {
    pub fn new(scene: &Scene, entrants: Entrants, python: Option<&'a Python>) -> Table<'a> {
        let Size { width, height } = scene.size;
        let mut table = Table::of_maps(scene.size, scene.share, scene.spread);
        table.title = format!(
            "{} by {}, {} in overflow{}: n = {}, k = {}, {} bytes",
            thousands(width),
            thousands(height),
            percent(scene.share),
            match scene.spread {
                Spread::Scattered => "",
                Spread::Clustered => ", clustered",
            },
            thousands(scene.size.slots()),
            thousands(scene.a.slots.len()),
            thousands(scene.a.file.len())
        );
        Table {
            entrants,
            python: python.map(|python| (python, python.take(scene))),
            ..table
        }
    }

    /// A table without rows.
    pub fn of_maps(size: Size, share: usize, spread: Spread) -> Table<'a> {
        Table {
            size,
            share,
            spread,
            title: String::new(),
            rows: Vec::new(),
            entrants: Entrants::All,
            python: None,
        }
    }

    /// Times a call that reads and writes `traffic` bytes in all, beside the independent program's,
    /// those on flat arrays and a memcpy with as much traffic, and their checks of `files` alone.
    /// Neither call may be refused.
    pub fn row<T, U, E>(
        &mut self,
        call: &str,
        traffic: usize,
        files: &[&[u8]],
        mut library: impl FnMut() -> Result<T, pciv::Refusal>,
        mut reference: impl FnMut() -> Result<U, E>,
        flat: Flat,
    ) {
        assert!(library().is_ok() && reference().is_ok(), "{call} refused");
        self.run(
            call,
            Race {
                library: contestant(|| keep(library())),
                independent: contestant(|| keep(reference())),
                files,
                flat,
                sse2: None,
                traffic: Some(traffic),
            },
        );
    }

    /// Runs a race, and adds the times to the row of the call.
    pub fn run(&mut self, call: &str, contestants: Race) {
        let Race {
            library,
            independent,
            files,
            mut flat,
            sse2,
            traffic,
        } = contestants;
        if self.find(call).is_none() {
            self.compare_results(call, &mut flat);
        }
        let checks = |check: fn(&[u8])| {
            let each = move || files.iter().for_each(|file| check(black_box(file)));
            (!files.is_empty()).then(|| contestant(each))
        };
        let is_here = |who| self.entrants.admit(who);
        let python = self.python.as_ref().map(|(python, _)| *python);
        let flat_library = |name| python.and_then(|python| python.contestant(name, call));
        let mut contestants = [
            Some(library),
            checks(|file| keep(pciv::primary(file))),
            Some(independent),
            checks(|file| keep(reference::primary(file))),
            flat.contestant(self.size.slots()),
            sse2,
            flat_library("numpy"),
            flat_library("opencv"),
            traffic.filter(|_| is_here(Who::Memcpy)).map(copy),
        ];
        for (who, contestant) in EVERYONE.into_iter().zip(&mut contestants) {
            contestant.take_if(|_| !is_here(who));
        }
        let times = race(contestants);
        self.push(call, times);
    }

    /// Adds the times of a pass to the row of the call, which is made by the first one.
    pub fn push(&mut self, call: &str, times: [Option<f64>; EVERYONE.len()]) {
        let slots = self.size.slots();
        let place = self.rows.iter().position(|row| row.call == call);
        let place = place.unwrap_or_else(|| {
            self.rows.push(Row::new(call, slots));
            self.rows.len() - 1
        });
        self.rows[place].add(times);
    }

    /// Holds numpy and OpenCV to the result on flat arrays in Rust.
    fn compare_results(&self, call: &str, flat: &mut Flat) {
        let Some((python, _)) = &self.python else {
            return;
        };
        let Some(digest) = flat.digest(self.size.slots()) else {
            return;
        };
        for library in ["numpy", "opencv"] {
            let theirs = python.digest(library, call);
            assert!(
                theirs.is_none_or(|theirs| theirs == digest),
                "{library} differs: {call}"
            );
        }
    }

    /// The row of a call.
    pub fn find(&self, call: &str) -> Option<&Row> {
        self.rows.iter().find(|row| row.call == call)
    }

    /// The size and the share in overflow.
    pub fn named(&self) -> String {
        let layout = match self.spread {
            Spread::Scattered => "",
            Spread::Clustered => " clustered",
        };
        format!("{}, {}{layout}", self.size.named(), percent(self.share))
    }

    /// The table in Markdown.
    pub fn markdown(&self, columns: &[Column]) -> String {
        let width = |heading: &str| heading.len().max(9);
        let line = |call: &str, cells: Vec<String>| {
            let cells = cells.iter().zip(columns);
            let cells = cells.map(|(cell, (heading, _))| format!(" {cell:>0$} |", width(heading)));
            format!("| {call:<29} |{}\n", cells.collect::<String>())
        };
        let headings = columns.iter().map(|(heading, _)| heading.to_string());
        let mut text = line("call", headings.collect());
        text += &line("---", columns.iter().map(|_| "--:".to_string()).collect());
        for row in &self.rows {
            let number = |(_, value): &Column| value(row).map(decimal).unwrap_or_default();
            text += &line(&row.call, columns.iter().map(number).collect());
        }
        text
    }
}

/// A memcpy that reads and writes as many bytes in all.
fn copy(traffic: usize) -> Contestant<'static> {
    let from = vec![1u8; traffic / 2];
    // Not at the same place in a page as what it is copied from: that would slow a copy down.
    let mut to = vec![1u8; traffic / 2 + PAGE_OFFSET];
    contestant(move || black_box(&mut to[PAGE_OFFSET..]).copy_from_slice(black_box(&from)))
}

/// A number to about three figures.
pub fn decimal(number: f64) -> String {
    match number {
        1e3.. => thousands(number.round() as usize),
        1e2.. => format!("{number:.0}"),
        1e1.. => format!("{number:.1}"),
        0.095.. => format!("{number:.2}"),
        _ => {
            let places = 1 + -number.max(1e-9).log10().floor() as usize;
            format!("{number:.places$}")
        }
    }
}

/// A whole number with a comma at each thousand.
pub fn thousands(number: usize) -> String {
    match number {
        0..1_000 => number.to_string(),
        _ => format!("{},{:03}", thousands(number / 1_000), number % 1_000),
    }
}

/// Thousandths as a percentage.
pub fn percent(share: usize) -> String {
    format!("{} %", share as f64 / 10.0)
}
