//! Holds the library to the files of `tests/vectors` and to their tables of answers:
//! `vectors FOLDER`. It reads them as any other implementation's test would, without the reference.

mod bundles;
mod maps;

use pciv::Refusal;
use std::collections::BTreeSet;
use std::fmt::Debug;
use std::path::Path;
use std::{env, fs, process};

const README: &str = "README.md";

/// Nothing, or what is wrong.
type Verdict = Result<(), String>;

/// A kind of files: their extension, their table, and how a line of it is held to its file.
struct Kind {
    extension: &'static str,
    table: &'static str,
    columns: &'static str,
    /// Gets the name without the extension, the fields after it, and the file.
    judge: fn(&str, &[&str], &[u8]) -> Verdict,
}

const KINDS: [Kind; 2] = [
    Kind {
        extension: ".pciv",
        table: "expected.tsv",
        columns: maps::COLUMNS,
        judge: maps::judge,
    },
    Kind {
        extension: ".pcib",
        table: "expected-pcib.tsv",
        columns: bundles::COLUMNS,
        judge: bundles::judge,
    },
];

fn main() {
    let folder = env::args().nth(1).expect("usage: vectors FOLDER");
    let folder = Path::new(&folder);
    let mut failures = 0;
    let mut judge = |what: &str, verdict: Verdict| {
        if let Err(wrong) = verdict {
            println!("vectors: {what}: {wrong}");
            failures += 1;
        }
    };
    let mut names = BTreeSet::new();
    for kind in KINDS {
        let table = text(&folder.join(kind.table));
        let columns = table.lines().next();
        judge(kind.table, same("columns", Some(kind.columns), columns));
        judge(kind.table, same("lines", true, table.lines().count() > 1));
        for (name, fields) in lines(&table) {
            let is_new = names.insert(name.to_string());
            judge(name, same("the only line of its name", true, is_new));
            let file = fs::read(folder.join(name)).unwrap_or_default();
            let stem = name.strip_suffix(kind.extension);
            let stem = stem.ok_or(format!("not a {} file", kind.extension));
            let verdict = stem.and_then(|stem| (kind.judge)(stem, &fields, &file));
            judge(name, verdict);
        }
    }
    let in_readme = names_in(&text(&folder.join(README)));
    judge("files and lines", same_names(&names_of(folder), &names));
    judge(
        "rows of the README and lines",
        same_names(&in_readme, &names),
    );
    println!("vectors: {} files, {failures} failures", names.len());
    process::exit(i32::from(failures > 0));
}

fn text(path: &Path) -> String {
    fs::read_to_string(path).unwrap_or_else(|error| panic!("{}: {error}", path.display()))
}

/// The lines of a table after the first: a file's name, and the other fields.
fn lines(table: &str) -> Vec<(&str, Vec<&str>)> {
    let rows = table.lines().skip(1).map(|line| line.split('\t'));
    rows.map(|mut fields| (fields.next().unwrap_or_default(), fields.collect()))
        .collect()
}

/// The names of all files in the folder but the tables and the README.
fn names_of(folder: &Path) -> BTreeSet<String> {
    let entries = fs::read_dir(folder).expect("a folder");
    let is_table = |name: &String| KINDS.iter().any(|kind| name == kind.table);
    entries
        .map(|entry| entry.expect("an entry").file_name())
        .map(|name| name.into_string().expect("a name in UTF-8"))
        .filter(|name| !is_table(name) && name != README)
        .collect()
}

/// The file names that the README has a row for.
fn names_in(readme: &str) -> BTreeSet<String> {
    let rows = readme.lines().filter_map(|line| line.strip_prefix("| `"));
    let names = rows.filter_map(|row| row.split('`').next());
    names
        .filter(|name| name.contains('.'))
        .map(String::from)
        .collect()
}

/// Each name has a line, and each line one of the names.
fn same_names(names: &BTreeSet<String>, lines: &BTreeSet<String>) -> Verdict {
    let odd: Vec<_> = names.symmetric_difference(lines).collect();
    match odd.is_empty() {
        true => Ok(()),
        false => Err(format!("not in both: {odd:?}")),
    }
}

/// What a line says: the refusal, or the other fields, none where there is `-`.
fn parse<const N: usize>(fields: &[&str]) -> Result<Result<[Option<u64>; N], Refusal>, String> {
    let numbers = fields.iter().map(|field| match *field {
        "-" => Ok(None),
        digits => digits.parse::<u64>().map(Some),
    });
    let numbers: Vec<_> = numbers
        .collect::<Result<_, _>>()
        .map_err(|error| format!("a field: {error}"))?;
    let Some(([number, map, place], rest)) = numbers.split_first_chunk() else {
        return Err("no refusal".into());
    };
    let rest = rest.try_into().map_err(|_| "another number of fields")?;
    let refusal = Refusal {
        number: needed(*number)?,
        map: needed(*map)?,
        place: needed(*place)?,
    };
    if refusal.number > 0 {
        same("fields of a sound file", [None; N], rest)?;
        return Ok(Err(refusal));
    }
    same("refusal", Refusal::default(), refusal)?;
    Ok(Ok(rest))
}

/// What a line says of a list of distances.
#[derive(Debug, PartialEq)]
struct Distances {
    sum: u64,
    readings: u64,
    first: Option<u64>,
    last: Option<u64>,
    weighted: u64,
}

impl Distances {
    fn of(list: &[u32]) -> Distances {
        let wide = || list.iter().copied().map(u64::from);
        let weighted = (1..).zip(wide()).map(|(i, distance)| i * distance);
        Distances {
            sum: wide().sum(),
            readings: wide().filter(|&distance| distance > 0).count() as u64,
            first: wide().next(),
            last: wide().next_back(),
            weighted: weighted.sum(),
        }
    }
}

fn needed(field: Option<u64>) -> Result<u64, String> {
    field.ok_or("a field is missing".into())
}

/// A name without its extension, word by word.
struct Words<'a>(Vec<&'a str>);

impl<'a> Words<'a> {
    fn of(stem: &'a str) -> Words<'a> {
        Words(stem.split('-').collect())
    }

    fn verdict(&self, verdict: &str) -> Verdict {
        same("verdict in the name", verdict, self.0[0])
    }

    /// The number before a word, or after it, where the name has it.
    fn before(&self, word: &str) -> Option<u64> {
        self.number(self.place(word)?.checked_sub(1)?)
    }

    fn after(&self, word: &str) -> Option<u64> {
        self.number(self.place(word)? + 1)
    }

    fn place(&self, word: &str) -> Option<usize> {
        self.0.iter().position(|other| *other == word)
    }

    fn number(&self, at: usize) -> Option<u64> {
        self.0.get(at)?.parse().ok()
    }

    /// The name of a refused file: `bad-NN`, then map and place as far as they are told.
    fn refused(&self, number: u64, map: Option<u64>, place: Option<u64>) -> Verdict {
        self.verdict("bad")?;
        let mut wanted = vec![format!("{number:02}")];
        for (word, told) in [("map", map), ("place", place)] {
            let is_there = self.place(word).is_some();
            same(&format!("{word} in the name"), told.is_some(), is_there)?;
            wanted.extend(
                told.into_iter()
                    .flat_map(|told| [word.into(), told.to_string()]),
            );
        }
        let words = self.0.get(1..=wanted.len()).unwrap_or_default();
        same(
            "number, map and place in the name",
            &wanted[..].join("-"),
            &words.join("-"),
        )
    }
}

fn same<T: PartialEq + Debug>(what: &str, expected: T, actual: T) -> Verdict {
    match expected == actual {
        true => Ok(()),
        false => Err(format!("{what}: expected {expected:?}, got {actual:?}")),
    }
}
