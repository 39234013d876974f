//! `repair MAP SLOTS FAR OUT`: repairs a map whose header or sparse index is spoiled, of so many slots
//! and overflow (far) entries. Prints a line for each correction, its four numbers and then what it is
//! about, and last the summary of the repaired map. That is OUT.tmp at first and becomes OUT when all
//! is done; OUT may be MAP. Exits with 0 when done, 1 where a file cannot be read or written, 2 where
//! it is called in another way, 3 where the library refuses.

use pciv::{Correction, Refusal, Repaired};
use std::ffi::{OsStr, OsString};
use std::io::{self, Write};
use std::{env, error::Error, fs, process::ExitCode};

const MAX_SLOTS: u64 = 1_048_576;

fn main() -> ExitCode {
    let arguments: Vec<OsString> = env::args_os().skip(1).collect();
    let [map, slots, far, out] = &arguments[..] else {
        return usage();
    };
    let (Some(n), Some(k)) = (read_count(slots), read_count(far)) else {
        return usage();
    };
    match repair(map, n, k, out) {
        Ok(()) => ExitCode::SUCCESS,
        Err(error) => match error.downcast_ref() {
            Some(Refusal {
                number,
                map: at_fault,
                place,
            }) => {
                eprintln!("refused {number} map {at_fault} place {place}");
                eprintln!("repair: {}", named(map, reason(*number)));
                ExitCode::from(3)
            }
            None => {
                eprintln!("repair: {error}");
                ExitCode::FAILURE
            }
        },
    }
}

fn usage() -> ExitCode {
    eprintln!("usage: repair MAP SLOTS FAR OUT, with how many slots and overflow entries MAP has");
    ExitCode::from(2)
}

/// Digits alone, and no more than 64 bits hold.
fn read_count(text: &OsStr) -> Option<u64> {
    let text = text.to_str().filter(|text| !text.starts_with('+'))?;
    text.parse().ok()
}

fn repair(map: &OsStr, n: u64, k: u64, out: &OsStr) -> Result<(), Box<dyn Error>> {
    let file = fs::read(map).map_err(|error| named(map, error))?;
    let slots = if n <= MAX_SLOTS { n } else { 0 };
    let entries = if k <= slots { k } else { 0 };
    let mut bytes = vec![0; pciv::longest_file(slots)];
    let mut corrections = vec![Correction::default(); pciv::most_corrections(slots, entries)];
    let repaired = pciv::repair(&file, n, k, &mut bytes, &mut corrections)?;
    print(&repaired, &corrections).map_err(|error| format!("standard output: {error}"))?;
    write_file(out, &bytes[..repaired.summary.len as usize])
}

fn print(repaired: &Repaired, corrections: &[Correction]) -> io::Result<()> {
    let mut text = io::BufWriter::new(io::stdout().lock());
    let Repaired { summary, lines } = repaired;
    for line in &corrections[..*lines] {
        let Correction {
            kind,
            place,
            before,
            after,
        } = line;
        writeln!(text, "{kind} {place} {before} {after} ({})", about(line))?;
    }
    let pciv::Summary { n, k, len, sum, .. } = summary;
    let mean = if *n > 0 { *sum as f64 / *n as f64 } else { 0.0 };
    writeln!(
        text,
        "{lines} corrections: {n} slots, {k} in overflow, {len} bytes, mean {mean:.1} cm"
    )?;
    text.flush()
}

fn about(line: &Correction) -> &'static str {
    match line.kind {
        Correction::FIELD => match line.place {
            0 => "header: the letters PCIV",
            4 => "header: the zeros behind them",
            8 => "header: slots",
            16 => "header: overflow entries",
            24 => "header: index entries",
            _ => "header: step of the index",
        },
        Correction::DROPPED => "overflow entry dropped: its slot",
        Correction::SET => "slot without an overflow entry: now 254 cm",
        _ => "index made anew: its bytes",
    }
}

/// What a refusal means for a map to be repaired.
fn reason(number: u64) -> &'static str {
    match number {
        Refusal::BAD_COUNTS => "more overflow entries than slots",
        Refusal::BAD_LENGTH => "ends before its overflow entries do",
        _ => pciv::refusal_text(number),
    }
}

/// Writes OUT.tmp, with the mode that OUT has, and gives it the name OUT.
fn write_file(out: &OsStr, bytes: &[u8]) -> Result<(), Box<dyn Error>> {
    let before = fs::metadata(out).ok();
    if before.as_ref().is_some_and(|before| !before.is_file()) {
        return Err(named(out, "is no regular file").into());
    }
    let copy = [out, OsStr::new(".tmp")].join(OsStr::new(""));
    let mut options = fs::File::options();
    options.write(true).create_new(true);
    let mut target = options.open(&copy).map_err(|error| named(&copy, error))?;
    let write = || {
        if let Some(before) = before {
            target.set_permissions(before.permissions())?;
        }
        target.write_all(bytes)?;
        target.sync_all()?;
        fs::rename(&copy, out)
    };
    write().map_err(|error| {
        let _ = fs::remove_file(&copy);
        named(out, error).into()
    })
}

fn named(file: &OsStr, what: impl std::fmt::Display) -> String {
    format!("{}: {what}", file.display())
}
