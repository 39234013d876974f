//! The corpus: inputs that reach different places, as lines of a text file.
//!
//! usage: corpus replay PATH..         makes the calls of all inputs; every routine must be among them
//!        corpus replay-only PATH..    the same without that demand
//!        corpus pack PATH..           prints all inputs as lines
//!        corpus unpack FOLDER PATH..  writes each input to a file of the folder
//!
//! A path is a text of lines (`.txt`), one input as a file, or a folder of such files. A line is the
//! name of a routine and, in hexadecimal digits, what follows it in the input.

use fuzz::ROUTINES;
use std::collections::BTreeSet;
use std::path::Path;
use std::process::ExitCode;
use std::{env, fs, panic};

fn main() -> ExitCode {
    let arguments: Vec<String> = env::args().skip(1).collect();
    let arguments: Vec<&str> = arguments.iter().map(String::as_str).collect();
    let done = match arguments.as_slice() {
        ["replay", paths @ ..] => read(paths).and_then(|inputs| replay(&inputs, true)),
        ["replay-only", paths @ ..] => read(paths).and_then(|inputs| replay(&inputs, false)),
        ["pack", paths @ ..] => read(paths).map(|inputs| pack(&inputs)),
        ["unpack", folder, paths @ ..] => read(paths).and_then(|inputs| unpack(folder, &inputs)),
        _ => Err("corpus: replay, replay-only, pack or unpack, then paths".to_string()),
    };
    match done {
        Ok(()) => ExitCode::SUCCESS,
        Err(error) => {
            println!("{error}");
            ExitCode::FAILURE
        }
    }
}

/// An input and where it comes from.
struct Named {
    name: String,
    bytes: Vec<u8>,
}

/// The inputs of all paths, in an order that does not depend on the file system.
fn read(paths: &[&str]) -> Result<Vec<Named>, String> {
    let mut inputs = Vec::new();
    for path in paths {
        collect(Path::new(path), &mut inputs)?;
    }
    inputs.sort_by_key(|input| {
        let rest: Vec<u8> = input.bytes.iter().skip(1).copied().collect();
        (fuzz::routine_of(&input.bytes), rest.len(), rest)
    });
    Ok(inputs)
}

fn collect(path: &Path, inputs: &mut Vec<Named>) -> Result<(), String> {
    let name = path.display().to_string();
    let failure = |error| format!("{name}: {error}");
    if path.is_dir() {
        for entry in fs::read_dir(path).map_err(failure)? {
            collect(&entry.map_err(failure)?.path(), inputs)?;
        }
    } else if name.ends_with(".txt") {
        for line in fs::read_to_string(path).map_err(failure)?.lines() {
            let bytes = of_line(line).ok_or_else(|| format!("{name}: no input: {line}"))?;
            let name = format!("{name}: {line}");
            inputs.push(Named { name, bytes });
        }
    } else {
        let bytes = fs::read(path).map_err(failure)?;
        inputs.push(Named { name, bytes });
    }
    Ok(())
}

/// The input of a line.
fn of_line(line: &str) -> Option<Vec<u8>> {
    let (name, digits) = line.split_once(' ').unwrap_or((line, ""));
    let routine = ROUTINES.iter().position(|routine| routine.name == name)?;
    let mut bytes = vec![routine as u8];
    for at in (0..digits.len()).step_by(2) {
        bytes.push(u8::from_str_radix(digits.get(at..at + 2)?, 16).ok()?);
    }
    Some(bytes)
}

/// Prints inputs as lines.
fn pack(inputs: &[Named]) {
    for Named { bytes, .. } in inputs {
        let rest = bytes.iter().skip(1).map(|byte| format!("{byte:02x}"));
        let digits: String = rest.collect();
        println!(
            "{}",
            format!("{} {digits}", fuzz::routine_of(bytes)).trim_end()
        );
    }
}

fn unpack(folder: &str, inputs: &[Named]) -> Result<(), String> {
    let failure = |error| format!("{folder}: {error}");
    fs::create_dir_all(folder).map_err(failure)?;
    for (number, Named { bytes, .. }) in inputs.iter().enumerate() {
        let file = Path::new(folder).join(format!("{number:05}"));
        fs::write(file, bytes).map_err(failure)?;
    }
    Ok(())
}

/// Makes the calls that inputs stand for, as the fuzzer made them.
fn replay(inputs: &[Named], wants_every_routine: bool) -> Result<(), String> {
    let mut routines = BTreeSet::new();
    let mut differing = 0;
    for Named { name, bytes } in inputs {
        routines.insert(fuzz::routine_of(bytes));
        if panic::catch_unwind(|| fuzz::run(bytes)).is_err() {
            println!("difference in {name}");
            differing += 1;
        }
    }
    let verdict = format!(
        "corpus: {} inputs, {} of {} routines, {} outcomes, {differing} differences",
        inputs.len(),
        routines.len(),
        ROUTINES.len(),
        fuzz::outcomes()
    );
    if differing > 0 || (wants_every_routine && routines.len() < ROUTINES.len()) {
        return Err(verdict);
    }
    println!("{verdict}");
    Ok(())
}
