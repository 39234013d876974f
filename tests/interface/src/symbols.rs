//! Reads the symbols of a built library.

use std::{path::Path, process::Command};

/// The functions that an archive or a shared library exports, by `nm`.
pub fn exported(library: &Path) -> Result<Vec<String>, String> {
    let shown = library.display();
    let mut nm = Command::new("nm");
    nm.args(["--extern-only", "--defined-only", "--format=posix"]);
    if library
        .extension()
        .is_some_and(|extension| extension != "a")
    {
        nm.arg("--dynamic");
    }
    let output = nm.arg(library).output();
    let output = output.map_err(|error| format!("{shown}: nm: {error}"))?;
    if !output.status.success() {
        let error = String::from_utf8_lossy(&output.stderr);
        return Err(format!("{shown}: {}", error.trim()));
    }
    Ok(read_symbols(&String::from_utf8_lossy(&output.stdout)))
}

/// The symbols that `nm --format=posix` has listed: a name, then a letter, on each line.
pub fn read_symbols(listing: &str) -> Vec<String> {
    let mut symbols = Vec::new();
    for line in listing.lines() {
        let mut words = line.split_whitespace();
        if let (Some(name), Some(_letter)) = (words.next(), words.next()) {
            symbols.push(name.to_string());
        }
    }
    symbols
}
