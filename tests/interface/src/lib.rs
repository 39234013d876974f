//! The functions of the library as four places have them: the Rattle source that defines them, the
//! C header, the declarations of the Rust crate, and the symbols of the built libraries. All have to
//! agree.
//!
//! Each place is read into [`Functions`] in one form: a slice of the Rattle source is a pointer and
//! a length, `size_t` and `usize` are numbers of 64 bits, and a pointer to a struct is one to its
//! fields. Functions that the header defines itself are no part of that; what they tell is compared
//! where Rust tells it too.

mod header;
mod model;
mod rattle;
mod rust;
mod symbols;
mod tokens;
mod told;

pub use header::{read_header, Header};
pub use model::{compare_functions, compare_names, compare_structs, Functions, Structs};
pub use rattle::{read_kinds, read_numbers, read_rattle};
pub use rust::read_rust;
pub use symbols::{exported, read_symbols};
pub use told::{
    compare_texts, compare_version, read_c_texts, read_rust_texts, read_version, read_versions,
};

use std::{fs, path::Path};

/// The header.
pub const HEADER: &str = "include/pciv.h";
/// The folder of the C interface's Rattle source.
pub const RATTLE: &str = "crates/pciv_c/src";
/// The Rattle source of its structs and numbers.
pub const RATTLE_FORMAT: &str = "crates/pciv_format/src/lib.rt";
/// The folders of the Rattle source of further numbers: of a list of corrections, and of bundles.
pub const RATTLE_NUMBERS: [&str; 2] = ["crates/pciv_repair/src", "crates/pciv_bundle_records/src"];
/// The folder of the Rust crate's source.
pub const RUST: &str = "rust/pciv/src";
/// The file that names the version.
pub const CARGO: &str = "Cargo.toml";

/// A struct of the header and its counterpart in Rust, and whether the Rattle source has it too.
const STRUCTS: [(&str, &str, bool); 6] = [
    ("pciv_refusal", "Refusal", true),
    ("pciv_summary", "Summary", true),
    ("pciv_entry", "Entry", true),
    ("pciv_edit_answer", "EditAnswer", false),
    ("pciv_correction", "Correction", false),
    ("pciv_part", "Part", false),
];

/// Compares the sources below `root` with each other and with the libraries there. Answers the
/// number of functions, or what is wrong, a line for each fault.
pub fn compare(root: &Path, libraries: &[String]) -> Result<usize, Vec<String>> {
    let failure = |error: String| vec![error];
    let format = read_file(root, RATTLE_FORMAT).map_err(failure)?;
    let source = read_folder(root, RATTLE, "rt").map_err(failure)?;
    let (rattle, rattle_structs) = read_rattle(&source, &format).map_err(failure)?;
    let text = read_file(root, HEADER).map_err(failure)?;
    let header = read_header(&text).map_err(failure)?;
    let crate_text = read_folder(root, RUST, "rs").map_err(failure)?;
    let (rust, rust_structs) = read_rust(&crate_text).map_err(failure)?;

    let declared = (HEADER, &header.functions);
    let mut faults = compare_functions(declared, (RATTLE, &rattle));
    faults.extend(compare_functions(declared, (RUST, &rust)));
    for (in_c, elsewhere, in_rattle) in STRUCTS {
        let mut compare = |place, structs| {
            let (c, other) = ((HEADER, in_c), (place, elsewhere));
            faults.extend(compare_structs(c, &header.structs, other, structs));
        };
        compare(RUST, &rust_structs);
        if in_rattle {
            compare(RATTLE_FORMAT, &rattle_structs);
        }
    }
    let mut numbers = format;
    for folder in RATTLE_NUMBERS {
        numbers += &read_folder(root, folder, "rt").map_err(failure)?;
    }
    let place = format!("{RATTLE_FORMAT} or {}", RATTLE_NUMBERS.join(" or "));
    faults.extend(header.compare_numbers((&place, &read_kinds(&numbers))));
    faults.extend(header.compare_numbers((RUST, &read_numbers(&crate_text))));
    let refusals = header.refusals.iter().map(String::as_str);
    let (in_c, in_rust) = (read_c_texts(&text), read_rust_texts(&crate_text));
    let names = refusals.chain(["_"]);
    faults.extend(compare_texts(names, (HEADER, &in_c), (RUST, &in_rust)));
    let cargo = read_file(root, CARGO).map_err(failure)?;
    let version = read_version(&cargo).unwrap_or("");
    faults.extend(compare_version(&read_versions(&text), (CARGO, version)));
    for library in libraries {
        match exported(&root.join(library)) {
            Ok(symbols) => faults.extend(compare_names(declared, (library, &symbols))),
            Err(error) => faults.push(error),
        }
    }
    match faults.is_empty() {
        true => Ok(header.functions.len()),
        false => Err(faults),
    }
}

fn read_file(root: &Path, path: &str) -> Result<String, String> {
    fs::read_to_string(root.join(path)).map_err(|error| format!("{path}: {error}"))
}

/// The files of a folder with an extension, one after another.
fn read_folder(root: &Path, path: &str, extension: &str) -> Result<String, String> {
    let failure = |error| format!("{path}: {error}");
    let mut text = String::new();
    for entry in fs::read_dir(root.join(path)).map_err(failure)? {
        let file = entry.map_err(failure)?.path();
        if file.extension().is_some_and(|found| found == extension) {
            text += &fs::read_to_string(file).map_err(failure)?;
        }
    }
    Ok(text)
}
