//! What the header tells by itself, without the library: its version, and the refusals' words.

use crate::tokens::{closing, strs, words};
use std::collections::BTreeMap;

/// The refusals' words by name, without what a name has in one language only: `OK` for 0, and `_`
/// for any other number.
pub type Texts = BTreeMap<String, String>;

/// What a header defines under names of its version: `PCIV_VERSION` and what begins with it.
pub fn read_versions(header: &str) -> BTreeMap<String, String> {
    let mut versions = BTreeMap::new();
    for line in header.lines() {
        if let ["#define", name, value] = line.split_whitespace().collect::<Vec<_>>()[..] {
            if name.starts_with("PCIV_VERSION") {
                versions.insert(name.to_string(), value.to_string());
            }
        }
    }
    versions
}

/// The version of a `Cargo.toml`, which names it once.
pub fn read_version(cargo: &str) -> Option<&str> {
    let mut lines = cargo.lines();
    let value = lines.find_map(|line| line.strip_prefix("version = \""))?;
    value.strip_suffix('"')
}

/// Compares what a header defines with a version, which has three numbers.
pub fn compare_version(
    versions: &BTreeMap<String, String>,
    (place, version): (&str, &str),
) -> Vec<String> {
    let numbers: Vec<u64> = version.split('.').flat_map(str::parse).collect();
    let [major, minor, patch] = numbers[..] else {
        return vec![format!("{place}: {version} is not three numbers")];
    };
    let number = major * 1_000_000 + minor * 1_000 + patch;
    let wanted = [
        ("PCIV_VERSION", format!("\"{version}\"")),
        ("PCIV_VERSION_MAJOR", major.to_string()),
        ("PCIV_VERSION_MINOR", minor.to_string()),
        ("PCIV_VERSION_NUMBER", number.to_string()),
        ("PCIV_VERSION_PATCH", patch.to_string()),
    ];
    let mut faults = Vec::new();
    for (name, wanted) in wanted {
        let found = versions.get(name);
        if found != Some(&wanted) {
            faults.push(format!(
                "{name}: {found:?} in the header, {version} in {place}"
            ));
        }
    }
    faults
}

/// The words of `pciv_refusal_text` in a header: `case NAME: return "..";`.
pub fn read_c_texts(header: &str) -> Texts {
    let words = words(header);
    let mut texts = Texts::new();
    for at in 0..words.len() {
        let (name, from) = match strs(&words[at..words.len().min(at + 4)])[..] {
            ["case", name, ":", "return"] => (name.trim_start_matches("PCIV_"), at + 4),
            ["default", ":", "return", _] => ("_", at + 3),
            _ => continue,
        };
        texts.insert(name.to_string(), text_from(&words[from..]));
    }
    texts
}

/// The words of `refusal_text` in Rust: `Refusal::NAME => ".."`, perhaps in braces.
pub fn read_rust_texts(text: &str) -> Texts {
    let words = words(text);
    let start = words
        .windows(2)
        .position(|w| strs(w) == ["fn", "refusal_text"]);
    let Some(open) = start.and_then(|at| (at..words.len()).find(|&at| words[at] == "{")) else {
        return Texts::new();
    };
    let body = &words[open..closing(&words, open).unwrap_or(words.len())];
    let mut texts = Texts::new();
    for at in 1..body.len().saturating_sub(2) {
        if strs(&body[at..at + 2]) == ["=", ">"] {
            let name = match body[at - 1].as_str() {
                "0" => "OK",
                name => name,
            };
            let from = at + 2 + usize::from(body[at + 2] == "{");
            texts.insert(name.to_string(), text_from(&body[from..]));
        }
    }
    texts
}

/// The strings at the front as one, without quotes and without a line's end that is left out.
fn text_from(words: &[String]) -> String {
    let strings = words.iter().take_while(|word| word.starts_with('"'));
    let text: String = strings.map(|word| word.trim_matches('"')).collect();
    let lines: Vec<&str> = text.split("\\\n").collect();
    let rest = lines[1..].iter().map(|line| line.trim_start());
    lines[0].to_string() + &rest.collect::<String>()
}

/// Compares the words of two places, where each of the names has some.
pub fn compare_texts<'a>(
    names: impl Iterator<Item = &'a str>,
    (a, a_texts): (&str, &Texts),
    (b, b_texts): (&str, &Texts),
) -> Vec<String> {
    let mut faults = Vec::new();
    for name in names {
        let (x, y) = (a_texts.get(name), b_texts.get(name));
        if x != y || x.is_none_or(|text| text.is_empty()) {
            faults.push(format!("{name}: words {x:?} in {a}, {y:?} in {b}"));
        }
    }
    faults
}
