//! Reads the declarations of the Rust crate, those that macros make included.

use crate::model::{number, Argument, Function, Functions, Structs, Type};
use crate::rattle::{element_numbers, has_layout, read_structs, signature};
use crate::tokens::{closing, line, strs, words};

/// The foreign functions that a text declares, and its structs.
///
/// A declaration is a function without a body. One under the name `$name` in a macro stands for each
/// name that the macro is called with.
pub fn read_rust(text: &str) -> Result<(Functions, Structs), String> {
    let words = words(text);
    let structs = structs_in_any_order(&words);
    let mut functions = Functions::new();
    for at in 0..words.len() {
        let Some((name, open)) = declared_name(&words, at) else {
            continue;
        };
        let names = match name {
            "$" => macro_names(&words, at)?,
            _ => vec![name.to_string()],
        };
        let function = signature(&words[open..], |item| argument(item, &structs))
            .map_err(|error| format!("{}: {error}", names.join(" ")))?;
        for name in names {
            insert(&mut functions, name, function.clone())?;
        }
    }
    Ok((functions, structs))
}

fn insert(functions: &mut Functions, name: String, function: Function) -> Result<(), String> {
    match functions.insert(name.clone(), function) {
        None => Ok(()),
        Some(_) => Err(format!("{name} is declared twice in Rust")),
    }
}

/// The name of the function that is declared at a place, and the bracket of its arguments.
fn declared_name(words: &[String], at: usize) -> Option<(&str, usize)> {
    let (name, open) = match strs(&words[at..words.len().min(at + 4)])[..] {
        ["fn", "$", "name", "("] => ("$", at + 3),
        ["fn", _, "(", ..] => (words[at + 1].as_str(), at + 2),
        _ => return None,
    };
    let mut after = closing(words, open)?;
    while words.get(after)? != ";" && words[after] != "{" {
        // a semicolon may stand in the answer, that of an array
        let end = match words[after].as_str() {
            "[" => closing(words, after)?,
            _ => after,
        };
        after = end + 1;
    }
    (words[after] == ";").then_some((name, open))
}

/// The names that the macro about a place is called with.
fn macro_names(words: &[String], at: usize) -> Result<Vec<String>, String> {
    let start = (0..at).rev().find(|&at| words[at] == "macro_rules");
    let start = start.ok_or("a name made up outside a macro")?;
    let name = &words[start + 2];
    let mut names = Vec::new();
    for at in 0..words.len().saturating_sub(2) {
        if words[at] == *name && words[at + 1] == "!" {
            let close = closing(words, at + 2).ok_or("no closing bracket")?;
            names.extend_from_slice(&words[at + 3..close]);
        }
    }
    Ok(names)
}

/// The structs of C's layout; one may stand before those that it consists of.
fn structs_in_any_order(words: &[String]) -> Structs {
    let twice = [words, words].concat();
    let mut structs = read_structs(&twice);
    structs.retain(|name, _| has_layout(words, name));
    structs
}

fn argument(item: &[String], structs: &Structs) -> Result<Vec<Argument>, String> {
    let refuse = || format!("an argument that is not understood: {}", line(item));
    let [name, ":", kind @ ..] = &strs(item)[..] else {
        return Err(refuse());
    };
    let (constant, to) = match kind {
        ["*", "const", to @ ..] => (true, to),
        ["*", "mut", to @ ..] => (false, to),
        [value] => {
            let value = number(value).ok_or_else(refuse)?;
            let (name, kind) = (name.to_string(), Type::Value(value));
            return Ok(vec![Argument { name, kind }]);
        }
        _ => return Err(refuse()),
    };
    let to = match to {
        [element] => element_numbers(element, structs),
        ["[", element, ";", count, "]"] => {
            let count: usize = count.parse().map_err(|_| refuse())?;
            element_numbers(element, structs).map(|to| to.repeat(count))
        }
        _ => None,
    };
    let (name, to) = (name.to_string(), to.ok_or_else(refuse)?);
    let kind = Type::Pointer { constant, to };
    Ok(vec![Argument { name, kind }])
}
