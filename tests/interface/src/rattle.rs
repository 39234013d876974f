//! Reads the Rattle source of the C interface, and the structs of fields that Rust and Rattle write
//! alike.

use crate::model::{number, numbers, Argument, Function, Functions, Number, Structs, Type, PART};
use crate::tokens::{closing, items, line, strs, words};
use std::collections::BTreeMap;

/// The functions for C of a source, and the structs of the source that it takes them from. An
/// argument may point to structs of C's layout.
pub fn read_rattle(source: &str, format: &str) -> Result<(Functions, Structs), String> {
    let format = words(format);
    let structs = read_structs(&format);
    let mut passed = structs.clone();
    passed.retain(|name, _| has_layout(&format, name));
    let words = words(source);
    let mut functions = Functions::new();
    for at in 0..words.len() {
        if let ["extern", "\"C\"", "fn", name, "("] = strs(&words[at..words.len().min(at + 5)])[..]
        {
            let function = signature(&words[at + 4..], |item| argument(item, &passed))
                .map_err(|error| format!("{name}: {error}"))?;
            functions.insert(name.to_string(), function);
        }
    }
    Ok((functions, structs))
}

/// The arguments and the answer at the front, which starts at the bracket.
pub fn signature(
    words: &[String],
    read: impl Fn(&[String]) -> Result<Vec<Argument>, String>,
) -> Result<Function, String> {
    let close = closing(words, 0).ok_or("no closing bracket")?;
    let mut arguments = Vec::new();
    for item in items(&words[1..close], ",") {
        arguments.extend(read(item)?);
    }
    let answer = match strs(&words[close + 1..words.len().min(close + 4)])[..] {
        ["-", ">", name] => number(name).map(Type::Value),
        _ => None,
    };
    Ok(Function {
        arguments,
        answer: answer.ok_or("no number as answer")?,
    })
}

/// An argument as C passes it: a slice is two.
fn argument(item: &[String], structs: &Structs) -> Result<Vec<Argument>, String> {
    let refuse = || format!("an argument that is not understood: {}", line(item));
    let [name, ":", kind @ ..] = &strs(item)[..] else {
        return Err(refuse());
    };
    let one = |kind| {
        let name = name.to_string();
        Argument { name, kind }
    };
    let (constant, referent) = match kind {
        ["&", "mut", referent @ ..] => (false, referent),
        ["&", referent @ ..] => (true, referent),
        [value] => {
            let value = number(value).ok_or_else(refuse)?;
            return Ok(vec![one(Type::Value(value))]);
        }
        _ => return Err(refuse()),
    };
    let (to, is_slice) = match referent {
        ["[", element @ .., ";", count, "]"] => {
            let count: usize = count.parse().map_err(|_| refuse())?;
            (
                list_numbers(element, structs).map(|to| to.repeat(count)),
                false,
            )
        }
        ["[", element, "]"] => (element_numbers(element, structs), true),
        [element] => (element_numbers(element, structs), false),
        _ => return Err(refuse()),
    };
    let to = to.ok_or_else(refuse)?;
    let mut arguments = vec![one(Type::Pointer { constant, to })];
    if is_slice {
        arguments.push(Argument {
            name: format!("{name}_len"),
            kind: Type::Value(Number::U64),
        });
    }
    Ok(arguments)
}

/// The numbers that an element of a list of fixed length consists of: it may be a slice.
fn list_numbers(element: &[&str], structs: &Structs) -> Option<Vec<Number>> {
    match element {
        ["&", "[", "u8", "]"] => Some(PART.to_vec()),
        [name] => element_numbers(name, structs),
        _ => None,
    }
}

/// The numbers that a type consists of.
pub fn element_numbers(name: &str, structs: &Structs) -> Option<Vec<Number>> {
    let of_struct = || structs.get(name).map(|fields| numbers(fields));
    number(name).map(|number| vec![number]).or_else(of_struct)
}

/// The structs that consist of numbers. A struct that stands for others has to come after them.
/// In a struct that does not go to C as it is, the field `kind` is C's field `number`, where its type is the struct's own
/// enum (`RefusalKind` of `Refusal`), whose variants have numbers.
pub fn read_structs(words: &[String]) -> Structs {
    let mut structs = Structs::new();
    let numbered: Vec<String> = enums(words)
        .into_iter()
        .filter(|(_, variants)| items(variants, ",").iter().all(|item| item.contains(&"=".to_string())))
        .map(|(name, _)| name)
        .collect();
    for at in 0..words.len() {
        if let ["struct", name, "{"] = strs(&words[at..words.len().min(at + 3)])[..] {
            let close = closing(words, at + 2).unwrap_or(words.len());
            let own = format!("{name}Kind");
            let own = (!has_layout(words, name) && numbered.contains(&own)).then_some(&own[..]);
            if let Some(fields) = read_fields(&words[at + 3..close], &structs, own) {
                structs.insert(name.to_string(), fields);
            }
        }
    }
    structs
}

/// Whether `#[repr(C)]` stands before a struct, perhaps with other attributes.
pub fn has_layout(words: &[String], name: &str) -> bool {
    let is_here = |at: &usize| words[*at] == "struct" && words[at + 1] == *name;
    let Some(at) = (0..words.len() - 1).find(is_here) else {
        return false;
    };
    let before = &words[..at];
    let start = before.iter().rposition(|word| word == "}" || word == ";");
    let attributes = &before[start.unwrap_or(0)..];
    let layout = ["repr", "(", "C", ")"];
    attributes.windows(4).any(|part| strs(part) == layout)
}

fn read_fields(
    body: &[String],
    structs: &Structs,
    own: Option<&str>,
) -> Option<Vec<(String, Number)>> {
    let mut fields = Vec::new();
    for item in items(body, ",") {
        let (name, kind) = match strs(item)[..] {
            ["pub", name, ":", "*", "const", "u8"] => {
                fields.push((name.to_string(), Number::Bytes));
                continue;
            }
            ["pub", name, ":", kind] => (name, kind),
            _ => return None,
        };
        match (number(kind), structs.get(kind)) {
            (Some(number), _) => fields.push((name.to_string(), number)),
            (None, Some(inner)) => {
                let inner = inner.iter();
                fields.extend(inner.map(|(field, number)| (format!("{name}.{field}"), *number)));
            }
            (None, None) if name == "kind" && own == Some(kind) => {
                fields.push(("number".to_string(), Number::U64));
            }
            (None, None) => return None,
        }
    }
    Some(fields)
}

/// The numbers that a Rattle source names: those of `read_numbers`, and those of its enums, where
/// `BadMask = 13` is `BAD_MASK`.
pub fn read_kinds(source: &str) -> BTreeMap<String, u64> {
    let words = words(source);
    let mut numbers = BTreeMap::new();
    for variants in enums(&words).values() {
        for item in items(variants, ",") {
            if let [name, "=", number] = strs(item)[..] {
                if let Ok(number) = number.parse() {
                    numbers.insert(constant_name(name), number);
                }
            }
        }
    }
    numbers.extend(read_numbers(source));
    numbers
}

/// The numbers that a source names: `pub const NAME: usize = NUMBER;`, or with `u64`.
pub fn read_numbers(source: &str) -> BTreeMap<String, u64> {
    let words = words(source);
    let mut numbers = BTreeMap::new();
    for part in words.windows(8) {
        if let ["pub", "const", name, ":", "usize" | "u64", "=", number, ";"] = strs(part)[..] {
            if let Ok(number) = number.parse() {
                numbers.insert(name.to_string(), number);
            }
        }
    }
    numbers
}

/// The public enums of a source by name, each as the words between its brackets.
fn enums(words: &[String]) -> BTreeMap<String, &[String]> {
    let mut enums = BTreeMap::new();
    for at in 0..words.len() {
        if let ["pub", "enum", name, "{"] = strs(&words[at..words.len().min(at + 4)])[..] {
            let close = closing(words, at + 3).unwrap_or(words.len());
            enums.insert(name.to_string(), &words[at + 4..close]);
        }
    }
    enums
}

/// The name of a constant for the name of a variant: `BadMask` is `BAD_MASK`.
fn constant_name(variant: &str) -> String {
    let mut name = String::new();
    for (at, letter) in variant.chars().enumerate() {
        if at > 0 && letter.is_uppercase() {
            name.push('_');
        }
        name.push(letter.to_ascii_uppercase());
    }
    name
}
