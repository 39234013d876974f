//! Reads the C header.

use crate::model::{numbers, Argument, Function, Functions, Number, Structs, Type};
use crate::tokens::{closing, items, line, strs, words};
use std::collections::BTreeMap;

/// The enums, and what the names of their numbers begin with; elsewhere the names have no such beginning.
const REFUSALS: (&str, &str) = ("pciv_refusal_number", "PCIV_");
const KINDS: (&str, &str) = ("pciv_correction_kind", "PCIV_CORRECTION_");

/// A number with its name elsewhere.
#[derive(Debug, PartialEq, Eq)]
pub struct Named {
    pub elsewhere: String,
    pub number: u64,
}

/// What the header declares.
#[derive(Debug, Default)]
pub struct Header {
    /// The functions, but for those that it defines itself.
    pub functions: Functions,
    /// The structs that consist of numbers.
    pub structs: Structs,
    /// The numbers of enums, and those that are defined as a word, but for the version's.
    pub numbers: BTreeMap<String, Named>,
    /// The refusals' names, without `PCIV_`.
    pub refusals: Vec<String>,
}

/// Reads a header: functions, structs and enums, and nothing else.
pub fn read_header(text: &str) -> Result<Header, String> {
    let is_code = |line: &&str| !line.trim_start().starts_with('#');
    let code: Vec<&str> = text.lines().filter(is_code).collect();
    let words = words(&code.join("\n"));
    let mut header = Header::default();
    for line in text.lines() {
        if let ["#define", name, number] = line.split_whitespace().collect::<Vec<_>>()[..] {
            match number.parse() {
                Ok(number) if !name.starts_with("PCIV_VERSION") => {
                    header.insert_number(name, "PCIV_", number);
                }
                _ => (),
            }
        }
    }
    let mut at = 0;
    while at < words.len() {
        at += header.read_part(&words[at..])?;
    }
    Ok(header)
}

impl Header {
    /// Reads the part at the front; answers how many words it has.
    fn read_part(&mut self, words: &[String]) -> Result<usize, String> {
        let front = strs(&words[..words.len().min(4)]);
        match front.as_slice() {
            // the brackets about all of it, for C++
            ["extern", "\"C\"", "{", ..] => return Ok(3),
            ["}", ..] => return Ok(1),
            _ => (),
        }
        let is_end = |word: &String| word == ";" || word == "{";
        let end = words.iter().position(is_end).ok_or_else(|| refuse(words))?;
        if words[end] == ";" {
            self.read_function(&words[..end])?;
            return Ok(end + 1);
        }
        let close = closing(words, end).ok_or_else(|| refuse(words))?;
        let body = &words[end + 1..close];
        match front.as_slice() {
            ["static", "inline", ..] => Ok(close + 1),
            ["enum", name, ..] => {
                let is_meant = |one: &&(&str, &str)| one.0 == *name;
                let found = [REFUSALS, KINDS].iter().find(is_meant).copied();
                self.read_numbers(body, found.ok_or_else(|| refuse(words))?)?;
                Ok(close + 2)
            }
            ["typedef", "struct", "{", ..] => {
                let name = words.get(close + 1).ok_or_else(|| refuse(words))?;
                self.read_struct(name, body)?;
                Ok(close + 3)
            }
            _ => Err(refuse(words)),
        }
    }

    fn read_function(&mut self, words: &[String]) -> Result<(), String> {
        let open = words.iter().position(|word| word == "(");
        let (open, [.., close]) = (open.ok_or_else(|| refuse(words))?, words) else {
            return Err(refuse(words));
        };
        let answer = self.declared(&words[..open])?;
        if close != ")" {
            return Err(refuse(words));
        }
        let list = items(&words[open + 1..words.len() - 1], ",");
        let arguments: Result<Vec<Argument>, String> =
            list.into_iter().map(|item| self.declared(item)).collect();
        let function = Function {
            arguments: arguments?,
            answer: answer.kind,
        };
        match self.functions.insert(answer.name.clone(), function) {
            None => Ok(()),
            Some(_) => Err(format!("{} is declared twice in the header", answer.name)),
        }
    }

    /// A type and a name, as of an argument or a field.
    fn declared(&self, words: &[String]) -> Result<Argument, String> {
        let (constant, rest) = match strs(words).as_slice() {
            ["const", ..] => (true, &words[1..]),
            _ => (false, words),
        };
        let (name, pointer, times) = match strs(rest).as_slice() {
            [_, name] if !constant => (name.to_string(), false, 1),
            [_, "*", name] => (name.to_string(), true, 1),
            [_, name, "[", count, "]"] => {
                let count: usize = count.parse().map_err(|_| refuse(words))?;
                (name.to_string(), true, count)
            }
            _ => return Err(refuse(words)),
        };
        let base = self.numbers_of(&rest[0]).ok_or_else(|| refuse(words))?;
        let kind = match (pointer, base.as_slice()) {
            (true, _) => Type::Pointer {
                constant,
                to: base.repeat(times),
            },
            (false, [number]) => Type::Value(*number),
            _ => return Err(refuse(words)),
        };
        Ok(Argument { name, kind })
    }

    /// The numbers that a type consists of.
    fn numbers_of(&self, name: &str) -> Option<Vec<Number>> {
        Some(vec![match name {
            "uint8_t" => Number::U8,
            "uint32_t" => Number::U32,
            "uint64_t" | "size_t" => Number::U64,
            "int32_t" => Number::I32,
            "int64_t" => Number::I64,
            "double" => Number::F64,
            _ => return self.structs.get(name).map(|fields| numbers(fields)),
        }])
    }

    /// Structs with pointers to anything but bytes that are only read are for the caller alone and left
    /// out.
    fn read_struct(&mut self, name: &str, body: &[String]) -> Result<(), String> {
        let mut fields = Vec::new();
        for field in items(body, ";") {
            match strs(field).as_slice() {
                [kind, field] if self.structs.contains_key(*kind) => {
                    let inner = self.structs[*kind].iter();
                    fields.extend(inner.map(|(name, number)| (format!("{field}.{name}"), *number)));
                }
                ["const", "uint8_t", "*", name] => fields.push((name.to_string(), Number::Bytes)),
                _ => match self.declared(field)? {
                    Argument {
                        name,
                        kind: Type::Value(number),
                    } => fields.push((name, number)),
                    _ => return Ok(()),
                },
            }
        }
        self.structs.insert(name.to_string(), fields);
        Ok(())
    }

    fn read_numbers(&mut self, body: &[String], of: (&str, &str)) -> Result<(), String> {
        for item in items(body, ",") {
            let [name, "=", number] = strs(item)[..] else {
                return Err(refuse(item));
            };
            let number = number.parse().map_err(|_| refuse(item))?;
            let elsewhere = self.insert_number(name, of.1, number);
            if of == REFUSALS {
                self.refusals.push(elsewhere);
            }
        }
        Ok(())
    }

    /// Adds a number; answers its name elsewhere.
    fn insert_number(&mut self, name: &str, beginning: &str, number: u64) -> String {
        let elsewhere = name.strip_prefix(beginning).unwrap_or(name).to_string();
        let named = Named {
            elsewhere: elsewhere.clone(),
            number,
        };
        self.numbers.insert(name.to_string(), named);
        elsewhere
    }

    /// Compares the numbers with those of the same name elsewhere.
    pub fn compare_numbers(&self, (place, others): (&str, &BTreeMap<String, u64>)) -> Vec<String> {
        let mut faults = Vec::new();
        for (name, named) in self.numbers.iter().filter(|(name, _)| *name != "PCIV_OK") {
            let Named { elsewhere, number } = named;
            let other = others.get(elsewhere);
            if other != Some(number) {
                faults.push(format!(
                    "{name}: {number} in the header, {other:?} in {place}"
                ));
            }
        }
        faults
    }
}

fn refuse(words: &[String]) -> String {
    let shown = &words[..words.len().min(12)];
    format!(
        "the header has a part that is not understood: {}",
        line(shown)
    )
}
