//! Functions and structs in one form for all languages, and their comparison.

use std::collections::BTreeMap;
use std::fmt::{self, Display};

/// A number as it is passed or stored.
#[derive(Clone, Copy, Debug, PartialEq, Eq)]
pub enum Number {
    U8,
    U32,
    U64,
    I32,
    I64,
    F64,
    /// The address of bytes that are only read.
    Bytes,
}

/// A slice of bytes that are only read, as an element of a list.
pub const PART: [Number; 2] = [Number::Bytes, Number::U64];

/// A number under its name in Rust or Rattle; `usize` has 64 bits.
pub fn number(name: &str) -> Option<Number> {
    Some(match name {
        "u8" => Number::U8,
        "u32" => Number::U32,
        "u64" | "usize" => Number::U64,
        "i32" => Number::I32,
        "i64" => Number::I64,
        "f64" => Number::F64,
        _ => return None,
    })
}

/// What a function takes or answers: a number, or a pointer to one or more of them.
#[derive(Clone, Debug, PartialEq, Eq)]
pub enum Type {
    Value(Number),
    Pointer { constant: bool, to: Vec<Number> },
}

#[derive(Clone, Debug, PartialEq, Eq)]
pub struct Argument {
    pub name: String,
    pub kind: Type,
}

#[derive(Clone, Debug, PartialEq, Eq)]
pub struct Function {
    pub arguments: Vec<Argument>,
    pub answer: Type,
}

/// Functions by name.
pub type Functions = BTreeMap<String, Function>;

/// Fields of structs by the struct's name; a field that is a struct stands as its fields.
pub type Structs = BTreeMap<String, Vec<(String, Number)>>;

/// The numbers that a struct consists of.
pub fn numbers(fields: &[(String, Number)]) -> Vec<Number> {
    fields.iter().map(|(_, number)| *number).collect()
}

impl Display for Number {
    fn fmt(&self, f: &mut fmt::Formatter) -> fmt::Result {
        f.write_str(&format!("{self:?}").to_lowercase())
    }
}

impl Display for Type {
    fn fmt(&self, f: &mut fmt::Formatter) -> fmt::Result {
        match self {
            Type::Value(number) => write!(f, "{number}"),
            Type::Pointer { constant, to } => {
                let constant = if *constant { "const " } else { "" };
                match to.as_slice() {
                    [number] => write!(f, "{constant}{number} *"),
                    [first, ..] if to.iter().all(|number| number == first) => {
                        write!(f, "{constant}{first}[{}] *", to.len())
                    }
                    _ => write!(f, "{constant}{to:?} *"),
                }
            }
        }
    }
}

impl Display for Argument {
    fn fmt(&self, f: &mut fmt::Formatter) -> fmt::Result {
        write!(f, "{} {}", self.kind, self.name)
    }
}

/// Compares the functions of two places.
pub fn compare_functions(a: (&str, &Functions), b: (&str, &Functions)) -> Vec<String> {
    let names: Vec<String> = b.1.keys().cloned().collect();
    let mut faults = compare_names(a, (b.0, &names));
    for (name, function) in a.1 {
        if let Some(other) = b.1.get(name) {
            faults.extend(compare_function(name, (a.0, function), (b.0, other)));
        }
    }
    faults
}

/// Compares the names of functions with those of another place.
pub fn compare_names(a: (&str, &Functions), b: (&str, &[String])) -> Vec<String> {
    let missing =
        |name: &str, here: &str, there: &str| format!("{name}: in {here}, not in {there}");
    let mut faults = Vec::new();
    for name in a.1.keys().filter(|name| !b.1.contains(name)) {
        faults.push(missing(name, a.0, b.0));
    }
    for name in b.1.iter().filter(|name| !a.1.contains_key(*name)) {
        faults.push(missing(name, b.0, a.0));
    }
    faults
}

fn compare_function(name: &str, a: (&str, &Function), b: (&str, &Function)) -> Vec<String> {
    let mut faults = Vec::new();
    let mut differ = |what: &str, x: &dyn Display, y: &dyn Display| {
        faults.push(format!(
            "{name}: {what}: `{x}` in {}, `{y}` in {}",
            a.0, b.0
        ));
    };
    let counts = (a.1.arguments.len(), b.1.arguments.len());
    if counts.0 != counts.1 {
        differ("number of arguments", &counts.0, &counts.1);
        return faults;
    }
    for (at, (x, y)) in a.1.arguments.iter().zip(&b.1.arguments).enumerate() {
        if x != y {
            differ(&format!("argument {}", at + 1), x, y);
        }
    }
    if a.1.answer != b.1.answer {
        differ("answer", &a.1.answer, &b.1.answer);
    }
    faults
}

/// Compares a struct of one place, given with its name there, with its counterpart elsewhere.
pub fn compare_structs(
    a: (&str, &str),
    a_structs: &Structs,
    b: (&str, &str),
    b_structs: &Structs,
) -> Vec<String> {
    let fields = |(place, name): (&str, &str), structs: &Structs| {
        let missing = || format!("{name}: no struct of C's layout in {place}");
        structs.get(name).cloned().ok_or_else(missing)
    };
    match (fields(a, a_structs), fields(b, b_structs)) {
        (Ok(x), Ok(y)) if x == y => vec![],
        (Ok(x), Ok(y)) => vec![format!(
            "{}: fields {x:?} in {}, {y:?} of {} in {}",
            a.1, a.0, b.1, b.0
        )],
        (x, y) => [x.err(), y.err()].into_iter().flatten().collect(),
    }
}
