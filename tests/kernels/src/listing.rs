//! Reads what `objdump -dr` prints: functions, their instructions, and where calls and jumps lead.

use std::process::Command;

/// What `objdump` prints of an archive. Names stay as the symbols are; relocations tell where calls
/// between sections lead.
pub fn disassemble(archive: &str) -> Result<String, String> {
    let mut objdump = Command::new("objdump");
    objdump.args(["-dr", "--no-show-raw-insn", archive]);
    let output = objdump.env("LC_ALL", "C").output().map_err(|error| {
        format!("objdump does not run ({error}); it is part of binutils, which gcc comes with")
    })?;
    if !output.status.success() {
        let error = String::from_utf8_lossy(&output.stderr);
        return Err(error.trim().to_string());
    }
    Ok(String::from_utf8_lossy(&output.stdout).into_owned())
}

/// Where a call or a jump leads: an offset from a section or from a function.
struct Place {
    of: String,
    offset: u64,
}

/// An instruction.
pub struct Instruction {
    address: u64,
    /// Its name, such as `paddb`.
    pub mnemonic: String,
    /// What it works on, the destination last.
    pub operands: Vec<String>,
    to: Option<Place>,
}

impl Instruction {
    /// Whether it calls a function of the C library that copies, which is a loop.
    pub fn copies(&self) -> bool {
        let names = ["memcpy", "memmove"];
        let to = self.to.as_ref();
        to.is_some_and(|place| names.contains(&place.of.as_str()))
    }

    fn is_call(&self) -> bool {
        self.mnemonic.starts_with("call")
    }

    fn is_jump(&self) -> bool {
        self.mnemonic.starts_with('j')
    }

    /// Whether the next instruction can follow.
    fn goes_on(&self) -> bool {
        !["jmp", "ret", "ud2"].contains(&self.mnemonic.as_str())
    }
}

/// A function.
pub struct Function {
    name: String,
    section: String,
    /// Its instructions.
    pub code: Vec<Instruction>,
}

impl Function {
    /// The instructions that can follow each one.
    pub fn flow(&self) -> Vec<Vec<usize>> {
        let place_of = |address| self.code.binary_search_by_key(&address, |i| i.address).ok();
        let mut flow = Vec::new();
        for (at, instruction) in self.code.iter().enumerate() {
            let mut next = Vec::new();
            if instruction.goes_on() && at + 1 < self.code.len() {
                next.push(at + 1);
            }
            if let (true, Some(to)) = (instruction.is_jump(), &instruction.to) {
                if to.of == self.section {
                    next.extend(place_of(to.offset));
                }
            }
            flow.push(next);
        }
        flow
    }

    fn start(&self) -> u64 {
        self.code.first().map_or(0, |first| first.address)
    }
}

/// The functions of an archive.
pub struct Listing {
    functions: Vec<Function>,
}

impl Listing {
    /// Reads what `objdump -dr --no-show-raw-insn` has printed.
    pub fn read(text: &str) -> Listing {
        let mut functions: Vec<Function> = Vec::new();
        let mut section = "";
        for line in text.lines() {
            if let Some(rest) = line.strip_prefix("Disassembly of section ") {
                section = rest.trim_end_matches(':');
            } else if let Some(name) = function_name(line) {
                functions.push(Function {
                    name: name.to_string(),
                    section: section.to_string(),
                    code: Vec::new(),
                });
            } else if let Some(function) = functions.last_mut() {
                let code = &mut function.code;
                if let Some(to) = relocation(line) {
                    if let Some(last) = code.last_mut().filter(|i| i.is_call() || i.is_jump()) {
                        last.to = Some(to);
                    }
                } else {
                    code.extend(instruction(line, section));
                }
            }
        }
        Listing { functions }
    }

    /// The names of all functions.
    pub fn names(&self) -> impl Iterator<Item = &str> {
        self.functions.iter().map(|function| function.name.as_str())
    }

    /// A function by its number.
    pub fn function(&self, at: usize) -> &Function {
        &self.functions[at]
    }

    /// The numbers of a function and of all that it reaches by calls and jumps.
    pub fn reached(&self, name: &str) -> Vec<usize> {
        let mut reached: Vec<usize> = self
            .names()
            .position(|other| other == name)
            .into_iter()
            .collect();
        let mut done = 0;
        while done < reached.len() {
            let code = &self.functions[reached[done]].code;
            let places = code
                .iter()
                .filter_map(|instruction| instruction.to.as_ref());
            for at in places.filter_map(|place| self.holder(place)) {
                if !reached.contains(&at) {
                    reached.push(at);
                }
            }
            done += 1;
        }
        reached
    }

    /// The function that a place is in: the one of that name, or the last of the section that
    /// starts at or before it.
    fn holder(&self, place: &Place) -> Option<usize> {
        let before = |at: &usize| {
            let function = &self.functions[*at];
            function.section == place.of && function.start() <= place.offset
        };
        let named = self.names().position(|name| name == place.of);
        named.or_else(|| {
            let all = 0..self.functions.len();
            all.filter(before)
                .max_by_key(|at| self.functions[*at].start())
        })
    }
}

/// `0000000000000000 <NAME>:`
fn function_name(line: &str) -> Option<&str> {
    let (address, name) = line.split_once(" <")?;
    u64::from_str_radix(address, 16).ok()?;
    name.strip_suffix(">:")
}

/// `ADDRESS: R_X86_64_KIND NAME-0x4`: the place that is meant is four further than written.
fn relocation(line: &str) -> Option<Place> {
    let (_, rest) = line.split_once(": R_X86_64_")?;
    let (_, place) = rest.split_once(char::is_whitespace)?;
    let place = place.trim();
    let (of, addend) = match place.rfind(['-', '+']) {
        Some(sign) => (&place[..sign], &place[sign..]),
        None => (place, "+0x0"),
    };
    let digits = addend.get(1..)?.strip_prefix("0x")?;
    let number = i64::from_str_radix(digits, 16).ok()?;
    let addend = if addend.starts_with('-') {
        -number
    } else {
        number
    };
    Some(Place {
        of: of.to_string(),
        offset: (addend + 4).max(0) as u64,
    })
}

/// `  ADDRESS:` tab `MNEMONIC OPERANDS # COMMENT`
fn instruction(line: &str, section: &str) -> Option<Instruction> {
    let (address, rest) = line.split_once(":\t")?;
    let address = u64::from_str_radix(address.trim(), 16).ok()?;
    let text = rest.split('#').next()?;
    let mut words = text.split_whitespace();
    let mnemonic = words.find(|word| !["bnd", "notrack", "repz"].contains(word))?;
    let operands: Vec<&str> = words.collect();
    let operands = split_operands(&operands.join(" "));
    let to = operands.first().and_then(|operand| {
        let (address, _) = operand.split_once(" <")?;
        let offset = u64::from_str_radix(address, 16).ok()?;
        let of = section.to_string();
        Some(Place { of, offset })
    });
    Some(Instruction {
        address,
        mnemonic: mnemonic.to_string(),
        operands,
        to,
    })
}

/// Operands stand between commas that are in no bracket.
fn split_operands(text: &str) -> Vec<String> {
    let mut operands = vec![String::new()];
    let mut depth = 0;
    for c in text.chars() {
        match c {
            '(' | '<' => depth += 1,
            ')' | '>' => depth -= 1,
            _ => (),
        }
        match operands.last_mut() {
            Some(last) if c != ',' || depth != 0 => last.push(c),
            _ => operands.push(String::new()),
        }
    }
    operands
}
