//! What a loop has to have, in words.
//!
//! A [`Kernel`] is a text of words with spaces between them, all of which have to hold of one loop:
//!
//! | Word | Holds where |
//! |---|---|
//! | `paddb` | an instruction of that name works on a packed register |
//! | `load16`, `store16` | 16 bytes are loaded at once, or stored |
//! | `load8`, `store8` | 8 bytes or more are loaded to a packed register, or stored from any |
//! | `byte` | a single byte is loaded: the loop works on one at a time |
//! | `popcnt` | the bits of a whole word are counted at once |
//! | `own` | the check of a file does not reach the loop |
//! | `a\|b` | a word of several holds |
//! | `!a` | the word does not hold |
//!
//! Constants and what lies on the stack are no loads and no stores; a call of `memcpy` or `memmove`
//! is both.

use crate::{listing::Instruction, loops::Loop};

/// Loops that a routine has to have: at least one as the words say, or two.
pub struct Kernel {
    what: &'static str,
    words: &'static str,
    least: usize,
}

impl Kernel {
    /// What a loop does, and the words about it.
    pub const fn new(what: &'static str, words: &'static str) -> Kernel {
        Kernel {
            what,
            words,
            least: 1,
        }
    }

    /// The same where bytes are taken block by block: two loops, for the blocks and for what is
    /// left. If only the second is as the words say, nearly all bytes are worked on one by one.
    pub const fn blocks(what: &'static str, words: &'static str) -> Kernel {
        Kernel {
            what,
            words,
            least: 2,
        }
    }

    /// How many loops there have to be.
    pub fn least(&self) -> usize {
        self.least
    }

    /// What is missing, unless enough of the loops are as they have to be.
    pub fn missing(&self, loops: &[Loop]) -> Option<String> {
        let Kernel { what, words, least } = self;
        let unmet = |candidate| -> Vec<&str> {
            let words = words.split(' ');
            words.filter(|word| !holds(word, candidate)).collect()
        };
        let mut unmet: Vec<Vec<&str>> = loops.iter().map(unmet).collect();
        unmet.sort_by_key(Vec::len);
        let found = unmet.iter().take_while(|unmet| unmet.is_empty()).count();
        if *least <= found {
            return None;
        }
        let nearest = match unmet.get(found) {
            Some(unmet) => format!("the next one fails at {}", unmet.join(" ")),
            None => "there are no others".to_string(),
        };
        Some(format!(
            "{what}: {found} of {least} loops with {words}, {nearest}"
        ))
    }
}

/// A loop that loads more single bytes than this is a block that the compiler has unrolled without
/// working on many bytes at once.
const SINGLE_MAX: usize = 16;

/// Tells of a loop that loads many single bytes.
pub fn single_bytes(loops: &[Loop]) -> Option<String> {
    let singles = |one: &Loop| one.code.iter().filter(|i| is("byte", i)).count();
    let most = loops.iter().map(singles).max()?;
    (SINGLE_MAX < most).then(|| format!("a loop loads {most} bytes one by one"))
}

/// Whether a word holds of a loop.
fn holds(word: &str, candidate: &Loop) -> bool {
    if let Some(unwanted) = word.strip_prefix('!') {
        return !holds(unwanted, candidate);
    }
    word.split('|').any(|word| match word {
        "own" => candidate.own,
        _ => candidate
            .code
            .iter()
            .any(|instruction| is(word, instruction)),
    })
}

/// Moves of 16 bytes.
const WIDE: [&str; 6] = ["movdqu", "movdqa", "movups", "movaps", "movupd", "movapd"];
/// Loads of 8 bytes to a packed register that also widen them.
const WIDENING: [&str; 3] = ["pmovzxbw", "pmovzxwd", "pmovzxdq"];
/// Moves of 8 bytes between memory and a packed register.
const HALF: [&str; 5] = ["movq", "movsd", "movlps", "movhps", "movhpd"];

/// Whether an instruction is what a word says.
fn is(word: &str, instruction: &Instruction) -> bool {
    let mnemonic = instruction.mnemonic.as_str();
    let operands = &instruction.operands;
    let (from, to) = match operands.as_slice() {
        [from, to] => (from.as_str(), to.as_str()),
        _ => ("", ""),
    };
    let (loads, stores) = (is_memory(from), is_memory(to));
    let wide = WIDE.contains(&mnemonic);
    let half = HALF.contains(&mnemonic);
    let widening = WIDENING.contains(&mnemonic);
    let whole = mnemonic == "mov" && is_whole(from);
    match word {
        "load16" => instruction.copies() || loads && wide,
        "load8" => instruction.copies() || loads && (wide || half || widening),
        "store16" => instruction.copies() || stores && wide,
        "store8" => instruction.copies() || stores && (wide || half || whole),
        "popcnt" => mnemonic == word && is_whole(to),
        "byte" => loads && (mnemonic.starts_with("movzb") || mnemonic.starts_with("movsb")),
        _ => mnemonic == word && operands.iter().any(|operand| is_packed(operand)),
    }
}

/// Memory of the caller.
fn is_memory(operand: &str) -> bool {
    operand.contains('(') && !operand.contains("(%rip") && !operand.contains("(%rsp")
}

fn is_packed(operand: &str) -> bool {
    operand.starts_with("%xmm")
}

/// A register of 64 bits: `%rax`, `%r10`, but not `%r10d`.
fn is_whole(operand: &str) -> bool {
    let name = operand.strip_prefix("%r").unwrap_or("");
    let digits = name.chars().filter(char::is_ascii_digit).count();
    !name.is_empty() && (digits == 0 || digits == name.len())
}
