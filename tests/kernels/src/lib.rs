//! That the compiler works on many bytes at once: in the object code of each exported routine, and
//! of what it calls, there have to be loops with certain packed instructions.
//!
//! Nothing is timed, and nothing is asked about names inside of the library, about which function a
//! loop is in, or about how often a loop is unrolled.

mod listing;
mod loops;
mod routines;
mod words;

pub use listing::disassemble;
pub use routines::ROUTINES;
pub use words::Kernel;

use listing::Listing;
use loops::Loop;

/// A routine and the loops that it has to have.
pub type Routine = (&'static str, &'static [Kernel]);

/// The routine that all others start with; its loops are not their own.
const CHECK: &str = "pciv_check";

/// Looks for the loops of all routines in what `objdump -dr` has printed. Answers their number, or
/// what is missing, a line for each routine.
pub fn check(text: &str, routines: &[Routine]) -> Result<usize, Vec<String>> {
    let listing = Listing::read(text);
    let exported = listing.names().filter(|name| is_exported(name));
    let mut faults: Vec<String> = exported
        .filter(|name| routines.iter().all(|(routine, _)| routine != name))
        .map(|name| format!("{name}: no rule says which loops it has to have"))
        .collect();
    let shared = listing.reached(CHECK);
    let mut found = 0;
    for (routine, kernels) in routines {
        let reached = listing.reached(routine);
        if reached.is_empty() {
            faults.push(format!("{routine}: not in the archive"));
            continue;
        }
        let loops: Vec<Loop> = reached
            .into_iter()
            .flat_map(|at| loops::of(listing.function(at), !shared.contains(&at)))
            .collect();
        let mut missing: Vec<String> = words::single_bytes(&loops).into_iter().collect();
        for kernel in *kernels {
            match kernel.missing(&loops) {
                None => found += kernel.least(),
                Some(fault) => missing.push(fault),
            }
        }
        if !missing.is_empty() {
            faults.push(format!("{routine}: {}", missing.join("; ")));
        }
    }
    match faults.is_empty() {
        true => Ok(found),
        false => Err(faults),
    }
}

/// Whether a symbol is one of the C interface; those inside of the library have a path.
fn is_exported(name: &str) -> bool {
    let is_plain = |c: char| c.is_ascii_alphanumeric() || c == '_';
    name.starts_with("pciv_") && name.chars().all(is_plain)
}
