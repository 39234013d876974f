//! Calls that bytes decide: an input chooses a routine, its files, lists, masks and edits, and how
//! much the buffers hold. The verified library and the independent implementation get the same, and
//! every number and byte that they leave has to be the same.
//!
//! Under a fuzzer ([`run`] is called by `LLVMFuzzerTestOneInput`) the independent implementation is
//! built with counters of its branches, which lead the fuzzer to new inputs; the library's code is
//! as it is shipped. The caller's memory lies between pages that nobody may touch, at either
//! end of them, so that an access out of bounds stops the program.

mod bundles;
mod call;
mod disparity;
mod entry;
mod fence;
mod files;
mod input;
mod masks;
mod one;
mod parts;
mod repairs;
mod routines;
mod two;

pub use entry::outcomes;
pub use routines::{routine_of, ROUTINES};

use call::Bench;
use input::Input;
use std::cell::RefCell;

thread_local! {
    static BENCH: RefCell<Bench> = RefCell::new(Bench::from_environment());
}

/// Makes the call that an input stands for. Panics where the library differs.
pub fn run(bytes: &[u8]) {
    let mut input = Input::new(bytes);
    let routine = routines::choose(&mut input);
    BENCH.with_borrow_mut(|bench| {
        bench.begin(routine, input.byte());
        (ROUTINES[routine].compare)(bench, &mut input);
    });
}
