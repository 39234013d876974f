//! What libFuzzer calls and reads.

#![allow(unsafe_code)]

use std::slice;
use std::sync::atomic::{AtomicU8, Ordering};

/// The function that libFuzzer calls with each input.
///
/// # Safety
///
/// `data` is valid for `len` bytes.
#[no_mangle]
pub unsafe extern "C" fn LLVMFuzzerTestOneInput(data: *const u8, len: usize) -> i32 {
    let bytes = match len {
        0 => &[],
        _ => unsafe { slice::from_raw_parts(data, len) },
    };
    crate::run(bytes);
    0
}

/// Outcomes that are told apart: a refusal's number, up to 19, and map, up to 8.
const NUMBERS: usize = 20;
const MAPS: usize = 9;
const OUTCOMES: usize = NUMBERS * MAPS;

/// Counters beside those of branches: an input that gives a routine a new outcome is of interest.
#[used]
#[link_section = "__libfuzzer_extra_counters"]
static COUNTERS: [AtomicU8; OUTCOMES * 64] = [const { AtomicU8::new(0) }; OUTCOMES * 64];

/// How many outcomes of routines there have been; for a program without libFuzzer, which sets the
/// counters back.
pub fn outcomes() -> usize {
    let seen = |counter: &&AtomicU8| counter.load(Ordering::Relaxed) > 0;
    COUNTERS.iter().filter(seen).count()
}

/// Tells libFuzzer the outcome of a routine.
pub fn count(routine: usize, number: u64, map: u64) {
    let outcome = number as usize % NUMBERS + NUMBERS * (map as usize % MAPS);
    let counter = &COUNTERS[(OUTCOMES * routine + outcome) % COUNTERS.len()];
    counter.store(1, Ordering::Relaxed);
}
