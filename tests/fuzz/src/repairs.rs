//! Repair: a file, sound or damaged, and the counts that are given for it.

use crate::call::{dirty, summary_of, Answer, Bench, NONE};
use crate::files::{claimed_entries, claimed_slots, damage, encode, file, list};
use crate::input::Input;
use pciv::{raw, Summary};
use reference::{CORRECTION_LEN, HEADER_LEN};

/// The most bytes of a sparse index.
const LONGEST_INDEX: usize = 16 * 2_048;

/// A file and its counts: those that it had before it was damaged, those that its header says, or
/// others.
fn spoiled(input: &mut Input) -> (Vec<u8>, u64, u64) {
    let (mut file, is_sound) = match input.byte() {
        0..=199 => (encode(&list(input, None)), true),
        _ => (file(input, None), false),
    };
    let (n, k) = (claimed_slots(&file) as u64, claimed_entries(&file) as u64);
    if is_sound {
        for _ in 0..input.below(6) {
            damage(input, &mut file);
        }
    }
    let telling = [n, k, file.len() as u64];
    match input.byte() {
        0..=159 => (file, n, k),
        160..=207 => (file, n, input.number(&telling)),
        208..=239 => (file, input.number(&telling), k),
        _ => (file, input.number(&telling), input.number(&telling)),
    }
}

fn theirs(
    file: &[u8],
    (n, k): (u64, u64),
    out: &mut [u8],
    corrections: &mut [u64],
) -> Answer<(Summary, u64)> {
    let done = reference::repair(file, n, k, out, corrections)?;
    Ok((summary_of(done.summary), done.lines))
}

/// How many bytes and numbers the results take.
fn needed(file: &[u8], (n, k): (u64, u64)) -> (usize, usize) {
    // A call that is done has no more slots, and no more entries, than the file has bytes.
    let [slots, entries] = [n, k].map(|count| count.min(file.len() as u64) as usize);
    let mut out = vec![0; HEADER_LEN + slots + 12 * entries + LONGEST_INDEX];
    let mut corrections = vec![0; CORRECTION_LEN * (slots + entries + 7)];
    match theirs(file, (n, k), &mut out, &mut corrections) {
        Ok((summary, lines)) => (summary.len as usize, CORRECTION_LEN * lines as usize),
        Err(_) => (100, 12),
    }
}

/// A repair; where it is done, the result is repaired again by its own counts.
pub fn repair(bench: &mut Bench, input: &mut Input) {
    let (file, n, k) = spoiled(input);
    let (len, numbers) = needed(&file, (n, k));
    let (capacity, more) = (input.capacity(len), input.capacity(numbers));
    let result = compare(bench, &file, (n, k), (capacity, more));
    if let Some(Ok(summary)) = result.get(..len).map(reference::check) {
        compare(bench, &result[..len], (summary.n, summary.k), (len, 0));
    }
}

/// Answers what the buffer for the file has to hold.
fn compare(
    bench: &mut Bench,
    file: &[u8],
    (n, k): (u64, u64),
    (capacity, more): (usize, usize),
) -> Vec<u8> {
    bench.call(
        (file, NONE, NONE),
        (&dirty::<u8>(capacity), &dirty::<u64>(more)),
        |(file, ..), (out, corrections)| theirs(file, (n, k), out, corrections),
        |(file, ..), (out, corrections), (summary, count), refusal| {
            raw::repair(file, n, k, out, corrections, summary, count, refusal)
        },
    )
}
