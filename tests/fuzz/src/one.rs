//! The routines on one file.

use crate::call::{dirty, edited_of, summary_of, Answer, Bench, NONE};
use crate::files::{claimed_slots, file};
use crate::input::Input;
use crate::masks::mask;
use pciv::{raw, Edited, Refusal, Summary};
use reference::{mask_len, Comparison, ANSWER_LEN, HEADER_LEN};

pub fn check(bench: &mut Bench, input: &mut Input) {
    bench.value(
        &file(input, None),
        |file| reference::check(file).map(summary_of),
        raw::check,
    );
}

/// The answer is the length of the span, and there is no refusal.
pub fn primary_span(bench: &mut Bench, input: &mut Input) {
    bench.list(
        &file(input, None),
        2,
        |file, out: &mut [u64]| {
            let n = reference::primary(file).len() as u64;
            let start = if reference::check(file).is_ok() {
                HEADER_LEN
            } else {
                0
            };
            out.copy_from_slice(&[start as u64, n]);
            Ok(n)
        },
        |file, out, len, refusal| {
            let span: &mut [u64; 2] = out.try_into().expect("two numbers");
            *len = raw::primary_span(file, span);
            *refusal = Refusal::default();
            0
        },
    );
}

/// A slot of a file: anywhere, next to an end, or beyond it.
fn slot(input: &mut Input, file: &[u8]) -> u64 {
    let n = claimed_slots(file);
    match input.byte() {
        0..=99 => (input.below(65_536) % n.max(1)) as u64,
        code @ 100..=149 => u64::from(code - 100) / 12,
        code @ 150..=199 => (n as u64).wrapping_sub(1 + u64::from(code - 150) / 12),
        _ => input.number(&[n as u64]),
    }
}

fn slots(input: &mut Input, file: &[u8]) -> Vec<u64> {
    (0..input.below(24)).map(|_| slot(input, file)).collect()
}

pub fn lookup(bench: &mut Bench, input: &mut Input) {
    let file = file(input, None);
    let slot = slot(input, &file);
    bench.value(
        &file,
        |file| reference::lookup_numbered(file, slot),
        |file, (distance, entry), refusal| raw::lookup(file, slot, distance, entry, refusal),
    );
}

pub fn lookup_list(bench: &mut Bench, input: &mut Input) {
    let file = file(input, None);
    let slots = slots(input, &file);
    let [capacity, more] = [(); 2].map(|()| input.capacity(slots.len()));
    bench.call(
        (&file, &slots, NONE),
        (&dirty::<u32>(capacity), &dirty::<u64>(more)),
        |(file, slots, _), (distances, entries)| {
            reference::lookup_list(file, slots, distances, entries)
        },
        |(file, slots, _), (distances, entries), count, refusal| {
            raw::lookup_list(file, slots, distances, entries, count, refusal)
        },
    );
}

pub fn scan(bench: &mut Bench, input: &mut Input) {
    let file = file(input, None);
    let capacity = input.capacity(claimed_slots(&file));
    bench.list(&file, capacity, reference::scan, raw::scan);
}

pub fn sum(bench: &mut Bench, input: &mut Input) {
    bench.value(&file(input, None), reference::sum, raw::sum);
}

pub fn readings(bench: &mut Bench, input: &mut Input) {
    bench.value(&file(input, None), reference::readings, raw::readings);
}

pub fn report(bench: &mut Bench, input: &mut Input) {
    let file = match input.byte() {
        250.. => vec![0; 65_535 + input.below(4)],
        _ => file(input, None),
    };
    let capacity = input.capacity(reference::report_text(&file).len());
    bench.list(&file, capacity, reference::report, raw::report);
}

pub fn shift(bench: &mut Bench, input: &mut Input) {
    let file = file(input, None);
    let by = input.number(&[0, 255, u64::MAX - 255]) as i32;
    bench.file(
        (&file, NONE),
        input,
        |file, _, out| reference::shift(file, by, out),
        |file, _, out, summary, refusal| raw::shift(file, by, out, summary, refusal),
    );
}

type Selecting = fn(&[u8], u32, &mut [u64], &mut u64, &mut Refusal) -> u64;

fn select(
    bench: &mut Bench,
    input: &mut Input,
    theirs: impl Fn(&[u8], u32, &mut [u64]) -> Answer<u64>,
    ours: Selecting,
) {
    let file = file(input, None);
    let t = input.distance();
    let capacity = input.capacity(mask_len(claimed_slots(&file)));
    bench.list(
        &file,
        capacity,
        |file, out| theirs(file, t, out),
        |file, out, count, refusal| ours(file, t, out, count, refusal),
    );
}

fn threshold(bench: &mut Bench, input: &mut Input, comparison: Comparison, ours: Selecting) {
    let theirs = |file: &[u8], t, out: &mut [u64]| reference::threshold(file, comparison, t, out);
    select(bench, input, theirs, ours);
}

pub fn mask_below(bench: &mut Bench, input: &mut Input) {
    threshold(bench, input, Comparison::Below, raw::mask_below);
}

pub fn mask_at_most(bench: &mut Bench, input: &mut Input) {
    threshold(bench, input, Comparison::AtMost, raw::mask_at_most);
}

pub fn mask_above(bench: &mut Bench, input: &mut Input) {
    threshold(bench, input, Comparison::Above, raw::mask_above);
}

pub fn mask_at_least(bench: &mut Bench, input: &mut Input) {
    threshold(bench, input, Comparison::AtLeast, raw::mask_at_least);
}

pub fn near_mask(bench: &mut Bench, input: &mut Input) {
    select(bench, input, reference::near_mask, raw::near_mask);
}

type Masking = fn(&[u8], &[u64], &mut [u8]) -> Answer<reference::Summary>;
type MaskingHere = fn(&[u8], &[u64], &mut [u8], &mut Summary, &mut Refusal) -> u64;

fn masked(bench: &mut Bench, input: &mut Input, theirs: Masking, ours: MaskingHere) {
    let file = file(input, None);
    let mask = mask(input, claimed_slots(&file));
    bench.file((&file, &mask), input, theirs, ours);
}

pub fn keep_masked(bench: &mut Bench, input: &mut Input) {
    masked(bench, input, reference::keep_masked, raw::keep_masked);
}

pub fn increment_masked(bench: &mut Bench, input: &mut Input) {
    masked(
        bench,
        input,
        reference::increment_masked,
        raw::increment_masked,
    );
}

/// A buffer to be edited: a file, then perhaps other bytes.
fn buffer(input: &mut Input) -> Vec<u8> {
    let mut buffer = file(input, None);
    let tail = match input.byte() {
        0..=99 => 0,
        100..=199 => input.below(64),
        _ => 40_000 - 8 * input.below(256),
    };
    buffer.extend(dirty::<u8>(tail));
    buffer
}

/// A run of edits, each on the buffer that the one before left.
pub fn edit(bench: &mut Bench, input: &mut Input) {
    let mut buffer = buffer(input);
    for _ in 0..1 + input.below(12) {
        let (slot, distance) = (slot(input, &buffer), input.distance());
        buffer = bench.call(
            (NONE, NONE, NONE),
            (&buffer, NONE),
            |_, (buffer, _)| reference::edit(buffer, slot, distance).map(edited_of),
            |_, (buffer, _), Edited { summary, moved }, refusal| {
                raw::edit(buffer, slot, distance, summary, moved, refusal)
            },
        );
    }
}

pub fn edit_list(bench: &mut Bench, input: &mut Input) {
    let buffer = buffer(input);
    let slots = slots(input, &buffer);
    let count = match input.byte() {
        0..=239 => slots.len(),
        _ => input.below(24),
    };
    let distances: Vec<u32> = (0..count).map(|_| input.distance()).collect();
    let capacity = input.capacity(ANSWER_LEN * slots.len());
    bench.call(
        (&slots, &distances, NONE),
        (&buffer, &dirty::<u64>(capacity)),
        |(slots, distances, _), (buffer, answers)| {
            reference::edit_list(buffer, slots, distances, answers)
        },
        |(slots, distances, _), (buffer, answers), count, refusal| {
            raw::edit_list(buffer, slots, distances, answers, count, refusal)
        },
    );
}
