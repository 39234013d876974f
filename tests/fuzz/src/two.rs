//! The routines on two files.

use crate::call::{Answer, Bench};
use crate::files::{claimed_slots, file};
use crate::input::Input;
use pciv::{raw, Refusal, Summary};

/// Two files, mostly of one size; a file beside itself is the same memory, told by `None`.
fn pair(input: &mut Input) -> (Vec<u8>, Option<Vec<u8>>) {
    let a = file(input, None);
    let b = match input.byte() {
        0..=7 => None,
        _ => Some(file(input, Some(claimed_slots(&a)))),
    };
    (a, b)
}

/// The second file of a call: the first one where there is no other.
fn second<'a>(has_second: bool, a: &'a [u8], b: &'a [u8]) -> &'a [u8] {
    if has_second {
        b
    } else {
        a
    }
}

type Theirs = fn(&[u8], &[u8], &mut [u8]) -> Answer<reference::Summary>;
type Ours = fn(&[u8], &[u8], &mut [u8], &mut Summary, &mut Refusal) -> u64;

fn combine(bench: &mut Bench, input: &mut Input, theirs: Theirs, ours: Ours) {
    let (a, b) = pair(input);
    let two = b.is_some();
    bench.file(
        (&a, &b.unwrap_or_default()),
        input,
        |a, b, out| theirs(a, second(two, a, b), out),
        |a, b, out, summary, refusal| ours(a, second(two, a, b), out, summary, refusal),
    );
}

pub fn minimum(bench: &mut Bench, input: &mut Input) {
    combine(bench, input, reference::minimum, raw::minimum);
}

pub fn maximum(bench: &mut Bench, input: &mut Input) {
    combine(bench, input, reference::maximum, raw::maximum);
}

pub fn sum_maps(bench: &mut Bench, input: &mut Input) {
    combine(bench, input, reference::sum_maps, raw::sum_maps);
}

pub fn difference(bench: &mut Bench, input: &mut Input) {
    combine(bench, input, reference::difference, raw::difference);
}

pub fn signed_difference(bench: &mut Bench, input: &mut Input) {
    let (a, b) = pair(input);
    let two = b.is_some();
    let capacity = input.capacity(claimed_slots(&a));
    bench.lists(
        (&a, &b.unwrap_or_default()),
        capacity,
        |a, b, out| reference::signed_difference(a, second(two, a, b), out),
        |a, b, out, count, refusal| {
            raw::signed_difference(a, second(two, a, b), out, count, refusal)
        },
    );
}

/// A figure to the bit, beside the float nearest to its fraction.
fn figure(
    bench: &mut Bench,
    input: &mut Input,
    theirs: impl Fn(&[u8], &[u8], u32) -> Answer<(u64, u64)>,
    ours: impl Fn(&[u8], &[u8], u32, &mut f64, &mut Refusal) -> u64,
) {
    let (a, b) = pair(input);
    let two = b.is_some();
    let t = input.distance();
    bench.lists(
        (&a, &b.unwrap_or_default()),
        0,
        |a, b, _: &mut [u8]| {
            let parts = theirs(a, second(two, a, b), t)?;
            Ok(reference::nearest_quotient(parts).to_bits())
        },
        |a, b, _, bits, refusal| {
            let mut figure = f64::from_bits(*bits);
            let number = ours(a, second(two, a, b), t, &mut figure, refusal);
            *bits = figure.to_bits();
            number
        },
    );
}

pub fn bray_curtis(bench: &mut Bench, input: &mut Input) {
    figure(
        bench,
        input,
        |a, b, _| reference::bray_curtis_parts(a, b),
        |a, b, _, figure, refusal| raw::bray_curtis(a, b, figure, refusal),
    );
}

pub fn jaccard(bench: &mut Bench, input: &mut Input) {
    figure(bench, input, reference::jaccard_parts, raw::jaccard);
}
