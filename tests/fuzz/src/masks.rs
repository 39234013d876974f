//! Masks that an input describes, and the routines on masks alone.

use crate::call::Bench;
use crate::input::Input;
use pciv::raw;
use reference::mask_len;

/// A mask for `n` slots, or what only resembles one: words too few or too many, a bit past n.
pub fn mask(input: &mut Input, n: usize) -> Vec<u64> {
    let code = input.byte();
    let words = match code % 16 {
        14 => mask_len(n).saturating_sub(1),
        15 => mask_len(n) + 1,
        _ => mask_len(n),
    };
    let pattern: Vec<u8> = (0..1 + input.below(9)).map(|_| input.byte()).collect();
    let mut bytes = pattern.into_iter().cycle();
    let mut word = || u64::from_le_bytes([(); 8].map(|()| bytes.next().unwrap_or(0)));
    let mut mask: Vec<u64> = (0..words).map(|_| word()).collect();
    if let (Some(last), true) = (mask.last_mut(), code < 224 && n % 64 > 0) {
        *last &= (1 << (n % 64)) - 1;
    }
    mask
}

/// A number of slots for a mask; memory is spent for up to 1,048,577.
fn slots(input: &mut Input) -> (u64, usize) {
    let n = match input.byte() {
        code @ 0..=199 => u64::from(code),
        _ => input.number(&[64, 128, 4_096]),
    };
    (n, n.min(4_200) as usize)
}

type Theirs = fn(usize, &[u64], &[u64], &mut [u64]) -> Result<u64, reference::Refusal>;
type Ours = fn(u64, &[u64], &[u64], &mut [u64], &mut u64, &mut pciv::Refusal) -> u64;

fn combine(bench: &mut Bench, input: &mut Input, theirs: Theirs, ours: Ours) {
    let (n, described) = slots(input);
    let (a, b) = (mask(input, described), mask(input, described));
    let capacity = input.capacity(mask_len(described));
    bench.lists(
        (&a, &b),
        capacity,
        |a, b, out| theirs(n as usize, a, b, out),
        |a, b, out, count, refusal| ours(n, a, b, out, count, refusal),
    );
}

pub fn and(bench: &mut Bench, input: &mut Input) {
    combine(bench, input, reference::mask_and, raw::mask_and);
}

pub fn or(bench: &mut Bench, input: &mut Input) {
    combine(bench, input, reference::mask_or, raw::mask_or);
}

pub fn xor(bench: &mut Bench, input: &mut Input) {
    combine(bench, input, reference::mask_xor, raw::mask_xor);
}

pub fn not(bench: &mut Bench, input: &mut Input) {
    let (n, described) = slots(input);
    let mask = mask(input, described);
    let capacity = input.capacity(mask_len(described));
    bench.list(
        &mask,
        capacity,
        |mask, out| reference::mask_not(n as usize, mask, out),
        |mask, out, count, refusal| raw::mask_not(n, mask, out, count, refusal),
    );
}

pub fn set_bits(bench: &mut Bench, input: &mut Input) {
    let (n, described) = slots(input);
    let mask = mask(input, described);
    bench.list(
        &mask,
        0,
        |mask, _: &mut [u64]| reference::set_bits(n as usize, mask),
        |mask, _, count, refusal| raw::set_bits(n, mask, count, refusal),
    );
}

pub fn map_of_mask(bench: &mut Bench, input: &mut Input) {
    let (n, described) = slots(input);
    let mask = mask(input, described);
    bench.file(
        (&mask, &[0u8; 0]),
        input,
        |mask, _, out| reference::map_of_mask(n as usize, mask, out),
        |mask, _, out, summary, refusal| raw::map_of_mask(n, mask, out, summary, refusal),
    );
}
