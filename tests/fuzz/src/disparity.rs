//! Disparity frames: tables of device constants, and maps of frames by these and by other tables.

use crate::call::{dirty, summary_of, Bench, NONE};
use crate::files::list;
use crate::input::Input;
use crate::parts::TOO_MANY;
use pciv::raw;
use reference::{file_len, DISPARITIES};
use std::array;

/// A device constant: small, next to one from which on a disparity is in overflow, or any.
fn constant(input: &mut Input) -> u32 {
    input.number(&[255, 2 * 255, 127 * 255, 255 * 255]) as u32
}

pub fn fill_table(bench: &mut Bench, input: &mut Input) {
    let constant = constant(input);
    bench.call(
        (NONE, NONE, NONE),
        (&dirty::<u32>(DISPARITIES), NONE),
        |_, (table, _)| {
            let (answer, filled) = reference::fill_table(constant);
            table.copy_from_slice(&filled);
            answer
        },
        |_, (table, _), (), refusal| {
            let table = table.try_into().expect("256 distances");
            raw::fill_table(constant, table, refusal)
        },
    );
}

/// A table: that of a device constant, or a few distances over and over; then some disparities, one
/// behind another, with another distance.
fn table(input: &mut Input) -> [u32; DISPARITIES] {
    let mut table = match input.byte() {
        0..=127 => reference::fill_table(constant(input)).1,
        _ => {
            let count = 1 + input.below(12);
            let pattern: Vec<u32> = (0..count).map(|_| input.distance()).collect();
            array::from_fn(|disparity| pattern[disparity % count])
        }
    };
    for _ in 0..input.below(4) {
        let ends = [(); 2].map(|()| usize::from(input.byte()));
        let distance = input.distance();
        table[ends[0].min(ends[1])..=ends[0].max(ends[1])].fill(distance);
    }
    table
}

/// A map of a frame, to a buffer as for other files, or one about as long as the longest file.
pub fn map_of_frame(bench: &mut Bench, input: &mut Input) {
    let frame: Vec<u8> = match input.byte() {
        255 => vec![0; TOO_MANY],
        _ => list(input, None).into_iter().map(|x| x as u8).collect(),
    };
    let table = table(input);
    let k = frame
        .iter()
        .filter(|&&d| table[usize::from(d)] >= 255)
        .count();
    let (needed, longest) = match frame.len() {
        TOO_MANY => (100, 3_000),
        n => (
            file_len(n as u64, k as u64) as usize,
            pciv::longest_file(n as u64),
        ),
    };
    let capacity = match input.byte() {
        0..=191 => input.capacity(needed),
        code => longest - 2 + usize::from(code % 4),
    };
    bench.call(
        (&frame, &table, NONE),
        (&dirty::<u8>(capacity), NONE),
        |(frame, table, _), (out, _)| {
            let table = table.try_into().expect("256 distances");
            reference::map_of_frame(frame, table, out).map(summary_of)
        },
        |(frame, table, _), (out, _), summary, refusal| {
            let table = table.try_into().expect("256 distances");
            raw::map_of_frame(frame, table, out, summary, refusal)
        },
    );
}
