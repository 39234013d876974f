//! Disparity frames: a byte for each slot, by which a table has the distance.

use crate::write::write;
use crate::{Refusal, Summary};

/// How many disparities there are.
pub const DISPARITIES: usize = 256;

/// The table of a device constant: disparity 0 has the distance 0, any other one the constant divided by
/// it, rounded down, but at least 1. Refusal 19 for the constant 0, and zeros beside it.
pub fn fill_table(constant: u32) -> (Result<(), Refusal>, [u32; DISPARITIES]) {
    let mut table = [0; DISPARITIES];
    if constant == 0 {
        return (Err(Refusal::of_call(19, 0)), table);
    }
    for (disparity, distance) in (0..).zip(&mut table).skip(1) {
        *distance = (constant / disparity).max(1);
    }
    (Ok(()), table)
}

/// The map that has, at each slot, the table's distance for the frame's disparity there, as a file to the
/// front of `out`. Refusals 3, 12. Answers its summary.
pub fn map_of_frame(
    frame: &[u8],
    table: &[u32; DISPARITIES],
    out: &mut [u8],
) -> Result<Summary, Refusal> {
    let distance = |&disparity: &u8| table[usize::from(disparity)];
    let distances: Vec<u32> = frame.iter().map(distance).collect();
    write(&distances, out)
}
