//! Arithmetic on maps, slot by slot: each routine walks the distances of its files once.

use crate::write::write_distances;
use crate::{require_capacity, Map, Refusal, Summary};

/// The smaller distance at each slot, as a file to the front of `out`. Refusals 1 to 8 of either
/// file, then 10, 12. Answers the summary of the result.
pub fn minimum(a: &[u8], b: &[u8], out: &mut [u8]) -> Result<Summary, Refusal> {
    combine(a, b, out, |x, y| Some(x.min(y)))
}

/// The larger distance at each slot, as [`minimum`].
pub fn maximum(a: &[u8], b: &[u8], out: &mut [u8]) -> Result<Summary, Refusal> {
    combine(a, b, out, |x, y| Some(x.max(y)))
}

/// The sum of the distances at each slot, as [`minimum`], and refusal 11 before 12.
pub fn sum_maps(a: &[u8], b: &[u8], out: &mut [u8]) -> Result<Summary, Refusal> {
    combine(a, b, out, u32::checked_add)
}

/// The first file's distance less the second's at each slot, 0 where that would be negative, as
/// [`minimum`].
pub fn difference(a: &[u8], b: &[u8], out: &mut [u8]) -> Result<Summary, Refusal> {
    combine(a, b, out, |x, y| Some(x.saturating_sub(y)))
}

/// Each non-zero distance plus `by`, or 1 where that would be 0 or negative, as a file to the front of
/// `out`; a zero distance stays 0. Refusals 1 to 8, then 11, 12. Answers the summary of the result.
pub fn shift(file: &[u8], by: i32, out: &mut [u8]) -> Result<Summary, Refusal> {
    let map = Map::open(file)?;
    write_distances(map.distances().map(|distance| shifted(distance, by)), out)
}

/// A distance plus `by` by the rule of [`shift`]; `None` above 4,294,967,295.
fn shifted(distance: u32, by: i32) -> Option<u32> {
    if distance == 0 {
        return Some(0);
    }
    let sum = i64::from(distance) + i64::from(by);
    u32::try_from(sum.max(1)).ok()
}

/// The second file's distance less the first's at each slot, to the front of `out`. Refusals 1 to 8
/// of either file, then 10, 12. Answers how many there are.
pub fn signed_difference(a: &[u8], b: &[u8], out: &mut [i64]) -> Result<u64, Refusal> {
    let (a, b) = open_pair(a, b)?;
    require_capacity(a.primary().len(), out.len())?;
    for (out, (x, y)) in out.iter_mut().zip(a.distances().zip(b.distances())) {
        *out = i64::from(y) - i64::from(x);
    }
    Ok(a.n())
}

/// An operation on the two distances of each slot; `None` stands for a distance above
/// 4,294,967,295.
fn combine(
    a: &[u8],
    b: &[u8],
    out: &mut [u8],
    operation: impl Fn(u32, u32) -> Option<u32>,
) -> Result<Summary, Refusal> {
    let (a, b) = open_pair(a, b)?;
    let pairs = a.distances().zip(b.distances());
    write_distances(pairs.map(|(x, y)| operation(x, y)), out)
}

/// Checks two files: refusals 1 to 8 of the first, then of the second, then 10.
pub(crate) fn open_pair<'a>(a: &'a [u8], b: &'a [u8]) -> Result<(Map<'a>, Map<'a>), Refusal> {
    let a = Map::open(a)?;
    let b = Map::open(b).map_err(|refusal| Refusal { map: 2, ..refusal })?;
    if a.n() != b.n() {
        return Err(Refusal::of_call(10, 0));
    }
    Ok((a, b))
}
