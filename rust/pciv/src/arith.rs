//! Arithmetic on maps, slot by slot.

use crate::{answer, count, raw, Refusal, Summary};

/// The smaller distance of two maps at each slot, as a file to the front of `out`. Answers its
/// summary. Refusals 1 to 8 of `a` with map 1, then of `b` with map 2, then 10 where the maps
/// differ in n, then 12.
///
/// ```
/// let a = include_bytes!("../../../examples/map-a.pciv");
/// let mut b = [0; 56];
/// pciv::write(&[1, 1, 1, 4_294_967_295], &mut b)?;
///
/// let mut out = [0; 56];
/// let summary = pciv::minimum(a, &b, &mut out)?;
/// let mut distances = [0; 4];
/// pciv::scan(&out[..summary.len as usize], &mut distances)?;
/// assert_eq!(distances, [0, 1, 1, 300]);
///
/// let refusal = pciv::minimum(a, &b[1..], &mut out).unwrap_err();
/// assert_eq!((refusal.number, refusal.map), (pciv::Refusal::BAD_MAGIC, 2));
/// # Ok::<(), pciv::Refusal>(())
/// ```
pub fn minimum(a: &[u8], b: &[u8], out: &mut [u8]) -> Result<Summary, Refusal> {
    answer(|summary, refusal| raw::minimum(a, b, out, summary, refusal))
}

/// The larger distance of two maps at each slot, as [`minimum`].
///
/// ```
/// let a = include_bytes!("../../../examples/map-a.pciv");
/// let mut b = [0; 56];
/// pciv::write(&[1, 1, 1, 4_294_967_295], &mut b)?;
///
/// let mut out = [0; 68];
/// pciv::maximum(a, &b, &mut out)?;
/// let mut distances = [0; 4];
/// pciv::scan(&out, &mut distances)?;
/// assert_eq!(distances, [1, 254, 255, 4_294_967_295]);
/// # Ok::<(), pciv::Refusal>(())
/// ```
pub fn maximum(a: &[u8], b: &[u8], out: &mut [u8]) -> Result<Summary, Refusal> {
    answer(|summary, refusal| raw::maximum(a, b, out, summary, refusal))
}

/// The sum of two maps' distances at each slot, as [`minimum`], and before 12 refusal 11 with the
/// least slot whose sum is above 4,294,967,295 as place.
///
/// ```
/// let a = include_bytes!("../../../examples/map-a.pciv");
/// let mut ones = [0; 44];
/// pciv::write(&[1; 4], &mut ones)?;
///
/// let mut out = [0; 80];
/// pciv::sum_maps(a, &ones, &mut out)?;
/// let mut distances = [0; 4];
/// pciv::scan(&out, &mut distances)?;
/// assert_eq!(distances, [1, 255, 256, 301]);
/// # Ok::<(), pciv::Refusal>(())
/// ```
pub fn sum_maps(a: &[u8], b: &[u8], out: &mut [u8]) -> Result<Summary, Refusal> {
    answer(|summary, refusal| raw::sum_maps(a, b, out, summary, refusal))
}

/// The distance of `a` less that of `b` at each slot, 0 where that would be negative, as
/// [`minimum`].
///
/// ```
/// let a = include_bytes!("../../../examples/map-a.pciv");
/// let mut b = [0; 56];
/// pciv::write(&[1, 1, 1, 4_294_967_295], &mut b)?;
///
/// let mut out = [0; 44];
/// pciv::difference(a, &b, &mut out)?;
/// assert_eq!(pciv::primary(&out), [0, 253, 254, 0]);
/// # Ok::<(), pciv::Refusal>(())
/// ```
pub fn difference(a: &[u8], b: &[u8], out: &mut [u8]) -> Result<Summary, Refusal> {
    answer(|summary, refusal| raw::difference(a, b, out, summary, refusal))
}

/// Each non-zero distance plus `by`, or 1 where that would be 0 or negative, as a file to the front
/// of `out`. A zero distance, where nothing was measured, stays 0. Answers the summary. Refusals 1 to
/// 8, then 11 with the least slot whose distance would be above 4,294,967,295 as place, then 12.
///
/// ```
/// let file = include_bytes!("../../../examples/map-a.pciv");
/// let mut out = [0; 44];
/// pciv::shift(file, -100, &mut out)?;
/// assert_eq!(pciv::primary(&out), [0, 154, 155, 200]);
/// pciv::shift(file, -254, &mut out)?;
/// assert_eq!(pciv::primary(&out), [0, 1, 1, 46]);
/// # Ok::<(), pciv::Refusal>(())
/// ```
pub fn shift(file: &[u8], by: i32, out: &mut [u8]) -> Result<Summary, Refusal> {
    answer(|summary, refusal| raw::shift(file, by, out, summary, refusal))
}

/// The exact signed difference b - a at each slot, to the front of `out`. Answers how many there
/// are. Refusals 1 to 8 of `a` with map 1, then of `b` with map 2, then 10 where the maps differ in
/// n, then 12.
///
/// ```
/// let a = include_bytes!("../../../examples/map-a.pciv");
/// let mut b = [0; 56];
/// pciv::write(&[1, 1, 1, 4_294_967_295], &mut b)?;
///
/// let mut out = [7; 5];
/// assert_eq!(pciv::signed_difference(a, &b, &mut out)?, 4);
/// assert_eq!(out, [1, -253, -254, 4_294_966_995, 7]);
/// # Ok::<(), pciv::Refusal>(())
/// ```
pub fn signed_difference(a: &[u8], b: &[u8], out: &mut [i64]) -> Result<usize, Refusal> {
    count(|count, refusal| raw::signed_difference(a, b, out, count, refusal))
}

#[cfg(test)]
mod tests {
    use super::*;
    use crate::check;

    const MAP_A: &[u8] = include_bytes!("../../../examples/map-a.pciv");

    #[test]
    fn a_map_with_itself() {
        let mut out = [0; 68];
        assert_eq!(minimum(MAP_A, MAP_A, &mut out), check(MAP_A));
        assert_eq!(out, *MAP_A);
        let zeros = difference(MAP_A, MAP_A, &mut out).unwrap();
        assert_eq!((zeros.len, zeros.sum), (44, 0));
        assert_eq!(out[40..44], [0; 4]);
    }

    #[test]
    fn refused_buffers_are_unchanged() {
        let mut out = [7; 67];
        let refusal = maximum(MAP_A, MAP_A, &mut out).unwrap_err();
        assert_eq!(refusal.number, Refusal::BUFFER_TOO_SMALL);
        let refusal = shift(MAP_A, i32::MAX, &mut out).unwrap_err();
        assert_eq!(refusal.number, Refusal::BUFFER_TOO_SMALL);
        assert_eq!(out, [7; 67]);
        let mut out = [7; 3];
        let refusal = signed_difference(MAP_A, MAP_A, &mut out).unwrap_err();
        assert_eq!((refusal.number, out), (Refusal::BUFFER_TOO_SMALL, [7; 3]));
    }
}
