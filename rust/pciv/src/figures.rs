//! Comparison figures of two maps: quotients of two whole numbers, rounded once.

use crate::{answer, raw, Refusal};

/// Bray-Curtis: the sum of |a - b| over all slots, divided by the sum of a + b; 0.0 where that is
/// 0. Refusals 1 to 8 of `a` with map 1, then of `b` with map 2, then 10 where the maps differ in n.
///
/// ```
/// let [mut three, mut one] = [[0; 41]; 2];
/// pciv::write(&[3], &mut three)?;
/// pciv::write(&[1], &mut one)?;
/// assert_eq!(pciv::bray_curtis(&three, &one)?, 0.5);
/// # Ok::<(), pciv::Refusal>(())
/// ```
pub fn bray_curtis(a: &[u8], b: &[u8]) -> Result<f64, Refusal> {
    answer(|figure, refusal| raw::bray_curtis(a, b, figure, refusal))
}

/// Threshold Jaccard: the number of slots at `t` or above in exactly one map, divided by the number
/// of those at `t` or above in either; 0.0 where there are none. As [`bray_curtis`].
///
/// ```
/// let a = include_bytes!("../../../examples/map-a.pciv");
/// let mut b = [0; 56];
/// pciv::write(&[1, 1, 1, 4_294_967_295], &mut b)?;
/// assert_eq!(pciv::jaccard(a, &b, 255)?, 0.5);
/// # Ok::<(), pciv::Refusal>(())
/// ```
pub fn jaccard(a: &[u8], b: &[u8], t: u32) -> Result<f64, Refusal> {
    answer(|figure, refusal| raw::jaccard(a, b, t, figure, refusal))
}
