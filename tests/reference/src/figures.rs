//! Comparison figures of two maps: quotients of two whole numbers.

use crate::arith::open_pair;
use crate::Refusal;

/// The sum of |a - b| over the sum of a + b; 0.0 where both maps are all 0. Refusals 1 to 8 of
/// either file, then 10.
pub fn bray_curtis(a: &[u8], b: &[u8]) -> Result<f64, Refusal> {
    bray_curtis_parts(a, b).map(quotient)
}

/// The slots at `t` or above in exactly one map over those in either; 0.0 where there are none.
/// Refusals 1 to 8 of either file, then 10.
pub fn jaccard(a: &[u8], b: &[u8], t: u32) -> Result<f64, Refusal> {
    jaccard_parts(a, b, t).map(quotient)
}

/// The two numbers that Bray-Curtis divides.
pub fn bray_curtis_parts(a: &[u8], b: &[u8]) -> Result<(u64, u64), Refusal> {
    let (a, b) = open_pair(a, b)?;
    let pairs = a.distances().zip(b.distances());
    Ok(pairs.fold((0, 0), |(apart, whole), (x, y)| {
        (
            apart + u64::from(x.abs_diff(y)),
            whole + u64::from(x) + u64::from(y),
        )
    }))
}

/// The two numbers that Jaccard divides.
pub fn jaccard_parts(a: &[u8], b: &[u8], t: u32) -> Result<(u64, u64), Refusal> {
    let (a, b) = open_pair(a, b)?;
    let pairs = a.distances().zip(b.distances());
    Ok(pairs.fold((0, 0), |(one, either), (x, y)| {
        let (x, y) = (x >= t, y >= t);
        (one + u64::from(x != y), either + u64::from(x || y))
    }))
}

fn quotient((part, whole): (u64, u64)) -> f64 {
    match whole {
        0 => 0.0,
        _ => part as f64 / whole as f64,
    }
}

/// The float nearest to a fraction of numbers up to 2^53, ties to even, by whole numbers alone: no
/// float is divided. 0.0 where the divisor is 0.
pub fn nearest_quotient((part, whole): (u64, u64)) -> f64 {
    /// Bits of a float's significand.
    const PRECISION: u32 = 53;
    if part == 0 || whole == 0 {
        return 0.0;
    }
    let bits = |x: u64| u64::BITS - x.leading_zeros();
    let scale = PRECISION + 3 + bits(whole) - bits(part);
    let (scaled, whole) = (u128::from(part) << scale, u128::from(whole));
    // A last bit of 1 stands for a remainder.
    let digits = scaled / whole << 1 | u128::from(scaled % whole > 0);
    let dropped = u128::BITS - digits.leading_zeros() - PRECISION;
    let (kept, rest) = (digits >> dropped, digits & ((1 << dropped) - 1));
    let half = 1 << (dropped - 1);
    let up = rest > half || (rest == half && kept & 1 == 1);
    let exponent = dropped as i32 - scale as i32 - 1;
    (kept + u128::from(up)) as f64 * 2f64.powi(exponent)
}

#[cfg(test)]
mod tests {
    use super::*;
    use crate::encode;

    #[test]
    fn worked_example() {
        let [a, b] = [3, 1].map(|distance| encode(&[distance]).unwrap());
        assert_eq!(bray_curtis(&a, &b), Ok(0.5));
    }

    #[test]
    fn a_zero_divisor_gives_zero() {
        let zero = encode(&[0, 0]).unwrap();
        assert_eq!(bray_curtis(&zero, &zero), Ok(0.0));
        assert_eq!(jaccard(&zero, &zero, 1), Ok(0.0));
    }

    #[test]
    fn nearest_quotients() {
        assert_eq!(nearest_quotient((1, 3)), 1.0 / 3.0);
        assert_eq!(nearest_quotient((1, 1)), 1.0);
        assert_eq!(nearest_quotient((1 << 53, 1 << 53)), 1.0);
        assert_eq!(nearest_quotient((1, 1 << 53)), 2f64.powi(-53));
        let most = (1 << 53) - 1;
        assert_eq!(
            nearest_quotient((most - 1, most)),
            (most - 1) as f64 / most as f64
        );
        for part in 1..400 {
            for whole in 1..400 {
                let nearest = nearest_quotient((part, whole));
                assert_eq!(nearest, part as f64 / whole as f64, "{part} / {whole}");
            }
        }
    }
}
