//! Arithmetic by the reference, held to the worked examples of `docs/FORMAT.md` and to plain
//! arithmetic on lists.

use reference::{
    decode, difference, encode, maximum, minimum, shift, signed_difference, sum_maps, Refusal,
    Summary,
};

const A: [u32; 4] = [0, 254, 255, 300];
const B: [u32; 4] = [1, 1, 1, 4_294_967_295];
/// Distances next to a rule's border.
const CORNERS: [u32; 12] = [
    0,
    1,
    2,
    127,
    128,
    253,
    254,
    255,
    256,
    1 << 31,
    u32::MAX - 1,
    u32::MAX,
];

fn refused(number: u64, map: u64, place: u64) -> Refusal {
    Refusal { number, map, place }
}

/// The list of a result, whose sum the summary has. A generous buffer keeps what follows the file, one
/// that is a byte short is refused, and an exact one is enough.
fn list_of(call: impl Fn(&mut [u8]) -> Result<Summary, Refusal>) -> Result<Vec<u32>, Refusal> {
    let mut out = [0xA5; 4_000];
    let summary = call(&mut out)?;
    let (file, rest) = out.split_at_mut(summary.len as usize);
    assert_eq!(reference::check(file), Ok(summary));
    assert!(rest.iter().all(|&byte| byte == 0xA5));
    let list = decode(file);
    let sum = |list: &Vec<u32>| list.iter().copied().map(u64::from).sum();
    assert_eq!(list.as_ref().map(sum), Ok(summary.sum));
    let short = call(&mut file[1..]).unwrap_err();
    assert_eq!(short, refused(12, 0, 0));
    assert_eq!(call(file), Ok(summary));
    list
}

/// Two lists that hold every pair of corners.
fn corner_pairs() -> (Vec<u32>, Vec<u32>) {
    CORNERS
        .iter()
        .flat_map(|&x| CORNERS.map(|y| (x, y)))
        .unzip()
}

#[test]
fn worked_examples() {
    let [a, b, ones] = [A, B, [1; 4]].map(|list| encode(&list).unwrap());
    let minima = list_of(|out| minimum(&a, &b, out));
    assert_eq!(minima, Ok(vec![0, 1, 1, 300]));
    let maxima = list_of(|out| maximum(&a, &b, out));
    assert_eq!(maxima, Ok(vec![1, 254, 255, 4_294_967_295]));
    assert_eq!(list_of(|out| sum_maps(&a, &b, out)), Err(refused(11, 0, 3)));
    let sums = list_of(|out| sum_maps(&a, &ones, out));
    assert_eq!(sums, Ok(vec![1, 255, 256, 301]));
    assert_eq!(sum_maps(&a, &ones, &mut [0; 80]).unwrap().len, 80);
    let differences = list_of(|out| difference(&a, &b, out));
    assert_eq!(differences, Ok(vec![0, 253, 254, 0]));
    assert_eq!(difference(&a, &b, &mut [0; 44]).unwrap().len, 44);
    let differences = list_of(|out| difference(&b, &a, out));
    assert_eq!(differences, Ok(vec![1, 0, 0, 4_294_966_995]));
}

#[test]
fn pairs_agree_with_plain_arithmetic() {
    let (xs, ys) = corner_pairs();
    let [a, b] = [&xs, &ys].map(|list| encode(list).unwrap());
    let plain = |operation: fn(i64, i64) -> i64| -> Vec<i64> {
        let pairs = xs.iter().zip(&ys);
        pairs
            .map(|(&x, &y)| operation(x.into(), y.into()))
            .collect()
    };
    let wide = |list: Result<Vec<u32>, Refusal>| -> Vec<i64> {
        list.unwrap().into_iter().map(i64::from).collect()
    };
    assert_eq!(wide(list_of(|out| minimum(&a, &b, out))), plain(i64::min));
    assert_eq!(wide(list_of(|out| maximum(&a, &b, out))), plain(i64::max));
    let differences = wide(list_of(|out| difference(&a, &b, out)));
    assert_eq!(differences, plain(|x, y| (x - y).max(0)));
    let mut signed = vec![7; xs.len()];
    let count = xs.len() as u64;
    assert_eq!(signed_difference(&a, &b, &mut signed), Ok(count));
    assert_eq!(signed, plain(|x, y| y - x));
}

#[test]
fn sums_agree_with_plain_arithmetic() {
    for (slot, (&x, &y)) in corner_pairs().0.iter().zip(&corner_pairs().1).enumerate() {
        let [a, b] = [x, y].map(|distance| {
            let mut list = vec![3; 200];
            list[slot] = distance;
            encode(&list).unwrap()
        });
        let expected = match x.checked_add(y) {
            Some(sum) => {
                let mut list = vec![6; 200];
                list[slot] = sum;
                Ok(list)
            }
            None => Err(refused(11, 0, slot as u64)),
        };
        assert_eq!(list_of(|out| sum_maps(&a, &b, out)), expected);
    }
}

#[test]
fn shifts_agree_with_plain_arithmetic() {
    let shifts = [0, 1, 127, 254, 255, 300, i32::MAX];
    for by in shifts.into_iter().flat_map(|by| [by, -by, -by - 1]) {
        let shifted = CORNERS.map(|distance| match distance {
            0 => 0,
            _ => (i64::from(distance) + i64::from(by)).max(1),
        });
        let expected = match shifted.iter().position(|&sum| sum > u32::MAX.into()) {
            Some(slot) => Err(refused(11, 0, slot as u64)),
            None => Ok(shifted.map(|sum| sum as u32).to_vec()),
        };
        let file = encode(&CORNERS).unwrap();
        assert_eq!(list_of(|out| shift(&file, by, out)), expected);
    }
}

#[test]
fn shifts_keep_zero_distances() {
    let a = encode(&A).unwrap();
    let shifted = |by| list_of(|out| shift(&a, by, out));
    assert_eq!(shifted(-300), Ok(vec![0, 1, 1, 1]));
    assert_eq!(shifted(0), Ok(A.to_vec()));
    assert_eq!(shifted(1), Ok(vec![0, 255, 256, 301]));
    assert_eq!(shifted(300), Ok(vec![0, 554, 555, 600]));
    let zeros = encode(&[0; 5]).unwrap();
    for by in [i32::MIN, -1, 0, 300, i32::MAX] {
        assert_eq!(
            shift(&zeros, by, &mut [7; 45]).map(|result| result.k),
            Ok(0)
        );
        assert_eq!(list_of(|out| shift(&zeros, by, out)), Ok(vec![0; 5]));
    }
    for (distance, by) in [(1, -1), (5, -5), (5, i32::MIN)] {
        let file = encode(&[distance, 0]).unwrap();
        assert_eq!(list_of(|out| shift(&file, by, out)), Ok(vec![1, 0]));
    }
    let above = encode(&[0, 0, u32::MAX, u32::MAX]).unwrap();
    assert_eq!(shift(&above, 1, &mut []), Err(refused(11, 0, 2)));
}

#[test]
fn refusals_in_their_order() {
    let [a, b, longer] = [&A[..], &B, &[9; 5]].map(|list| encode(list).unwrap());
    let (bad_a, bad_b) = (&a[..39], &b[1..]);
    let mut out = [7; 3];
    let mut refusal = |a, b| sum_maps(a, b, &mut out).unwrap_err();
    assert_eq!(refusal(bad_a, bad_b), refused(1, 1, 0));
    assert_eq!(refusal(bad_b, bad_a), refused(2, 1, 0));
    assert_eq!(refusal(&longer, bad_b), refused(2, 2, 0));
    assert_eq!(refusal(&longer, &b), refused(10, 0, 0));
    assert_eq!(refusal(&a, &b), refused(11, 0, 3));
    assert_eq!(refusal(&a, &a), refused(12, 0, 0));
    assert_eq!(out, [7; 3]);
    assert_eq!(shift(bad_a, 1, &mut out), Err(refused(1, 1, 0)));
    assert_eq!(shift(&b, 1, &mut out), Err(refused(11, 0, 3)));
    assert_eq!(shift(&b, -1, &mut out), Err(refused(12, 0, 0)));
    assert_eq!(out, [7; 3]);
    let mut signed = [7; 3];
    let mut refusal = |a, b| signed_difference(a, b, &mut signed).unwrap_err();
    assert_eq!(refusal(bad_a, bad_b), refused(1, 1, 0));
    assert_eq!(refusal(&longer, bad_b), refused(2, 2, 0));
    assert_eq!(refusal(&longer, &b), refused(10, 0, 0));
    assert_eq!(refusal(&a, &b), refused(12, 0, 0));
    assert_eq!(signed, [7; 3]);
}
