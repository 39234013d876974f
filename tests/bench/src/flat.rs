//! The routines on flat arrays: a map is an array of distances of 32 bits, a mask is words as in the
//! library. Plain loops; they check nothing, sums that are too large included.

use crate::scene::FRAMES;

/// Slots of a word, and of half of one.
const WORD: usize = 64;
const HALF: usize = 32;

/// The bits of half a word.
const BITS: [u32; HALF] = {
    let mut bits = [1; HALF];
    let mut i = 1;
    while i < HALF {
        bits[i] = bits[i - 1] << 1;
        i += 1;
    }
    bits
};

pub fn sum(list: &[u32]) -> u64 {
    list.iter().map(|&x| u64::from(x)).sum()
}

pub fn readings(list: &[u32]) -> u64 {
    count(list.iter().map(|&x| x != 0))
}

pub fn scan(list: &[u32], out: &mut [u32]) {
    out.copy_from_slice(list);
}

pub fn lookup(list: &[u32], slot: u64) -> u64 {
    u64::from(list[slot as usize])
}

pub fn lookup_list(list: &[u32], slots: &[u64], out: &mut [u32]) {
    for (result, &slot) in out.iter_mut().zip(slots) {
        *result = list[slot as usize];
    }
}

/// The array of primary bytes and overflow entries.
pub fn close(primary: &[u8], entries: impl Iterator<Item = (u64, u32)>, out: &mut [u32]) {
    for (result, &byte) in out.iter_mut().zip(primary) {
        *result = u32::from(byte);
    }
    for (slot, distance) in entries {
        out[slot as usize] = distance;
    }
}

pub fn minimum(a: &[u32], b: &[u32], out: &mut [u32]) {
    combine(a, b, out, u32::min);
}

pub fn maximum(a: &[u32], b: &[u32], out: &mut [u32]) {
    combine(a, b, out, u32::max);
}

pub fn sum_maps(a: &[u32], b: &[u32], out: &mut [u32]) {
    combine(a, b, out, u32::wrapping_add);
}

pub fn difference(a: &[u32], b: &[u32], out: &mut [u32]) {
    combine(a, b, out, u32::saturating_sub);
}

pub fn signed_difference(a: &[u32], b: &[u32], out: &mut [i64]) {
    for ((result, &x), &y) in out.iter_mut().zip(a).zip(b) {
        *result = i64::from(y) - i64::from(x);
    }
}

/// Zero distances stay; others become no less than 1.
pub fn shift(list: &[u32], by: i32, out: &mut [u32]) {
    let size = by.unsigned_abs();
    if by < 0 {
        each(list, out, |x| x.saturating_sub(size).max(x.min(1)));
    } else {
        each(list, out, |x| if x == 0 { 0 } else { x.wrapping_add(size) });
    }
}

/// The mask of the distances that pass a test.
pub fn mask(list: &[u32], out: &mut [u64], test: impl Fn(u32) -> bool) {
    let (words, rest) = list.as_chunks::<WORD>();
    for (result, distances) in out.iter_mut().zip(words) {
        let mut halves = [0; 2];
        for i in 0..HALF {
            halves[0] |= BITS[i] * u32::from(test(distances[i]));
            halves[1] |= BITS[i] * u32::from(test(distances[HALF + i]));
        }
        *result = u64::from(halves[0]) | u64::from(halves[1]) << HALF;
    }
    if let (Some(last), true) = (out.get_mut(words.len()), !rest.is_empty()) {
        let bits = rest.iter().rev();
        *last = bits.fold(0, |word, &x| word << 1 | u64::from(test(x)));
    }
}

/// The mask of the distances from 1 to `t`: 0 less 1 is above any other.
pub fn near_mask(list: &[u32], t: u32, out: &mut [u64]) {
    mask(list, out, |x| x.wrapping_sub(1) < t);
}

pub fn mask_and(a: &[u64], b: &[u64], out: &mut [u64]) {
    combine(a, b, out, |x, y| x & y);
}

pub fn mask_or(a: &[u64], b: &[u64], out: &mut [u64]) {
    combine(a, b, out, |x, y| x | y);
}

pub fn mask_xor(a: &[u64], b: &[u64], out: &mut [u64]) {
    combine(a, b, out, |x, y| x ^ y);
}

pub fn mask_not(n: usize, mask: &[u64], out: &mut [u64]) {
    each(mask, out, |word| !word);
    if !n.is_multiple_of(WORD) {
        out[n / WORD] &= (1 << (n % WORD)) - 1;
    }
}

pub fn set_bits(mask: &[u64]) -> u64 {
    mask.iter().map(|word| u64::from(word.count_ones())).sum()
}

/// The same by SSE2 instructions, which every x86-64 processor has.
#[allow(unsafe_code)]
pub fn set_bits_by_hand(mask: &[u64]) -> u64 {
    unsafe { set_bits_sse2(mask) }
}

/// Bits of bytes are added up within eight vectors, then across.
#[target_feature(enable = "sse2")]
fn set_bits_sse2(mask: &[u64]) -> u64 {
    use std::arch::x86_64::*;
    let ones = _mm_set1_epi8(0x55);
    let twos = _mm_set1_epi8(0x33);
    let fours = _mm_set1_epi8(0x0f);
    let (blocks, rest) = mask.as_chunks::<16>();
    let mut total = _mm_setzero_si128();
    for block in blocks {
        let mut bytes = _mm_setzero_si128();
        for pair in block.as_chunks::<2>().0 {
            let v = _mm_set_epi64x(pair[1] as i64, pair[0] as i64);
            let v = _mm_sub_epi8(v, _mm_and_si128(_mm_srli_epi64::<1>(v), ones));
            let high = _mm_and_si128(_mm_srli_epi64::<2>(v), twos);
            let v = _mm_add_epi8(_mm_and_si128(v, twos), high);
            let v = _mm_and_si128(_mm_add_epi8(v, _mm_srli_epi64::<4>(v)), fours);
            bytes = _mm_add_epi8(bytes, v);
        }
        total = _mm_add_epi64(total, _mm_sad_epu8(bytes, _mm_setzero_si128()));
    }
    let high = _mm_cvtsi128_si64(_mm_unpackhi_epi64(total, total));
    (_mm_cvtsi128_si64(total) + high) as u64 + set_bits(rest)
}

pub fn map_of_mask(mask: &[u64], out: &mut [u32]) {
    let (whole, rest) = out.as_chunks_mut::<HALF>();
    let mut halves = halves(mask);
    for (results, half) in whole.iter_mut().zip(&mut halves) {
        *results = BITS.map(|bit| u32::from(half & bit != 0));
    }
    let last = halves.next().unwrap_or(0);
    for (result, bit) in rest.iter_mut().zip(BITS) {
        *result = u32::from(last & bit != 0);
    }
}

pub fn keep_masked(list: &[u32], mask: &[u64], out: &mut [u32]) {
    masked(list, mask, out, |x, bit| x & bit.wrapping_neg());
}

pub fn increment_masked(list: &[u32], mask: &[u64], out: &mut [u32]) {
    masked(list, mask, out, u32::wrapping_add);
}

pub fn bray_curtis(a: &[u32], b: &[u32]) -> f64 {
    let (mut apart, mut whole) = (0, 0);
    for (&x, &y) in a.iter().zip(b) {
        apart += u64::from(x.abs_diff(y));
        whole += u64::from(x) + u64::from(y);
    }
    quotient(apart, whole)
}

pub fn jaccard(a: &[u32], b: &[u32], t: u32) -> f64 {
    let (mut one, mut either) = (0u32, 0u32);
    for (&x, &y) in a.iter().zip(b) {
        one += u32::from((x >= t) != (y >= t));
        either += u32::from((x >= t) | (y >= t));
    }
    quotient(one.into(), either.into())
}

/// The least of the distances at each slot that are not 0: 0 less 1 is above any other.
pub fn nearest(lists: [&[u32]; FRAMES], out: &mut [u32]) {
    let lists = lists.map(|list| &list[..out.len()]);
    for slot in 0..out.len() {
        let mut least = u32::MAX;
        for list in lists {
            least = least.min(list[slot].wrapping_sub(1));
        }
        out[slot] = least.wrapping_add(1);
    }
}

pub fn edit_list(list: &mut [u32], slots: &[u64], distances: &[u32]) {
    for (&slot, &distance) in slots.iter().zip(distances) {
        list[slot as usize] = distance;
    }
}

fn quotient(part: u64, whole: u64) -> f64 {
    match whole {
        0 => 0.0,
        _ => part as f64 / whole as f64,
    }
}

/// How many tests are passed, of fewer than 2^32.
fn count(tests: impl Iterator<Item = bool>) -> u64 {
    tests.map(u32::from).sum::<u32>().into()
}

fn each<T: Copy>(list: &[T], out: &mut [T], result: impl Fn(T) -> T) {
    for (place, &x) in out.iter_mut().zip(list) {
        *place = result(x);
    }
}

fn combine<T: Copy>(a: &[T], b: &[T], out: &mut [T], result: impl Fn(T, T) -> T) {
    for ((place, &x), &y) in out.iter_mut().zip(a).zip(b) {
        *place = result(x, y);
    }
}

/// Each result from a distance and its bit of the mask, 0 or 1.
fn masked(list: &[u32], mask: &[u64], out: &mut [u32], result: impl Fn(u32, u32) -> u32) {
    let (whole, rest) = list.as_chunks::<HALF>();
    let (whole_out, rest_out) = out.as_chunks_mut::<HALF>();
    let mut halves = halves(mask);
    for ((list, out), half) in whole.iter().zip(whole_out).zip(&mut halves) {
        for ((place, &x), bit) in out.iter_mut().zip(list).zip(BITS) {
            *place = result(x, u32::from(half & bit != 0));
        }
    }
    let last = halves.next().unwrap_or(0);
    for ((place, &x), bit) in rest_out.iter_mut().zip(rest).zip(BITS) {
        *place = result(x, u32::from(last & bit != 0));
    }
}

/// The lower and the upper half of each word.
fn halves(mask: &[u64]) -> impl Iterator<Item = u32> + '_ {
    let halves = |&word: &u64| [word as u32, (word >> HALF) as u32];
    mask.iter().flat_map(halves)
}

#[cfg(test)]
mod tests {
    use super::*;
    use compare::lists;
    use compare::rng::Rng;

    /// A map as a file and flat, with a mask of it.
    struct Case {
        file: Vec<u8>,
        list: Vec<u32>,
        mask: Vec<u64>,
    }

    impl Case {
        fn new(rng: &mut Rng, list: Vec<u32>) -> Case {
            let n = list.len();
            let mut mask: Vec<u64> = (0..n.div_ceil(WORD)).map(|_| rng.word()).collect();
            if !n.is_multiple_of(WORD) {
                mask[n / WORD] >>= WORD - n % WORD;
            }
            let file = reference::encode(&list).expect("few slots");
            Case { file, list, mask }
        }
    }

    /// Pairs of maps whose sums are distances, so that no routine refuses them.
    fn each_pair(test: impl Fn(&Case, &Case)) {
        for seed in 0..300 {
            let mut rng = Rng::new(seed);
            let n = lists::size(&mut rng);
            let [a, b] = [0; 2].map(|_| {
                let mut list = lists::mixed(&mut rng, n);
                list.iter_mut().for_each(|x| *x >>= 1);
                Case::new(&mut rng, list)
            });
            test(&a, &b);
        }
    }

    /// The distances of the file that a routine of the library writes.
    fn distances<E: std::fmt::Debug>(
        n: usize,
        call: impl FnOnce(&mut [u8]) -> Result<pciv::Summary, E>,
    ) -> Vec<u32> {
        let mut file = vec![0; reference::file_len(n as u64, n as u64) as usize + 32_768];
        let summary = call(&mut file).expect("a result");
        let mut list = vec![0; n];
        pciv::scan(&file[..summary.len as usize], &mut list).expect("a sound file");
        list
    }

    fn filled<T: Default + Clone>(len: usize, call: impl FnOnce(&mut [T])) -> Vec<T> {
        let mut out = vec![T::default(); len];
        call(&mut out);
        out
    }

    #[test]
    fn reading_is_as_in_the_library() {
        each_pair(|a, _| {
            let n = a.list.len();
            assert_eq!(Ok(sum(&a.list)), pciv::sum(&a.file));
            assert_eq!(Ok(readings(&a.list)), pciv::readings(&a.file));
            let scanned = filled(n, |out| {
                pciv::scan(&a.file, out).expect("a sound file");
            });
            assert_eq!(filled(n, |out| scan(&a.list, out)), scanned);
            let slots: Vec<u64> = (0..n as u64).rev().collect();
            let looked_up = filled(n, |out| {
                let entries = &mut vec![0; n];
                pciv::lookup_list(&a.file, &slots, out, entries).expect("a sound file");
            });
            assert_eq!(
                filled(n, |out| lookup_list(&a.list, &slots, out)),
                looked_up
            );
            for &slot in &slots {
                assert_eq!(
                    Ok(lookup(&a.list, slot)),
                    pciv::lookup(&a.file, slot).map(|located| u64::from(located.distance))
                );
            }
        });
    }

    #[test]
    fn closing_is_as_in_the_library() {
        each_pair(|a, _| {
            let overflow = (0u64..).zip(a.list.iter().copied());
            let (slots, listed): (Vec<u64>, Vec<u32>) = overflow.filter(|e| e.1 >= 255).unzip();
            let primary = reference::primary(&a.file);
            let entries = slots.iter().copied().zip(listed.iter().copied());
            let n = a.list.len();
            assert_eq!(
                filled(n, |out| close(primary, entries, out)),
                distances(n, |out| pciv::close(primary, &slots, &listed, out))
            );
        });
    }

    #[test]
    fn arithmetic_is_as_in_the_library() {
        type File = fn(&[u8], &[u8], &mut [u8]) -> Result<pciv::Summary, pciv::Refusal>;
        type Lists = fn(&[u32], &[u32], &mut [u32]);
        let routines: [(File, Lists); 4] = [
            (pciv::minimum, minimum),
            (pciv::maximum, maximum),
            (pciv::sum_maps, sum_maps),
            (pciv::difference, difference),
        ];
        each_pair(|a, b| {
            let n = a.list.len();
            for (file, lists) in routines {
                assert_eq!(
                    filled(n, |out| lists(&a.list, &b.list, out)),
                    distances(n, |out| file(&a.file, &b.file, out))
                );
            }
            for by in [i32::MIN, -300, -50, -1, 0, 10, 255, 300] {
                assert_eq!(
                    filled(n, |out| shift(&a.list, by, out)),
                    distances(n, |out| pciv::shift(&a.file, by, out))
                );
            }
            assert_eq!(
                filled(n, |out| signed_difference(&a.list, &b.list, out)),
                filled(n, |out| {
                    pciv::signed_difference(&a.file, &b.file, out).expect("sound files");
                })
            );
        });
    }

    #[test]
    fn masks_of_a_map_are_as_in_the_library() {
        type File = fn(&[u8], u32, &mut [u64]) -> Result<usize, pciv::Refusal>;
        type Test = fn(&u32, &u32) -> bool;
        let routines: [(File, Test); 4] = [
            (pciv::mask_below, u32::lt),
            (pciv::mask_at_most, u32::le),
            (pciv::mask_above, u32::gt),
            (pciv::mask_at_least, u32::ge),
        ];
        each_pair(|a, _| {
            let words = |file: File, t| {
                filled(a.mask.len(), |out| {
                    file(&a.file, t, out).expect("a sound file");
                })
            };
            for t in [0, 1, 200, 254, 255, 300, u32::MAX] {
                for (file, test) in routines {
                    assert_eq!(
                        filled(a.mask.len(), |out| mask(&a.list, out, |x| test(&x, &t))),
                        words(file, t)
                    );
                }
                assert_eq!(
                    filled(a.mask.len(), |out| near_mask(&a.list, t, out)),
                    words(pciv::near_mask, t)
                );
            }
        });
    }

    #[test]
    fn masks_of_masks_are_as_in_the_library() {
        type Ours = fn(u64, &[u64], &[u64], &mut [u64]) -> Result<usize, pciv::Refusal>;
        type Words = fn(&[u64], &[u64], &mut [u64]);
        let routines: [(Ours, Words); 3] = [
            (pciv::mask_and, mask_and),
            (pciv::mask_or, mask_or),
            (pciv::mask_xor, mask_xor),
        ];
        each_pair(|a, b| {
            let (n, len) = (a.list.len(), a.mask.len());
            for (ours, words) in routines {
                assert_eq!(
                    filled(len, |out| words(&a.mask, &b.mask, out)),
                    filled(len, |out| {
                        ours(n as u64, &a.mask, &b.mask, out).expect("masks");
                    })
                );
            }
            assert_eq!(
                filled(len, |out| mask_not(n, &a.mask, out)),
                filled(len, |out| {
                    pciv::mask_not(n as u64, &a.mask, out).expect("a mask");
                })
            );
            let counted = pciv::set_bits(n as u64, &a.mask);
            assert_eq!(Ok(set_bits(&a.mask)), counted);
            assert_eq!(Ok(set_bits_by_hand(&a.mask)), counted);
        });
    }

    #[test]
    fn maps_from_masks_are_as_in_the_library() {
        each_pair(|a, _| {
            let n = a.list.len();
            assert_eq!(
                filled(n, |out| map_of_mask(&a.mask, out)),
                distances(n, |out| pciv::map_of_mask(n as u64, &a.mask, out))
            );
            assert_eq!(
                filled(n, |out| keep_masked(&a.list, &a.mask, out)),
                distances(n, |out| pciv::keep_masked(&a.file, &a.mask, out))
            );
            assert_eq!(
                filled(n, |out| increment_masked(&a.list, &a.mask, out)),
                distances(n, |out| pciv::increment_masked(&a.file, &a.mask, out))
            );
        });
    }

    #[test]
    fn figures_are_as_in_the_library() {
        each_pair(|a, b| {
            assert_eq!(
                Ok(bray_curtis(&a.list, &b.list)),
                pciv::bray_curtis(&a.file, &b.file)
            );
            for t in [0, 1, 200, 300] {
                assert_eq!(
                    Ok(jaccard(&a.list, &b.list, t)),
                    pciv::jaccard(&a.file, &b.file, t)
                );
            }
        });
    }

    #[test]
    fn nearest_distances_are_as_in_the_library() {
        each_pair(|a, b| {
            let n = a.list.len();
            let zeros = Case::new(
                &mut Rng::new(7),
                lists::zeros_and(&mut Rng::new(7), n, |_| 9),
            );
            let frames = [a, b, &zeros, &zeros, a, b, &zeros, &zeros];
            let files = frames.map(|case| &case.file[..]);
            let mut bundle = vec![0; pciv::bundle::bundle_len(&files)];
            pciv::bundle::write(&files, &mut bundle).expect("sound files");
            assert_eq!(
                filled(n, |out| nearest(frames.map(|case| &case.list[..]), out)),
                filled(n, |out| {
                    pciv::bundle::nearest(&bundle, out).expect("a sound bundle");
                })
            );
        });
    }

    #[test]
    fn edits_are_as_in_the_library() {
        each_pair(|a, b| {
            let n = a.list.len();
            let slots: Vec<u64> = (0..n as u64).collect();
            let mut answers = vec![pciv::EditAnswer::default(); n];
            let edited = distances(n, |out| {
                out[..a.file.len()].copy_from_slice(&a.file);
                pciv::edit_list(out, &slots, &b.list, &mut answers)?;
                let len = reference::encode(&b.list).expect("few slots").len();
                pciv::check(&out[..len])
            });
            let mut list = a.list.clone();
            edit_list(&mut list, &slots, &b.list);
            assert_eq!(list, edited);
        });
    }
}
