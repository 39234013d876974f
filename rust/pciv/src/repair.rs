//! Repairing a file whose header or sparse index is spoiled.

use crate::{answer, raw, Refusal, Summary};

/// How many numbers a [`Correction`] consists of.
pub const CORRECTION_LEN: usize = 4;

/// A line of the list of what [`repair`] has changed, laid out as in the C interface.
#[repr(C)]
#[derive(Clone, Copy, Debug, Default, PartialEq, Eq, Hash)]
pub struct Correction {
    /// What it is about, 1 to 4: one of the constants below.
    pub kind: u64,
    /// The offset of a field, the number of an overflow entry, or a slot; 0 for the index.
    pub place: u64,
    /// The number that stood there.
    pub before: u64,
    /// The number that stands there now.
    pub after: u64,
}

/// The kinds, as in `include/pciv.h`, in the order of a list.
impl Correction {
    /// A field of the header: the place is its offset, 0, 4, 8, 16, 24 or 32, and its number is one of 4
    /// bytes at 0 and 4, else of 8.
    pub const FIELD: u64 = 1;
    /// An overflow entry: the place is its number among those given, from 0; before is its slot, after is
    /// 0.
    pub const DROPPED: u64 = 2;
    /// A primary byte 255 that no entry is left for: the place is its slot; before is 255, after is 254.
    pub const SET: u64 = 3;
    /// The bytes behind the overflow entries given were not the sparse index: the place is 0, before and
    /// after are how many bytes there were, and are.
    pub const INDEX: u64 = 4;
}

/// What a repair has done.
#[derive(Clone, Copy, Debug, Default, PartialEq, Eq, Hash)]
pub struct Repaired {
    /// The repaired file.
    pub summary: Summary,
    /// How many lines the list of corrections has.
    pub lines: usize,
}

/// How many lines any list of corrections has at most, for `n` up to 1,048,576 and `k` up to `n`:
/// n + k + 7.
pub const fn most_corrections(n: u64, k: u64) -> usize {
    n as usize + k as usize + 7
}

/// Repairs a file of `n` slots and `k` overflow entries whose header or sparse index is spoiled. Of the
/// file the primary array, which are the `n` bytes from byte 40 on, and the `k` entries behind it are
/// believed, and nothing else. The result goes to the front of `out`, and what was changed to the front
/// of `corrections`. Answers the result's summary and the number of lines.
///
/// Dropped are the entries that refusal 6 is about, judged in file order against the last one kept. A
/// primary byte 255 that no entry is left for becomes 254. Header and sparse index are made anew.
/// A sound file with its own `n` and `k` gives itself and no lines, and [`check`](crate::check) accepts
/// every result.
///
/// Refusals 3 where `n` is above 1,048,576, 4 where `k` is above `n`, 5 where the file ends before its
/// overflow entries do, all with map 1, then 12 where either buffer is too short.
/// [`longest_file`](crate::longest_file) and [`most_corrections`] say what is always enough.
///
/// ```
/// use pciv::Correction;
///
/// let sound = include_bytes!("../../../examples/map-a.pciv");
/// let mut spoiled = *sound;
/// spoiled[32] = 9;
/// assert!(pciv::check(&spoiled).is_err());
///
/// let mut out = vec![0; pciv::longest_file(4)];
/// let mut corrections = vec![Correction::default(); pciv::most_corrections(4, 2)];
/// let repaired = pciv::repair(&spoiled, 4, 2, &mut out, &mut corrections)?;
/// assert_eq!((repaired.summary.len, repaired.lines), (68, 1));
/// assert_eq!(out[..68], *sound);
/// let step = Correction { kind: Correction::FIELD, place: 32, before: 9, after: 0 };
/// assert_eq!(corrections[0], step);
///
/// // One overflow entry is not enough for this map: slot 3 loses its distance.
/// let repaired = pciv::repair(sound, 4, 1, &mut out, &mut corrections)?;
/// assert_eq!((repaired.summary.k, repaired.lines), (1, 3));
/// let mut distances = [0; 4];
/// pciv::scan(&out[..56], &mut distances)?;
/// assert_eq!(distances, [0, 254, 255, 254]);
/// # Ok::<(), pciv::Refusal>(())
/// ```
pub fn repair(
    file: &[u8],
    n: u64,
    k: u64,
    out: &mut [u8],
    corrections: &mut [Correction],
) -> Result<Repaired, Refusal> {
    let numbers = raw::correction_numbers(corrections);
    let call = |(summary, count): &mut (Summary, u64), refusal: &mut Refusal| {
        raw::repair(file, n, k, out, numbers, summary, count, refusal)
    };
    answer(call).map(|(summary, count)| Repaired {
        summary,
        lines: count as usize,
    })
}

#[cfg(test)]
mod tests {
    use super::*;

    const MAP_A: &[u8] = include_bytes!("../../../examples/map-a.pciv");
    const DIRTY: Correction = Correction {
        kind: 7,
        place: 7,
        before: 7,
        after: 7,
    };

    #[test]
    fn refused_buffers_are_unchanged() {
        let (mut out, mut corrections) = ([7; 68], [DIRTY; 3]);
        let mut refusal = |n, k, len, lines| {
            let lists = (&mut out[..len], &mut corrections[..lines]);
            let refusal = repair(&MAP_A[..67], n, k, lists.0, lists.1).unwrap_err();
            (refusal.number, refusal.map, refusal.place)
        };
        assert_eq!(refusal(1_048_577, 1_048_578, 68, 3), (3, 1, 0));
        assert_eq!(refusal(u64::MAX, u64::MAX, 68, 3), (3, 1, 0));
        assert_eq!(refusal(4, 5, 68, 3), (4, 1, 0));
        assert_eq!(refusal(4, u64::MAX, 68, 3), (4, 1, 0));
        assert_eq!(refusal(4, 2, 0, 0), (5, 1, 0));
        assert_eq!(refusal(4, 1, 55, 3), (12, 0, 0));
        assert_eq!(refusal(4, 1, 56, 2), (12, 0, 0));
        assert_eq!((out, corrections), ([7; 68], [DIRTY; 3]));
    }

    #[test]
    fn what_follows_the_results_is_unchanged() {
        let (mut out, mut corrections) = ([7; 60], [DIRTY; 4]);
        let repaired = repair(MAP_A, 4, 1, &mut out, &mut corrections).unwrap();
        assert_eq!((repaired.summary.len, repaired.lines), (56, 3));
        assert_eq!(out[56..], [7; 4]);
        assert_eq!(corrections[3], DIRTY);
        let kinds = corrections.map(|correction| correction.kind);
        assert_eq!(
            kinds[..3],
            [Correction::FIELD, Correction::SET, Correction::INDEX]
        );
    }

    /// All bytes of a map are 255, all entries and all fields wrong, and bytes follow.
    #[test]
    fn most_corrections_are_reached() {
        for (n, k) in [(0, 0), (1, 0), (1, 1), (9, 4)] {
            let mut file = vec![1; 40];
            file.resize(40 + n, 255);
            file.resize(40 + n + 12 * k + 1, 1);
            let (n, k) = (n as u64, k as u64);
            let mut corrections = vec![DIRTY; most_corrections(n, k)];
            let mut out = vec![0; crate::file_len(n, 0)];
            let repaired = repair(&file, n, k, &mut out, &mut corrections).unwrap();
            assert_eq!(repaired.lines, corrections.len());
        }
    }
}
