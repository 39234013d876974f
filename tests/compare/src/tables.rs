//! Disparity tables: those that make maps of frames, and the kinds that a run has to meet.

use compare::lists::{inline, mixed, overflow};
use compare::rng::Rng;
use reference::DISPARITIES;
use std::array;
use std::ops::Range;

/// The distance of each disparity.
pub type Table = [u32; DISPARITIES];

/// Device constants next to a rule's border: 65,025 is 255 times 255.
pub const CONSTANTS: [u32; 10] = [0, 1, 2, 254, 255, 256, 65_024, 65_025, 65_026, u32::MAX];

/// A device constant: one of these, next to a multiple of a disparity, small, or any.
pub fn constant(rng: &mut Rng) -> u32 {
    match rng.below(4) {
        0 => rng.pick(&CONSTANTS),
        1 => {
            let (disparity, distance) = (1 + rng.below(255), rng.below(70_000));
            (disparity * distance + rng.below(3)).saturating_sub(1) as u32
        }
        2 => rng.below(2_000) as u32,
        _ => rng.word() as u32,
    }
}

/// Makes a table.
type Make = fn(&mut Rng) -> Table;

/// Tables in words, and how they are made: some are those of a device constant, the others are not.
pub const TABLES: [(&str, Make); 14] = [
    ("table of a constant at a border", |rng| {
        filled(rng.pick(&CONSTANTS))
    }),
    ("table of a constant", |rng| filled(constant(rng))),
    ("none in overflow", |rng| with_overflow(rng, |_| false)),
    ("all in overflow", |rng| with_overflow(rng, |_| true)),
    ("the first in overflow", |rng| {
        let end = 1 + rng.below(255);
        with_overflow(rng, |disparity| disparity < end)
    }),
    ("the last in overflow", |rng| {
        let start = 1 + rng.below(255);
        with_overflow(rng, |disparity| disparity >= start)
    }),
    ("an interval in overflow", |rng| {
        let one = interval(rng, 1..255);
        with_overflow(rng, |disparity| one.contains(&disparity))
    }),
    ("two intervals in overflow", |rng| {
        let two = [interval(rng, 0..128), interval(rng, 129..256)];
        with_overflow(rng, |disparity| {
            two.iter().any(|one| one.contains(&disparity))
        })
    }),
    ("every other one in overflow", |rng| {
        let first = rng.below(2);
        with_overflow(rng, |disparity| disparity % 2 == first)
    }),
    ("254 and 255", |rng| {
        array::from_fn(|_| rng.pick(&[254, 255]))
    }),
    ("any distances", |rng| array::from_fn(|_| rng.word() as u32)),
    ("a mixture", |rng| {
        let mixed = mixed(rng, DISPARITIES);
        array::from_fn(|disparity| mixed[disparity])
    }),
    ("zero distances", |_| [0; DISPARITIES]),
    ("largest distances", |_| [u32::MAX; DISPARITIES]),
];

/// The table of a device constant; the zeros that come with refusal 19 for 0.
pub fn filled(constant: u32) -> Table {
    reference::fill_table(constant).1
}

/// A table of which exactly these disparities are in overflow.
pub fn with_overflow(rng: &mut Rng, is_in_overflow: impl Fn(usize) -> bool) -> Table {
    array::from_fn(|disparity| match is_in_overflow(disparity) {
        true => overflow(rng),
        false => inline(rng),
    })
}

/// Some disparities of these, one behind another.
fn interval(rng: &mut Rng, of: Range<usize>) -> Range<usize> {
    let start = of.start + rng.below(of.len());
    start..start + 1 + rng.below(of.end - start)
}

/// Which disparities of a table are in overflow.
#[derive(Clone, Copy, Debug, PartialEq, Eq, Hash)]
pub enum InOverflow {
    Nothing,
    All,
    /// One interval: of the first disparities, of the last, and of others.
    First,
    Last,
    Middle,
    SeveralIntervals,
}

impl InOverflow {
    pub fn of(table: &Table) -> InOverflow {
        let is_in = table.map(|distance| distance >= 255);
        let changes = is_in.windows(2).filter(|two| two[0] != two[1]).count();
        match (is_in[0], changes) {
            (false, 0) => InOverflow::Nothing,
            (true, 0) => InOverflow::All,
            (true, 1) => InOverflow::First,
            (false, 1) => InOverflow::Last,
            (false, 2) => InOverflow::Middle,
            _ => InOverflow::SeveralIntervals,
        }
    }
}

/// How long the buffer for a map is.
#[derive(Clone, Copy, Debug, PartialEq, Eq, Hash)]
pub enum Buffer {
    /// As long as the file, and shorter than the longest one.
    Exact,
    /// As long as the longest file of as many slots.
    Longest,
}

/// What a frame with all disparities meets that becomes a map of `len` bytes in such a buffer.
pub fn met(
    frame: &[u8],
    table: &Table,
    len: usize,
    capacity: usize,
) -> Option<(InOverflow, Buffer)> {
    let mut has = [false; DISPARITIES];
    for &disparity in frame {
        has[usize::from(disparity)] = true;
    }
    let buffer = match capacity {
        _ if has.contains(&false) => return None,
        _ if capacity == pciv::longest_file(frame.len() as u64) => Buffer::Longest,
        _ if capacity == len => Buffer::Exact,
        _ => return None,
    };
    Some((InOverflow::of(table), buffer))
}

/// What has to be met in a run.
pub fn all_met() -> impl Iterator<Item = (InOverflow, Buffer)> {
    let all = [
        InOverflow::Nothing,
        InOverflow::All,
        InOverflow::First,
        InOverflow::Last,
        InOverflow::Middle,
        InOverflow::SeveralIntervals,
    ];
    let buffers = |some| [Buffer::Exact, Buffer::Longest].map(|buffer| (some, buffer));
    all.into_iter().flat_map(buffers)
}

#[cfg(test)]
mod tests {
    use super::*;

    /// The kind of a table of which these disparities are in overflow.
    fn kind(is_in_overflow: impl Fn(usize) -> bool) -> InOverflow {
        InOverflow::of(&array::from_fn(|disparity| {
            254 + u32::from(is_in_overflow(disparity))
        }))
    }

    #[test]
    fn kinds_are_told_apart() {
        assert_eq!(kind(|_| false), InOverflow::Nothing);
        assert_eq!(kind(|_| true), InOverflow::All);
        for (start, end) in [(1, 2), (1, 255), (254, 255), (100, 200)] {
            assert_eq!(kind(|d| d < start), InOverflow::First);
            assert_eq!(kind(|d| d >= end), InOverflow::Last);
            assert_eq!(kind(|d| start <= d && d < end), InOverflow::Middle);
            let others = kind(|d| d < start || end <= d);
            assert_eq!(others, InOverflow::SeveralIntervals);
        }
        assert_eq!(kind(|d| d % 2 == 1), InOverflow::SeveralIntervals);
        assert_eq!(kind(|d| d == 3 || d == 5), InOverflow::SeveralIntervals);
    }

    #[test]
    fn tables_are_of_their_kinds() {
        let rng = &mut Rng::new(7);
        for (what, kind) in [
            ("none in overflow", InOverflow::Nothing),
            ("all in overflow", InOverflow::All),
            ("the first in overflow", InOverflow::First),
            ("the last in overflow", InOverflow::Last),
            ("an interval in overflow", InOverflow::Middle),
            ("two intervals in overflow", InOverflow::SeveralIntervals),
        ] {
            let (_, make) = TABLES.into_iter().find(|table| table.0 == what).unwrap();
            for _ in 0..1_000 {
                assert_eq!(InOverflow::of(&make(rng)), kind, "{what}");
            }
        }
    }

    #[test]
    fn buffers_are_told_apart() {
        let all = [300; DISPARITIES];
        let frame: Vec<u8> = (0..4_096).map(|slot| slot as u8).collect();
        let longest = Some((InOverflow::All, Buffer::Longest));
        assert_eq!(met(&frame, &all, 86_056, 86_056), longest);
        let few = &frame[..256];
        assert_eq!(
            met(few, &all, 3_368, 3_368),
            Some((InOverflow::All, Buffer::Exact))
        );
        assert_eq!(met(few, &all, 3_368, 36_136), longest);
        assert_eq!(met(few, &all, 3_368, 3_369), None);
        assert_eq!(met(&few[1..], &all, 3_355, 3_355), None);
    }
}
