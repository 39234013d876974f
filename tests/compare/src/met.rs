//! Bundles: the kinds that a run has to meet.

use crate::records::{FRAME, HEADER};
use reference::bundle::MAX_FRAMES;
use std::collections::HashSet;

/// Bytes of a record's length, and of its length and kind.
const LENGTH_LEN: usize = 4;
const HEAD_LEN: usize = 6;

/// What is told apart of bundles.
#[derive(Clone, Copy, Debug, PartialEq, Eq, Hash)]
pub enum Met {
    /// Refused with 14 for this reason alone, at record 0, or at a later one.
    Bad(Reason, bool),
    /// Accepted, with so many frames.
    Frames(u64),
    /// Accepted, with a record to be skipped at this place.
    Skipped(Place),
    /// The nearest distance is wanted of a slot where some frames have zero, inline, overflow distances.
    Slot([bool; 3]),
}

/// Why a bundle is refused with 14.
#[derive(Clone, Copy, Debug, PartialEq, Eq, Hash)]
pub enum Reason {
    /// There are no bytes.
    NoBytes,
    /// Fewer bytes are left than a length has.
    CutLength,
    /// A length is there, and fewer bytes than a kind has.
    CutKind,
    /// The payload is cut short.
    CutPayload,
    /// The length is 0 or 1.
    ShortLength,
    /// The first record has another kind than 0.
    FirstKind,
    /// The first record has another length than 8.
    FirstLength,
    /// It says that there are no frames, or more than eight.
    NoFrames,
    ManyFrames,
    /// A later record has kind 0.
    LaterHeader,
    FrameTooMany,
    FramesMissing,
}

/// Where a record is that is skipped.
#[derive(Clone, Copy, Debug, PartialEq, Eq, Hash)]
pub enum Place {
    BehindHeader,
    BetweenFrames,
    Last,
}

/// What a bundle meets by its records.
pub fn met_by_records(bundle: &[u8]) -> HashSet<Met> {
    let mut met = HashSet::new();
    let (mut rest, mut number, mut count, mut frames) = (bundle, 0, 0, 0);
    let mut skipped = Vec::new();
    while !rest.is_empty() {
        let reasons = reasons(rest, number, frames, count);
        if let [reason, others @ ..] = &reasons[..] {
            if others.is_empty() {
                met.insert(Met::Bad(*reason, number > 0));
            }
            return met;
        }
        let (length, kind) = (length_of(rest), kind_of(rest));
        match kind {
            HEADER => count = u64::from(number_of(&rest[10..12])),
            FRAME => frames += 1,
            _ => skipped.push(frames),
        }
        rest = &rest[LENGTH_LEN + length..];
        number += 1;
    }
    match number {
        0 => drop(met.insert(Met::Bad(Reason::NoBytes, false))),
        _ if frames < count => drop(met.insert(Met::Bad(Reason::FramesMissing, true))),
        _ => {
            met.insert(Met::Frames(count));
            met.extend(skipped.into_iter().map(|before| {
                Met::Skipped(match before {
                    0 => Place::BehindHeader,
                    _ if before == count => Place::Last,
                    _ => Place::BetweenFrames,
                })
            }));
        }
    }
    met
}

/// What is wrong with the record at the front of some bytes, beside the frames before it.
fn reasons(bytes: &[u8], number: u64, frames: u64, count: u64) -> Vec<Reason> {
    if bytes.len() < LENGTH_LEN {
        return vec![Reason::CutLength];
    }
    let length = length_of(bytes);
    let mut reasons = Vec::new();
    if bytes.len() < LENGTH_LEN + length {
        reasons.push(match bytes.len() {
            0..HEAD_LEN => Reason::CutKind,
            _ => Reason::CutPayload,
        });
    }
    if length < 2 {
        reasons.push(Reason::ShortLength);
        return reasons;
    }
    if bytes.len() < HEAD_LEN {
        return reasons;
    }
    let kind = kind_of(bytes);
    if number == 0 {
        if kind != HEADER {
            reasons.push(Reason::FirstKind);
        }
        if length != 8 {
            reasons.push(Reason::FirstLength);
        } else if bytes.len() >= 12 {
            match number_of(&bytes[10..12]) {
                0 => reasons.push(Reason::NoFrames),
                1..=8 => (),
                _ => reasons.push(Reason::ManyFrames),
            }
        }
    } else if kind == HEADER {
        reasons.push(Reason::LaterHeader);
    } else if kind == FRAME && frames == count {
        reasons.push(Reason::FrameTooMany);
    }
    reasons
}

fn length_of(record: &[u8]) -> usize {
    number_of(&record[..LENGTH_LEN]) as usize
}

fn kind_of(record: &[u8]) -> u16 {
    number_of(&record[LENGTH_LEN..HEAD_LEN]) as u16
}

fn number_of(bytes: &[u8]) -> u32 {
    let bytes = bytes.iter().rev();
    bytes.fold(0, |number, &byte| number << 8 | u32::from(byte))
}

/// What slots meet, by the distances that frames have there.
pub fn met_by_slots(lists: &[Vec<u32>]) -> HashSet<Met> {
    let slots = lists.first().map_or(0, Vec::len);
    (0..slots)
        .map(|slot| {
            let mut some = [false; 3];
            for list in lists {
                some[match list[slot] {
                    0 => 0,
                    1..255 => 1,
                    255.. => 2,
                }] = true;
            }
            Met::Slot(some)
        })
        .collect()
}

/// What has to be met in a run.
pub fn all_met() -> impl Iterator<Item = Met> {
    let first = [
        Reason::NoBytes,
        Reason::CutLength,
        Reason::CutKind,
        Reason::CutPayload,
        Reason::ShortLength,
        Reason::FirstKind,
        Reason::FirstLength,
        Reason::NoFrames,
        Reason::ManyFrames,
    ];
    let later = [
        Reason::CutLength,
        Reason::CutKind,
        Reason::CutPayload,
        Reason::ShortLength,
        Reason::LaterHeader,
        Reason::FrameTooMany,
        Reason::FramesMissing,
    ];
    let places = [Place::BehindHeader, Place::BetweenFrames, Place::Last];
    let slots = (1..8u8).map(|some| Met::Slot([0, 1, 2].map(|bit| some >> bit & 1 == 1)));
    let bad = first.map(|reason| Met::Bad(reason, false)).into_iter();
    bad.chain(later.map(|reason| Met::Bad(reason, true)))
        .chain((1..=MAX_FRAMES as u64).map(Met::Frames))
        .chain(places.map(Met::Skipped))
        .chain(slots)
}

#[cfg(test)]
mod tests {
    use super::*;
    use crate::records::{bytes, Record};

    fn met(records: &[Record]) -> Vec<Met> {
        met_by_records(&bytes(records)).into_iter().collect()
    }

    #[test]
    fn reasons_are_told_apart() {
        let header = Record::header(4, 1);
        let frame = Record::new(FRAME, &[7]);
        assert_eq!(met(&[]), [Met::Bad(Reason::NoBytes, false)]);
        let cases = [
            (vec![frame.clone()], vec![]),
            (
                vec![Record::new(2, &[0, 0, 0, 0, 1, 0])],
                vec![Met::Bad(Reason::FirstKind, false)],
            ),
            (
                vec![Record::header(4, 9)],
                vec![Met::Bad(Reason::ManyFrames, false)],
            ),
            (
                vec![header.clone()],
                vec![Met::Bad(Reason::FramesMissing, true)],
            ),
            (
                vec![header.clone(), header.clone()],
                vec![Met::Bad(Reason::LaterHeader, true)],
            ),
            (
                vec![header.clone(), frame.clone(), frame.clone()],
                vec![Met::Bad(Reason::FrameTooMany, true)],
            ),
            (vec![header, frame], vec![Met::Frames(1)]),
        ];
        for (records, wanted) in cases {
            assert_eq!(met(&records), wanted, "{records:?}");
        }
    }

    #[test]
    fn ends_are_told_apart() {
        let whole = bytes(&[Record::header(4, 1), Record::new(FRAME, &[7])]);
        let at_end = |len| met_by_records(&whole[..len]).into_iter().next();
        let cut = [(3, Reason::CutLength), (5, Reason::CutKind)];
        for (len, reason) in cut.into_iter().chain([(6, Reason::CutPayload)]) {
            assert_eq!(at_end(len), Some(Met::Bad(reason, false)), "{len}");
            assert_eq!(at_end(12 + len), Some(Met::Bad(reason, true)), "{len}");
        }
    }

    #[test]
    fn skipped_records_are_told_by_their_place() {
        let (header, frame) = (Record::header(4, 2), Record::new(FRAME, &[]));
        let other = Record::new(2, &[]);
        let mut records = vec![header, frame.clone(), frame];
        for (at, place) in [
            (1, Place::BehindHeader),
            (2, Place::BetweenFrames),
            (3, Place::Last),
        ] {
            records.insert(at, other.clone());
            assert!(met(&records).contains(&Met::Skipped(place)), "{place:?}");
            assert_eq!(met(&records).len(), 2);
            records.remove(at);
        }
    }

    #[test]
    fn slots_are_told_by_what_frames_have() {
        let met = met_by_slots(&[vec![0, 1, 255, 0], vec![0, 0, 254, 300]]);
        let wanted = [
            [true, false, false],
            [true, true, false],
            [false, true, true],
            [true, false, true],
        ];
        assert_eq!(met, wanted.map(Met::Slot).into());
    }
}
