//! Bundles: one to eight maps of equal size in one file, its *frames*.
//!
//! A bundle is a sequence of records. A record has a length (4 bytes), a kind (2 bytes) and a payload;
//! the length counts kind and payload. Record 0 is the header: how many slots, how many frames. Each
//! frame is the payload of a record. Other records are passed over.

use crate::layout::le32;
use crate::{require_capacity, Map, Refusal};

/// The most frames that a bundle may have.
pub const MAX_FRAMES: usize = 8;

/// Bytes of the header's payload: the number of slots (4), the number of frames (2).
const HEADER_PAYLOAD_LEN: usize = 6;
/// Bytes of a record before its payload: length (4), kind (2).
const RECORD_HEAD_LEN: usize = 6;

/// The kind of the header.
const HEADER: u16 = 0;
/// The kind of a frame.
const FRAME: u16 = 1;

/// What the header of a sound bundle says.
#[derive(Clone, Copy, Debug, PartialEq, Eq)]
pub struct Counts {
    /// Number of slots of each frame.
    pub slots: u64,
    /// Number of frames.
    pub frames: u64,
}

/// The slot count and the frame count. Refusals 14, then each frame's 1 to 8 with its number as map,
/// then 10.
pub fn read(bundle: &[u8]) -> Result<Counts, Refusal> {
    open(bundle).map(|(counts, _)| counts)
}

/// The distance at a slot in each frame, 0 for absent frames. Refusals as [`read`], then 9.
pub fn row(bundle: &[u8], slot: u64) -> Result<[u32; MAX_FRAMES], Refusal> {
    let (_, frames) = open(bundle)?;
    let mut row = [0; MAX_FRAMES];
    for (distance, frame) in row.iter_mut().zip(frames) {
        *distance = frame.lookup(slot)?.distance;
    }
    Ok(row)
}

/// The least distance over all frames at each slot, zero distances passed over, to the front of
/// `distances`. Refusals as [`read`], then 12. Answers how many there are.
pub fn nearest(bundle: &[u8], distances: &mut [u32]) -> Result<u64, Refusal> {
    let (counts, frames) = open(bundle)?;
    let slots = counts.slots as usize;
    require_capacity(slots, distances.len())?;
    let nearest = &mut distances[..slots];
    nearest.fill(0);
    for frame in frames {
        for (least, distance) in nearest.iter_mut().zip(frame.distances()) {
            *least = nearer(*least, distance);
        }
    }
    Ok(counts.slots)
}

/// The smaller of two distances, where 0 stands for none.
fn nearer(x: u32, y: u32) -> u32 {
    match (x, y) {
        (0, other) | (other, 0) => other,
        _ => x.min(y),
    }
}

/// The bundle of the first `count` frames, to the front of `out`. Refusals 14 where `count` is not 1 to
/// 8, then as [`read`] with the first frame's slot count, then 12. Answers how long it is.
pub fn write(frames: &[&[u8]; MAX_FRAMES], count: u64, out: &mut [u8]) -> Result<u64, Refusal> {
    if !is_frame_count(count) {
        return Err(bad_bundle(0));
    }
    let frames = &frames[..count as usize];
    let maps = open_frames(frames)?;
    let slots = maps[0].n();
    require_slots(slots, &maps)?;

    let mut header = (slots as u32).to_le_bytes().to_vec();
    header.extend((count as u16).to_le_bytes());
    let mut records = vec![(HEADER, &header[..])];
    records.extend(frames.iter().map(|&frame| (FRAME, frame)));
    let lens = records.iter().map(|(_, payload)| payload.len());
    let len = lens.map(|len| RECORD_HEAD_LEN + len).sum();
    require_capacity(len, out.len())?;
    let mut rest = out;
    for (kind, payload) in records {
        rest = put_record(rest, kind, payload);
    }
    Ok(len as u64)
}

/// Puts a record to the front of `out`, which has space for it. Answers what is behind it.
fn put_record<'a>(out: &'a mut [u8], kind: u16, payload: &[u8]) -> &'a mut [u8] {
    let (head, rest) = out.split_at_mut(RECORD_HEAD_LEN);
    let len = payload.len() as u32 + 2;
    head[..4].copy_from_slice(&len.to_le_bytes());
    head[4..].copy_from_slice(&kind.to_le_bytes());
    let (body, rest) = rest.split_at_mut(payload.len());
    body.copy_from_slice(payload);
    rest
}

/// Checks a whole bundle. Answers its counts and its frames.
fn open(bundle: &[u8]) -> Result<(Counts, Vec<Map<'_>>), Refusal> {
    let (counts, payloads) = read_records(bundle)?;
    let frames = open_frames(&payloads)?;
    require_slots(counts.slots, &frames)?;
    Ok((counts, frames))
}

/// Checks all records: refusal 14. Answers the counts, and as many payloads of frames as they say.
fn read_records(bundle: &[u8]) -> Result<(Counts, Vec<&[u8]>), Refusal> {
    let (header, mut rest) = split_record(bundle).ok_or(bad_bundle(0))?;
    let counts = read_header(header).ok_or(bad_bundle(0))?;
    let mut frames = Vec::new();
    let mut number = 1;
    while !rest.is_empty() {
        let (record, behind) = split_record(rest).ok_or(bad_bundle(number))?;
        match record.kind {
            HEADER => return Err(bad_bundle(number)),
            FRAME if frames.len() as u64 == counts.frames => return Err(bad_bundle(number)),
            FRAME => frames.push(record.payload),
            _ => {}
        }
        rest = behind;
        number += 1;
    }
    if (frames.len() as u64) < counts.frames {
        return Err(bad_bundle(number));
    }
    Ok((counts, frames))
}

/// A record of a bundle.
struct Record<'a> {
    kind: u16,
    payload: &'a [u8],
}

/// The record at the front of some bytes, and what is behind it; `None` where it is cut short or its
/// length is below 2.
fn split_record(bytes: &[u8]) -> Option<(Record<'_>, &[u8])> {
    let (len, rest) = bytes.split_at_checked(4)?;
    let (record, rest) = rest.split_at_checked(le32(len) as usize)?;
    let (&kind, payload) = record.split_first_chunk()?;
    let kind = u16::from_le_bytes(kind);
    Some((Record { kind, payload }, rest))
}

/// The counts of the first record; `None` where it is no header.
fn read_header(record: Record) -> Option<Counts> {
    if record.kind != HEADER || record.payload.len() != HEADER_PAYLOAD_LEN {
        return None;
    }
    let (slots, frames) = record.payload.split_at(4);
    let counts = Counts {
        slots: u64::from(le32(slots)),
        frames: u64::from(u16::from_le_bytes([frames[0], frames[1]])),
    };
    is_frame_count(counts.frames).then_some(counts)
}

/// Checks each frame: refusals 1 to 8, with its number, from 1, as map.
fn open_frames<'a>(frames: &[&'a [u8]]) -> Result<Vec<Map<'a>>, Refusal> {
    let open = |(map, &frame)| Map::open(frame).map_err(|refusal| Refusal { map, ..refusal });
    (1u64..).zip(frames).map(open).collect()
}

/// Fails with refusal 10 at the least frame, from 1, that has not this many slots.
fn require_slots(slots: u64, frames: &[Map]) -> Result<(), Refusal> {
    match (1u64..).zip(frames).find(|(_, frame)| frame.n() != slots) {
        Some((number, _)) => Err(Refusal::of_call(10, number)),
        None => Ok(()),
    }
}

fn is_frame_count(count: u64) -> bool {
    (1..=MAX_FRAMES as u64).contains(&count)
}

/// Refusal 14.
fn bad_bundle(place: u64) -> Refusal {
    Refusal::of_call(14, place)
}
