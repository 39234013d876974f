//! Bundles as records, with faults to put into them.

use reference::bundle::MAX_FRAMES;
use std::slice;

/// The kinds of the header and of a frame; others are skipped.
pub const HEADER: u16 = 0;
pub const FRAME: u16 = 1;

/// A record, with the length that it says.
#[derive(Clone, Debug)]
pub struct Record {
    pub length: u32,
    pub kind: u16,
    pub payload: Vec<u8>,
}

impl Record {
    /// A record with its own length.
    pub fn new(kind: u16, payload: &[u8]) -> Record {
        Record {
            length: payload.len() as u32 + 2,
            kind,
            payload: payload.to_vec(),
        }
    }

    pub fn header(slots: u32, frames: u16) -> Record {
        let payload = [&slots.to_le_bytes()[..], &frames.to_le_bytes()].concat();
        Record::new(HEADER, &payload)
    }
}

/// The header and the frames.
pub fn records(slots: usize, frames: &[Vec<u8>]) -> Vec<Record> {
    let header = Record::header(slots as u32, frames.len() as u16);
    let frames = frames.iter().map(|frame| Record::new(FRAME, frame));
    [header].into_iter().chain(frames).collect()
}

/// Records one after another.
pub fn bytes(records: &[Record]) -> Vec<u8> {
    let mut bytes = Vec::new();
    for record in records {
        bytes.extend(record.length.to_le_bytes());
        bytes.extend(record.kind.to_le_bytes());
        bytes.extend(&record.payload);
    }
    bytes
}

/// A change of a bundle.
#[derive(Clone, Debug)]
pub enum Fault {
    /// The record of this number says another length.
    Length(usize, u32),
    /// It has another kind.
    Kind(usize, u16),
    /// It has another payload, with the length of that.
    Payload(usize, Vec<u8>),
    /// A record stands before it, or behind the last.
    Insert(usize, Record),
    /// It is missing.
    Remove(usize),
    /// Further bytes stand behind the last record.
    Extend(Vec<u8>),
    /// So many bytes are missing at the end.
    Cut(usize),
}

/// A bundle with faults: those of records first, then those of its bytes.
pub fn with_faults(records: &[Record], faults: &[Fault]) -> Vec<u8> {
    let mut records = records.to_vec();
    for fault in faults {
        fault.change_records(&mut records);
    }
    let mut bytes = bytes(&records);
    for fault in faults {
        match fault {
            Fault::Extend(more) => bytes.extend(more),
            Fault::Cut(missing) => bytes.truncate(bytes.len().saturating_sub(*missing)),
            _ => (),
        }
    }
    bytes
}

impl Fault {
    fn change_records(&self, records: &mut Vec<Record>) {
        match self {
            Fault::Insert(at, record) => records.insert((*at).min(records.len()), record.clone()),
            Fault::Remove(at) if *at < records.len() => drop(records.remove(*at)),
            Fault::Length(at, _) | Fault::Kind(at, _) | Fault::Payload(at, _) => {
                if let Some(record) = records.get_mut(*at) {
                    self.change(record);
                }
            }
            _ => (),
        }
    }

    fn change(&self, record: &mut Record) {
        match self {
            Fault::Length(_, length) => record.length = *length,
            Fault::Kind(_, kind) => record.kind = *kind,
            Fault::Payload(_, payload) => *record = Record::new(record.kind, payload),
            _ => (),
        }
    }
}

/// Faults of each record, the header's counts, and the ends of a bundle, all of them refused with 14 or
/// 10 or changing what the frames are.
pub fn every_fault(records: &[Record]) -> Vec<Fault> {
    let (header, frame) = (&records[0], &records[1]);
    let all = 0..records.len();
    let of_each = all.flat_map(|at| {
        let right = records[at].length;
        let lengths = [
            0,
            1,
            2,
            right - 1,
            right + 1,
            right + 4,
            right + 256,
            1 << 31,
            (1 << 31) + right,
            u32::MAX - 3,
            u32::MAX,
        ];
        let kinds = [HEADER, FRAME, 2, 256, 257, u16::MAX];
        let lengths = lengths.map(|length| Fault::Length(at, length));
        let kinds = kinds.map(|kind| Fault::Kind(at, kind));
        lengths.into_iter().chain(kinds).chain([Fault::Remove(at)])
    });
    let inserted = (0..=records.len()).flat_map(|at| {
        let empty_header = Record::new(HEADER, &[]);
        [header.clone(), empty_header, frame.clone()].map(|record| Fault::Insert(at, record))
    });
    let ends = (1..8).flat_map(|len| {
        let bytes = [0, 1, 2, u8::MAX].map(|byte| Fault::Extend(vec![byte; len]));
        bytes.into_iter().chain([Fault::Cut(len)])
    });
    of_each
        .chain(headers(header))
        .chain(inserted)
        .chain(ends)
        .filter(|fault| !is_none(fault, records))
        .collect()
}

/// Headers with other counts, and of other lengths.
fn headers(header: &Record) -> impl Iterator<Item = Fault> {
    let [s0, s1, s2, s3, f0, f1] = header.payload[..] else {
        panic!("a header has two counts");
    };
    let slots = u32::from_le_bytes([s0, s1, s2, s3]);
    let frames = u16::from_le_bytes([f0, f1]);
    let of_counts = |slots, frames| Fault::Payload(0, Record::header(slots, frames).payload);
    let many = MAX_FRAMES as u16;
    let others = [
        0,
        1,
        frames - 1,
        frames + 1,
        many,
        many + 1,
        255,
        256,
        256 + frames,
        u16::MAX,
    ];
    let of_frames = others.map(|other| of_counts(slots, other));
    let others = [
        0,
        slots.wrapping_sub(1),
        slots + 1,
        slots + (1 << 16),
        1 << 20,
        (1 << 20) + 1,
        u32::MAX,
    ];
    let of_slots = others.map(|other| of_counts(other, frames));
    let shorter = (0..header.payload.len()).map(|len| header.payload[..len].to_vec());
    let longer = (1..4).map(|more| [&header.payload[..], &vec![0; more]].concat());
    let of_lengths: Vec<Fault> = shorter
        .chain(longer)
        .map(|payload| Fault::Payload(0, payload))
        .collect();
    of_frames.into_iter().chain(of_slots).chain(of_lengths)
}

/// Whether a fault leaves the bundle as it is.
fn is_none(fault: &Fault, whole: &[Record]) -> bool {
    with_faults(whole, slice::from_ref(fault)) == bytes(whole)
}
