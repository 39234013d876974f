//! The vectors of bundles.

use crate::{needed, parse, same, Distances, Verdict, Words};
use pciv::bundle::{self, Counts};
use pciv::Refusal;

pub const COLUMNS: &str =
    "file\tnumber\tmap\tplace\tslots\tframes\tothers\trows\tsum\treadings\tfirst\tlast\tweighted";

/// Holds the library, and the name, to a line.
pub fn judge(stem: &str, fields: &[&str], bundle: &[u8]) -> Verdict {
    match parse(fields)? {
        Ok(fields) => {
            let contents = Contents::of(fields)?;
            good_name(stem, &contents.counts)?;
            contents.answers(bundle)
        }
        Err(refusal) => {
            bad_name(stem, &refusal)?;
            refused(refusal, bundle)
        }
    }
}

/// What a line says of a sound bundle.
struct Contents {
    counts: Counts,
    others: u64,
    rows: u64,
    nearest: Distances,
}

impl Contents {
    fn of(fields: [Option<u64>; 9]) -> Result<Contents, String> {
        let [slots, frames, others, rows, sum, readings, first, last, weighted] = fields;
        Ok(Contents {
            counts: Counts {
                slots: needed(slots)?,
                frames: needed(frames)?,
            },
            others: needed(others)?,
            rows: needed(rows)?,
            nearest: Distances {
                sum: needed(sum)?,
                readings: needed(readings)?,
                first,
                last,
                weighted: needed(weighted)?,
            },
        })
    }

    fn answers(&self, bundle: &[u8]) -> Verdict {
        let Counts { slots, frames } = self.counts;
        same("read", Ok(self.counts), bundle::read(bundle))?;

        let mut list = vec![0; slots as usize];
        let count = bundle::nearest(bundle, &mut list);
        same("nearest", Ok(slots as usize), count)?;
        same(
            "the nearest distances",
            &self.nearest,
            &Distances::of(&list),
        )?;

        let mut rows = 0;
        for slot in 0..slots {
            let row = bundle::row(bundle, slot).map_err(|refusal| format!("row: {refusal:?}"))?;
            let weighted = (1..).zip(row).map(|(f, x)| (8 * slot + f) * u64::from(x));
            rows += weighted.sum::<u64>();
            let present = row
                .iter()
                .rposition(|&x| x > 0)
                .map_or(0, |last| last as u64 + 1);
            same("distances of absent frames", true, present <= frames)?;
        }
        same("rows", self.rows, rows)?;
        let beyond = bundle::row(bundle, slots).map_err(|refusal| refusal.number);
        same("row of slot n", Err(Refusal::SLOT_OUT_OF_RANGE), beyond)?;

        let records = records(bundle);
        let (kept, others): (Vec<_>, Vec<_>) = records.iter().partition(|(kind, _)| *kind < 2);
        same("records that are skipped", self.others, others.len() as u64)?;
        let frames: Vec<&[u8]> = kept[1..].iter().map(|(_, record)| &record[6..]).collect();
        let kept = kept.iter().map(|(_, record)| *record);
        let kept: Vec<u8> = kept.flatten().copied().collect();
        let mut written = vec![0; bundle.len()];
        let len = bundle::write(&frames, &mut written);
        same("write", Ok(kept.len()), len)?;
        same(
            "the frames written as the bundle",
            true,
            written.starts_with(&kept),
        )
    }
}

/// The records of a sound bundle, each with its kind.
fn records(mut bundle: &[u8]) -> Vec<(u16, &[u8])> {
    let mut records = Vec::new();
    while let Some((length, _)) = bundle.split_first_chunk() {
        let (record, rest) = bundle.split_at(4 + u32::from_le_bytes(*length) as usize);
        records.push((u16::from_le_bytes([record[4], record[5]]), record));
        bundle = rest;
    }
    records
}

/// Every reading routine gives the refusal.
fn refused(refusal: Refusal, bundle: &[u8]) -> Verdict {
    let mut list = vec![0; bundle.len()];
    same("read", Err(refusal), bundle::read(bundle))?;
    same("row", Err(refusal), bundle::row(bundle, 0))?;
    same("nearest", Err(refusal), bundle::nearest(bundle, &mut list))
}

/// `good-WHAT`, where `N-slots` and `F-frames` have meaning.
fn good_name(stem: &str, counts: &Counts) -> Verdict {
    let words = Words::of(stem);
    words.verdict("good")?;
    if let Some(slots) = words.before("slots") {
        same("slots in the name", slots, counts.slots)?;
    }
    for word in ["frame", "frames"] {
        if let Some(frames) = words.before(word) {
            same("frames in the name", frames, counts.frames)?;
        }
    }
    Ok(())
}

/// `bad-NN-WHAT`, with `map-F` for the fault of a frame, and with `place-P` for the numbers that have places.
fn bad_name(stem: &str, refusal: &Refusal) -> Verdict {
    let Refusal { number, map, place } = *refusal;
    let map = match number {
        1..=8 => Some(map),
        _ => same("map", 0, map).map(|()| None)?,
    };
    let place = match number {
        1..=5 => same("place", 0, place).map(|()| None)?,
        _ => Some(place),
    };
    Words::of(stem).refused(number, map, place)
}
