//! The vectors of maps.

use crate::{needed, parse, same, Distances, Verdict, Words};
use pciv::{Refusal, Summary};

pub const COLUMNS: &str =
    "file\tnumber\tmap\tplace\tn\tk\tm\tstep\tL\tsum\treadings\tfirst\tlast\tweighted";

/// Holds the library, and the name, to a line.
pub fn judge(stem: &str, fields: &[&str], file: &[u8]) -> Verdict {
    match parse(fields)? {
        Ok(fields) => {
            let contents = Contents::of(fields)?;
            good_name(stem, &contents.summary)?;
            contents.answers(file)
        }
        Err(refusal) => {
            bad_name(stem, &refusal)?;
            refused(refusal, file)
        }
    }
}

/// What a line says of a sound file.
struct Contents {
    summary: Summary,
    list: Distances,
}

impl Contents {
    fn of(fields: [Option<u64>; 10]) -> Result<Contents, String> {
        let [n, k, m, step, len, sum, readings, first, last, weighted] = fields;
        let sum = needed(sum)?;
        Ok(Contents {
            summary: Summary {
                n: needed(n)?,
                k: needed(k)?,
                m: needed(m)?,
                step: needed(step)?,
                len: needed(len)?,
                sum,
            },
            list: Distances {
                sum,
                readings: needed(readings)?,
                first,
                last,
                weighted: needed(weighted)?,
            },
        })
    }

    fn answers(&self, file: &[u8]) -> Verdict {
        let n = self.summary.n as usize;
        same("check", Ok(self.summary), pciv::check(file))?;
        same("length of the file", self.summary.len, file.len() as u64)?;
        same("sum", Ok(self.summary.sum), pciv::sum(file))?;
        same("readings", Ok(self.list.readings), pciv::readings(file))?;
        same("length of primary", n, pciv::primary(file).len())?;

        let mut list = vec![0; n];
        same("scan", Ok(n), pciv::scan(file, &mut list))?;
        same("the scan", &self.list, &Distances::of(&list))?;

        let slots: Vec<u64> = (0..self.summary.n).collect();
        let (mut found, mut entries) = (vec![0; n], vec![0; n]);
        let count = pciv::lookup_list(file, &slots, &mut found, &mut entries);
        same("lookup_list", Ok(n), count)?;
        same("all lookups as the scan", true, found == list)?;
        let mut numbers = 0..;
        let is_entry = |(&distance, &entry): (&u32, &u64)| match distance {
            0..255 => entry == self.summary.k,
            255.. => numbers.next() == Some(entry),
        };
        let are_entries = list.iter().zip(&entries).all(is_entry);
        same("entries in order, and k inline", true, are_entries)?;
        let mut written = vec![0; file.len()];
        same("write", Ok(self.summary), pciv::write(&list, &mut written))?;
        same("the scan written as the file", true, written == file)
    }
}

/// Every reading routine gives the refusal.
fn refused(refusal: Refusal, file: &[u8]) -> Verdict {
    let mut list = vec![0; file.len()];
    same("check", Err(refusal), pciv::check(file))?;
    same("scan", Err(refusal), pciv::scan(file, &mut list))?;
    same("sum", Err(refusal), pciv::sum(file))?;
    same("readings", Err(refusal), pciv::readings(file))?;
    same("lookup", Err(refusal), pciv::lookup(file, 0))?;
    same("length of primary", 0, pciv::primary(file).len())
}

/// `good-WHAT`, where `N-slots`, `K-overflow`, `step-S` and `no-index` have meaning.
fn good_name(stem: &str, summary: &Summary) -> Verdict {
    let words = Words::of(stem);
    words.verdict("good")?;
    if let Some(n) = words.before("slots") {
        same("n in the name", n, summary.n)?;
    }
    if let Some(k) = words.before("overflow") {
        same("k in the name", k, summary.k)?;
    }
    if words.place("step").is_some() {
        same("step in the name", words.after("step"), Some(summary.step))?;
    }
    if stem.ends_with("-no-index") {
        same("m and step", (0, 0), (summary.m, summary.step))?;
    }
    Ok(())
}

/// `bad-NN-WHAT`, or `bad-NN-place-P-WHAT` for the numbers that have places.
fn bad_name(stem: &str, refusal: &Refusal) -> Verdict {
    let Refusal { number, map, place } = *refusal;
    same("map", 1, map)?;
    let place = match number {
        6..=8 => Some(place),
        _ => same("place", 0, place).map(|()| None)?,
    };
    Words::of(stem).refused(number, None, place)
}
