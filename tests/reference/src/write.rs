//! Files written to a buffer: from a list of distances, or from a primary array and overflow
//! entries.

use crate::entries::{check_entries, check_sentinels, Entry};
use crate::layout::{file_len, HEADER_LEN, INDEX_ENTRY_LEN, MAGIC, OVERFLOW_ENTRY_LEN, SENTINEL};
use crate::{require_capacity, require_few_slots, Refusal, Summary};

/// The file of a list of distances. Refusal 3 for more than 1,048,576 of them.
pub fn encode(distances: &[u32]) -> Result<Vec<u8>, Refusal> {
    let k = distances.iter().filter(|&&d| is_overflow(d)).count();
    let mut file = vec![0; file_len(distances.len() as u64, k as u64) as usize];
    write(distances, &mut file)?;
    Ok(file)
}

/// The file of a list of distances, to the front of `out`. Refusals 3, 12. Answers its summary.
pub fn write(distances: &[u32], out: &mut [u8]) -> Result<Summary, Refusal> {
    require_few_slots(distances.len())?;
    write_distances(distances.iter().copied().map(Some), out)
}

/// The file of a primary array and of overflow entries, given as their slots and their distances,
/// to the front of `out`. Refusals 3, 6, 7, 12. Answers its summary.
///
/// Where one list is longer, its first entry without a partner is wrong.
pub fn close(
    primary: &[u8],
    slots: &[u64],
    distances: &[u32],
    out: &mut [u8],
) -> Result<Summary, Refusal> {
    require_few_slots(primary.len())?;
    let pairs = slots.iter().zip(distances);
    let entries = pairs.map(|(&slot, &distance)| Entry { slot, distance });
    check_entries(primary, entries.clone())?;
    if slots.len() != distances.len() {
        return Err(Refusal::of_file(6, entries.len() as u64));
    }
    check_sentinels(primary, entries.clone())?;
    write_parts(primary, entries, out)
}

/// The same of overflow entries in one list.
pub fn close_entries(
    primary: &[u8],
    entries: &[Entry],
    out: &mut [u8],
) -> Result<Summary, Refusal> {
    require_few_slots(primary.len())?;
    let entries = entries.iter().copied();
    check_entries(primary, entries.clone())?;
    check_sentinels(primary, entries.clone())?;
    write_parts(primary, entries, out)
}

pub(crate) fn is_overflow(distance: u32) -> bool {
    distance >= u32::from(SENTINEL)
}

/// Writes the file of at most 1,048,576 distances to the front of `out`; `None` is a distance above
/// 4,294,967,295. Refusals 11, 12.
///
/// One pass over the distances collects the primary array and the overflow entries; nothing is
/// written before the last refusal is ruled out.
pub(crate) fn write_distances(
    distances: impl Iterator<Item = Option<u32>>,
    out: &mut [u8],
) -> Result<Summary, Refusal> {
    let mut overflow = Vec::new();
    let mut too_large = None;
    let primary: Vec<u8> = (0u64..)
        .zip(distances)
        .map(|(slot, distance)| match distance {
            Some(distance) if is_overflow(distance) => {
                overflow.push(Entry { slot, distance });
                SENTINEL
            }
            Some(distance) => distance as u8,
            None => {
                too_large.get_or_insert(slot);
                SENTINEL
            }
        })
        .collect();
    if let Some(slot) = too_large {
        return Err(Refusal::of_call(11, slot));
    }
    write_parts(&primary, overflow.iter().copied(), out)
}

/// Writes the file of a primary array and its overflow entries, which fit each other, to the front
/// of `out`. Refusal 12.
pub(crate) fn write_parts(
    primary: &[u8],
    overflow: impl ExactSizeIterator<Item = Entry> + Clone,
    out: &mut [u8],
) -> Result<Summary, Refusal> {
    let sum = sum_of_parts(primary, overflow.clone());
    let summary = Summary::of(primary.len() as u64, overflow.len() as u64, sum);
    require_capacity(summary.len as usize, out.len())?;
    let file = &mut out[..summary.len as usize];
    let (header, rest) = file.split_at_mut(HEADER_LEN);
    let (primary_out, rest) = rest.split_at_mut(primary.len());
    let (overflow_out, index_out) = rest.split_at_mut(OVERFLOW_ENTRY_LEN * overflow.len());
    write_header(header, &summary);
    primary_out.copy_from_slice(primary);
    write_overflow(overflow_out, overflow.clone());
    write_index(index_out, overflow, summary.step);
    Ok(summary)
}

/// The sum of the list that these parts hold: the inline distances, and those of the entries.
fn sum_of_parts(primary: &[u8], overflow: impl Iterator<Item = Entry>) -> u64 {
    let inline = primary.iter().filter(|&&byte| byte != SENTINEL);
    let inline: u64 = inline.copied().map(u64::from).sum();
    let in_overflow: u64 = overflow.map(|entry| u64::from(entry.distance)).sum();
    inline + in_overflow
}

fn write_header(out: &mut [u8], summary: &Summary) {
    let Summary { n, k, m, step, .. } = *summary;
    let counts = [n, k, m, step].map(u64::to_le_bytes);
    let (magic, fields) = out.split_at_mut(MAGIC.len());
    magic.copy_from_slice(&MAGIC);
    fields.copy_from_slice(counts.as_flattened());
}

fn write_overflow(out: &mut [u8], entries: impl Iterator<Item = Entry>) {
    let (out, _) = out.as_chunks_mut::<OVERFLOW_ENTRY_LEN>();
    for (out, entry) in out.iter_mut().zip(entries) {
        out[..8].copy_from_slice(&entry.slot.to_le_bytes());
        out[8..].copy_from_slice(&entry.distance.to_le_bytes());
    }
}

fn write_index(out: &mut [u8], entries: impl Iterator<Item = Entry>, step: u64) {
    // Without an index there is nothing to write, whatever the step of the walk.
    let indexed = (0u64..).zip(entries).step_by(step.max(1) as usize);
    let (out, _) = out.as_chunks_mut::<INDEX_ENTRY_LEN>();
    for (out, (position, entry)) in out.iter_mut().zip(indexed) {
        out[..8].copy_from_slice(&entry.slot.to_le_bytes());
        out[8..].copy_from_slice(&position.to_le_bytes());
    }
}

#[cfg(test)]
mod tests {
    use super::*;
    use crate::MAX_SLOTS;

    #[test]
    fn map_a_byte_by_byte() {
        let mut expected = b"PCIV\0\0\0\0".to_vec();
        for count in [4u8, 2, 0, 0] {
            expected.extend([count, 0, 0, 0, 0, 0, 0, 0]);
        }
        expected.extend([0x00, 0xFE, 0xFF, 0xFF]);
        expected.extend([2, 0, 0, 0, 0, 0, 0, 0, 0xFF, 0, 0, 0]);
        expected.extend([3, 0, 0, 0, 0, 0, 0, 0, 0x2C, 0x01, 0, 0]);
        let file = encode(&[0, 254, 255, 300]).unwrap();
        assert_eq!(file, expected);
        assert_eq!(file.len(), 68);
    }

    #[test]
    fn lengths_follow_the_table() {
        let lengths = [
            (2_048, 29_616),
            (2_049, 46_028),
            (4_096, 86_960),
            (4_097, 76_060),
        ];
        for (k, len) in lengths {
            let mut distances = vec![7; 5_000];
            distances[5_000 - k..].fill(255);
            assert_eq!(encode(&distances).unwrap().len(), len);
        }
    }

    #[test]
    fn sums_of_the_largest_maps() {
        let mut out = vec![0; file_len(MAX_SLOTS, MAX_SLOTS) as usize];
        let largest = (u32::MAX, 4_503_599_626_321_920);
        for (distance, sum) in [largest, (254, 266_338_304), (0, 0)] {
            let summary = write(&vec![distance; MAX_SLOTS as usize], &mut out).unwrap();
            assert_eq!(summary.sum, sum);
            assert_eq!(crate::check(&out[..summary.len as usize]), Ok(summary));
        }
    }

    #[test]
    fn too_many_slots_are_refused() {
        let refusal = Err(Refusal::of_file(3, 0));
        let distances = vec![0; MAX_SLOTS as usize + 1];
        assert!(encode(&distances[1..]).is_ok());
        assert_eq!(encode(&distances), Err(Refusal::of_file(3, 0)));
        assert_eq!(write(&distances, &mut []), refusal);
        let primary = vec![SENTINEL; MAX_SLOTS as usize + 1];
        assert_eq!(close(&primary, &[7], &[], &mut []), refusal);
        assert_eq!(close_entries(&primary, &[], &mut []), refusal);
    }
}
