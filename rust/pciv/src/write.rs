//! Writing a file from a list, or from its parts.

use crate::{answer, raw, Refusal, Summary};

/// An overflow entry: a slot whose distance is 255 or more, with that distance.
#[repr(C)]
#[derive(Clone, Copy, Debug, Default, PartialEq, Eq, Hash)]
pub struct Entry {
    /// The slot.
    pub slot: u64,
    /// Its distance.
    pub distance: u32,
}

/// The file of a list of distances, to the front of `out`. Answers its summary. Refusals 3 with
/// map 1 for more than 1,048,576 distances, then 12. [`file_len`](crate::file_len) says how long the
/// file is.
///
/// ```
/// let mut out = [7; 70];
/// let summary = pciv::write(&[0, 254, 255, 300], &mut out)?;
/// assert_eq!((summary.n, summary.k, summary.len, summary.sum), (4, 2, 68, 809));
/// assert_eq!(out[..68], *include_bytes!("../../../examples/map-a.pciv"));
/// assert_eq!(out[68..], [7, 7]);
/// # Ok::<(), pciv::Refusal>(())
/// ```
pub fn write(distances: &[u32], out: &mut [u8]) -> Result<Summary, Refusal> {
    answer(|summary, refusal| raw::write(distances, out, summary, refusal))
}

/// The file of a primary array and its overflow entries, to the front of `out`. Entry j is
/// `slots[j]` with `distances[j]`; where one list is shorter, the first entry that it lacks is
/// wrong. Answers the summary. Refusals 3, 6 with the least entry as place and 7 with the least
/// slot as place, all with map 1, then 12.
///
/// ```
/// let mut out = [0; 68];
/// pciv::close(&[0, 254, 255, 255], &[2, 3], &[255, 300], &mut out)?;
/// assert_eq!(out, *include_bytes!("../../../examples/map-a.pciv"));
///
/// let missing = pciv::close(&[0, 254, 255, 255], &[3], &[300], &mut out).unwrap_err();
/// assert_eq!(missing.number, pciv::Refusal::MISSING_OVERFLOW_ENTRY);
/// assert_eq!((missing.map, missing.place), (1, 2));
/// # Ok::<(), pciv::Refusal>(())
/// ```
pub fn close(
    primary: &[u8],
    slots: &[u64],
    distances: &[u32],
    out: &mut [u8],
) -> Result<Summary, Refusal> {
    answer(|summary, refusal| raw::close(primary, slots, distances, out, summary, refusal))
}

/// As [`close`], with the overflow entries in one list.
///
/// ```
/// use pciv::{Entry, Refusal};
///
/// let entries = [
///     Entry { slot: 2, distance: 255 },
///     Entry { slot: 3, distance: 300 },
/// ];
/// let mut out = [0; 68];
/// pciv::close_entries(&[0, 254, 255, 255], &entries, &mut out)?;
/// assert_eq!(out, *include_bytes!("../../../examples/map-a.pciv"));
///
/// let wrong = pciv::close_entries(&[0, 254, 255, 9], &entries, &mut out).unwrap_err();
/// assert_eq!(wrong.number, Refusal::BAD_OVERFLOW_ENTRY);
/// assert_eq!((wrong.map, wrong.place), (1, 1));
/// # Ok::<(), Refusal>(())
/// ```
pub fn close_entries(
    primary: &[u8],
    entries: &[Entry],
    out: &mut [u8],
) -> Result<Summary, Refusal> {
    answer(|summary, refusal| raw::close_entries(primary, entries, out, summary, refusal))
}

#[cfg(test)]
mod tests {
    use super::*;

    #[test]
    fn refused_buffers_are_unchanged() {
        let mut out = [7; 43];
        let refusal = write(&[1, 2, 3, 4], &mut out).unwrap_err();
        assert_eq!(refusal.number, Refusal::BUFFER_TOO_SMALL);
        let refusal = close(&[255], &[0], &[], &mut out).unwrap_err();
        assert_eq!(refusal.number, Refusal::BAD_OVERFLOW_ENTRY);
        let refusal = close_entries(&[255], &[], &mut out).unwrap_err();
        assert_eq!(refusal.number, Refusal::MISSING_OVERFLOW_ENTRY);
        assert_eq!(out, [7; 43]);
    }
}
