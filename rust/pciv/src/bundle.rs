//! Bundles: a burst of one to eight maps of equal size in one file, its frames.
//!
//! A bundle has a record with the two counts, then the frames in order, each a whole PCIV file. Records of
//! other kinds may stand anywhere behind the first one, and are passed over. Frames count from 1,
//! records from 0.
//!
//! The functions that take a bundle check all of it first, each frame as [`check`](crate::check) does.
//! Refusals 14 with the record as place, then 1 to 8 of each frame with its number as map, then 10 with
//! the least frame as place whose slots are not as many as the bundle says.
//!
//! ```
//! use pciv::bundle;
//!
//! let a = include_bytes!("../../../examples/map-a.pciv"); // 0, 254, 255, 300
//! let mut b = [0; 56];
//! pciv::write(&[1, 1, 1, 4_294_967_295], &mut b)?;
//!
//! let mut burst = vec![0; bundle::bundle_len(&[a, &b])];
//! bundle::write(&[a, &b], &mut burst)?;
//! let counts = bundle::read(&burst)?;
//! assert_eq!((counts.slots, counts.frames), (4, 2));
//! assert_eq!(bundle::row(&burst, 3)?, [300, 4_294_967_295, 0, 0, 0, 0, 0, 0]);
//!
//! let mut distances = [0; 4];
//! bundle::nearest(&burst, &mut distances)?;
//! assert_eq!(distances, [1, 1, 1, 300]);
//! # Ok::<(), pciv::Refusal>(())
//! ```

use crate::{answer, count, raw, Refusal};

/// The most frames that a bundle may have.
pub const MAX_FRAMES: usize = 8;

/// How many slots each frame of a bundle has, and how many frames there are.
#[derive(Clone, Copy, Debug, Default, PartialEq, Eq, Hash)]
pub struct Counts {
    /// Number of slots of each frame.
    pub slots: u64,
    /// Number of frames, 1 to 8.
    pub frames: u64,
}

/// Checks a whole bundle. Refusals 14, 1 to 8 of each frame, 10.
///
/// ```
/// use pciv::{bundle, Refusal};
///
/// // The record with the counts, of no slots and one frame, and then no frame.
/// let header = [8, 0, 0, 0, 0, 0, 0, 0, 0, 0, 1, 0];
/// let refusal = bundle::read(&header).unwrap_err();
/// assert_eq!((refusal.number, refusal.map, refusal.place), (Refusal::BAD_BUNDLE, 0, 1));
/// ```
pub fn read(bundle: &[u8]) -> Result<Counts, Refusal> {
    answer(|Counts { slots, frames }: &mut Counts, refusal| {
        raw::bundle_read(bundle, slots, frames, refusal)
    })
}

/// The distances at one slot, by frame: element 0 is that of frame 1. 0 for absent frames. Refusals as
/// [`read`], then 9.
pub fn row(bundle: &[u8], slot: u64) -> Result<[u32; MAX_FRAMES], Refusal> {
    answer(|row, refusal| raw::bundle_row(bundle, slot, row, refusal))
}

/// The nearest distance at each slot, to the front of `distances`: the least of all frames' distances that
/// is not 0, or 0 where all of them are 0. Answers how many slots there are. Refusals as [`read`], then 12.
pub fn nearest(bundle: &[u8], distances: &mut [u32]) -> Result<usize, Refusal> {
    count(|count, refusal| raw::bundle_nearest(bundle, distances, count, refusal))
}

/// The length of the bundle of some frames, of which eight count at most: 12, and for each frame 6 more
/// than it has itself.
pub fn bundle_len(frames: &[&[u8]]) -> usize {
    let records = frames.iter().take(MAX_FRAMES).map(|frame| 6 + frame.len());
    12 + records.sum::<usize>()
}

/// The bundle of one to eight frames, to the front of `out`. Answers how long it is, as [`bundle_len`]
/// does.
///
/// Refusals 14 with place 0 where there is no frame or there are more than eight; 1 to 8 of each frame, with
/// its number as map; 10 with the least frame as place whose slots are not as many as those of frame 1;
/// then 12.
///
/// ```
/// use pciv::{bundle, Refusal};
///
/// let map = include_bytes!("../../../examples/map-a.pciv");
/// let mut out = [7; 162];
/// assert_eq!(bundle::write(&[map, map], &mut out)?, 160);
/// assert_eq!(out[..12], [8, 0, 0, 0, 0, 0, 4, 0, 0, 0, 2, 0]);
/// assert_eq!(out[12..18], [70, 0, 0, 0, 1, 0]);
/// assert_eq!(out[18..86], *map);
/// assert_eq!(out[160..], [7, 7]);
///
/// let refusal = bundle::write(&[map, &map[..67]], &mut out).unwrap_err();
/// assert_eq!((refusal.number, refusal.map), (Refusal::BAD_LENGTH, 2));
/// # Ok::<(), Refusal>(())
/// ```
pub fn write(frames: &[&[u8]], out: &mut [u8]) -> Result<usize, Refusal> {
    let mut parts: [&[u8]; MAX_FRAMES] = [&[]; MAX_FRAMES];
    for (part, frame) in parts.iter_mut().zip(frames) {
        *part = frame;
    }
    count(|written, refusal| raw::bundle_write(&parts, frames.len(), out, written, refusal))
}

#[cfg(test)]
mod tests {
    use super::*;

    const MAP_A: &[u8] = include_bytes!("../../../examples/map-a.pciv");

    /// The map of no slots.
    fn empty() -> [u8; 40] {
        let mut file = [0; 40];
        crate::write(&[], &mut file).unwrap();
        file
    }

    fn numbers<T>(answer: Result<T, Refusal>) -> (u64, u64, u64) {
        let refusal = answer.err().expect("a refusal");
        (refusal.number, refusal.map, refusal.place)
    }

    fn bundle_of(frames: &[&[u8]]) -> Vec<u8> {
        let mut bundle = vec![0; bundle_len(frames)];
        assert_eq!(write(frames, &mut bundle), Ok(bundle.len()));
        bundle
    }

    #[test]
    fn one_to_eight_frames_are_written() {
        for count in 1..=MAX_FRAMES {
            let bundle = bundle_of(&vec![MAP_A; count]);
            assert_eq!(bundle.len(), 12 + 74 * count);
            let counts = read(&bundle).unwrap();
            assert_eq!((counts.slots, counts.frames), (4, count as u64));
            let mut wanted = [0; MAX_FRAMES];
            wanted[..count].fill(300);
            assert_eq!(row(&bundle, 3), Ok(wanted));
        }
        let mut out = [7; 700];
        for count in [0, 9, 100] {
            assert_eq!(numbers(write(&vec![MAP_A; count], &mut out)), (14, 0, 0));
        }
        assert_eq!(out, [7; 700]);
    }

    #[test]
    fn a_bundle_of_no_slots() {
        let bundle = bundle_of(&[&empty(), &empty()]);
        assert_eq!(nearest(&bundle, &mut []), Ok(0));
        assert_eq!(numbers(row(&bundle, 0)), (9, 0, 0));
    }

    #[test]
    fn refused_buffers_are_unchanged() {
        let mut out = [7; 160];
        assert_eq!(numbers(write(&[MAP_A, &MAP_A[1..]], &mut out)), (2, 2, 0));
        assert_eq!(numbers(write(&[MAP_A, &empty()], &mut out)), (10, 0, 2));
        assert_eq!(numbers(write(&[MAP_A, MAP_A], &mut out[..159])), (12, 0, 0));
        assert_eq!(out, [7; 160]);

        let mut distances = [7; 4];
        let bundle = bundle_of(&[MAP_A, MAP_A]);
        assert_eq!(numbers(nearest(&bundle, &mut distances[..3])), (12, 0, 0));
        assert_eq!(numbers(nearest(&bundle[1..], &mut distances)), (14, 0, 0));
        assert_eq!(numbers(nearest(&bundle[..159], &mut distances)), (14, 0, 2));
        assert_eq!(distances, [7; 4]);
    }

    #[test]
    fn other_records_are_passed_over() {
        let mut bundle = bundle_of(&[MAP_A]);
        bundle.extend([3, 0, 0, 0, 2, 0, 99]);
        assert_eq!(read(&bundle).map(|counts| counts.frames), Ok(1));
        bundle.push(0);
        assert_eq!(numbers(read(&bundle)), (14, 0, 3));
    }
}
