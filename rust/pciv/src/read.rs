//! Reading a file.

use crate::{answer, count, raw, Refusal, Summary};

/// Checks a whole file. Refusals 1 to 8.
///
/// ```
/// let file = include_bytes!("../../../examples/map-a.pciv");
/// let summary = pciv::check(file)?;
/// assert_eq!((summary.n, summary.k, summary.len, summary.sum), (4, 2, 68, 809));
///
/// let truncated = pciv::check(&file[..67]).unwrap_err();
/// assert_eq!(truncated.number, pciv::Refusal::BAD_LENGTH);
/// # Ok::<(), pciv::Refusal>(())
/// ```
pub fn check(file: &[u8]) -> Result<Summary, Refusal> {
    answer(|summary, refusal| raw::check(file, summary, refusal))
}

/// The primary array, as a part of the file: one byte for each slot, 255 for a distance in
/// overflow. Empty where [`check`] refuses the file.
///
/// ```
/// let file = include_bytes!("../../../examples/map-a.pciv");
/// assert_eq!(pciv::primary(file), [0, 254, 255, 255]);
/// assert_eq!(pciv::primary(&file[1..]), []);
/// ```
pub fn primary(file: &[u8]) -> &[u8] {
    let mut span = [0; 2];
    raw::primary_span(file, &mut span);
    let [start, len] = span.map(|number| number as usize);
    &file[start..start + len]
}

/// Where a distance is stored.
#[derive(Clone, Copy, Debug, PartialEq, Eq, Hash)]
pub enum Origin {
    /// In the primary array: exactly the distances below 255.
    Inline,
    /// In the overflow entry with this number, 0 for the first one.
    Overflow(u64),
}

/// The distance at a slot, and where it is stored.
#[derive(Clone, Copy, Debug, PartialEq, Eq, Hash)]
pub struct Located {
    /// The distance.
    pub distance: u32,
    /// Where it is stored.
    pub origin: Origin,
}

/// The distance at one slot, and where it is stored. Refusals 1 to 8, then 9.
///
/// ```
/// use pciv::{Located, Origin};
///
/// let file = include_bytes!("../../../examples/map-a.pciv");
/// let located = Located { distance: 300, origin: Origin::Overflow(1) };
/// assert_eq!(pciv::lookup(file, 3)?, located);
/// let located = Located { distance: 254, origin: Origin::Inline };
/// assert_eq!(pciv::lookup(file, 1)?, located);
///
/// let refusal = pciv::lookup(file, 4).unwrap_err();
/// assert_eq!(refusal.number, pciv::Refusal::SLOT_OUT_OF_RANGE);
/// # Ok::<(), pciv::Refusal>(())
/// ```
pub fn lookup(file: &[u8], slot: u64) -> Result<Located, Refusal> {
    let call = |(distance, entry): &mut (u32, u64), refusal: &mut Refusal| {
        raw::lookup(file, slot, distance, entry, refusal)
    };
    answer(call).map(|(distance, entry)| Located {
        distance,
        origin: match distance {
            0..255 => Origin::Inline,
            255.. => Origin::Overflow(entry),
        },
    })
}

/// The distances at a list of slots, to the front of `distances`, and the numbers of their overflow
/// entries, to the front of `entries`: for a distance below 255, which is stored inline, it is
/// [`k`](Summary::k), how many entries the map has. Answers the length of `slots`. Refusals 1 to 8, then
/// 9 with the least position in the list as place, then 12 where either list is shorter than `slots`.
///
/// ```
/// let file = include_bytes!("../../../examples/map-a.pciv");
/// let (mut distances, mut entries) = ([7; 5], [7; 5]);
/// assert_eq!(pciv::lookup_list(file, &[3, 0, 3, 2], &mut distances, &mut entries)?, 4);
/// assert_eq!(distances, [300, 0, 300, 255, 7]);
/// assert_eq!(entries, [1, 2, 1, 0, 7]);
///
/// let refusal = pciv::lookup_list(file, &[3, 4, 5], &mut distances, &mut entries).unwrap_err();
/// assert_eq!((refusal.number, refusal.place), (pciv::Refusal::SLOT_OUT_OF_RANGE, 1));
/// # Ok::<(), pciv::Refusal>(())
/// ```
pub fn lookup_list(
    file: &[u8],
    slots: &[u64],
    distances: &mut [u32],
    entries: &mut [u64],
) -> Result<usize, Refusal> {
    count(|count, refusal| raw::lookup_list(file, slots, distances, entries, count, refusal))
}

/// All distances, to the front of `distances`. Answers how many there are. Refusals 1 to 8, then
/// 12.
///
/// ```
/// let file = include_bytes!("../../../examples/map-a.pciv");
/// let mut distances = [7; 5];
/// assert_eq!(pciv::scan(file, &mut distances)?, 4);
/// assert_eq!(distances, [0, 254, 255, 300, 7]);
/// let refusal = pciv::scan(file, &mut distances[..3]).unwrap_err();
/// assert_eq!(refusal.number, pciv::Refusal::BUFFER_TOO_SMALL);
/// # Ok::<(), pciv::Refusal>(())
/// ```
pub fn scan(file: &[u8], distances: &mut [u32]) -> Result<usize, Refusal> {
    count(|count, refusal| raw::scan(file, distances, count, refusal))
}

/// The sum of all distances, which the [`Summary`] has too. Refusals 1 to 8.
///
/// ```
/// let file = include_bytes!("../../../examples/map-a.pciv");
/// assert_eq!(pciv::sum(file)?, 809);
/// # Ok::<(), pciv::Refusal>(())
/// ```
pub fn sum(file: &[u8]) -> Result<u64, Refusal> {
    answer(|sum, refusal| raw::sum(file, sum, refusal))
}

/// The number of readings: slots whose distance is not 0. Refusals 1 to 8.
///
/// ```
/// let file = include_bytes!("../../../examples/map-a.pciv");
/// assert_eq!(pciv::readings(file)?, 3);
/// # Ok::<(), pciv::Refusal>(())
/// ```
pub fn readings(file: &[u8]) -> Result<u64, Refusal> {
    answer(|count, refusal| raw::readings(file, count, refusal))
}

/// The text that the report program prints for an input, to the front of `text`. Answers its
/// length. A refused file is text too; the call is refused only with 12, where the text does not
/// fit. 160 bytes hold any text.
///
/// ```
/// let mut text = [0; 160];
/// let len = pciv::report(b"PCIV", &mut text)?;
/// assert_eq!(&text[..len], b"refused 1 map 1 place 0\n");
/// # Ok::<(), pciv::Refusal>(())
/// ```
pub fn report(input: &[u8], text: &mut [u8]) -> Result<usize, Refusal> {
    count(|count, refusal| raw::report(input, text, count, refusal))
}

#[cfg(test)]
mod tests {
    use super::*;

    const MAP_A: &[u8] = include_bytes!("../../../examples/map-a.pciv");

    #[test]
    fn primary_is_part_of_the_file() {
        assert!(std::ptr::eq(primary(MAP_A), &MAP_A[40..44]));
    }

    #[test]
    fn refused_buffers_are_unchanged() {
        let mut distances = [7; 3];
        let refusal = scan(MAP_A, &mut distances).unwrap_err();
        assert_eq!(refusal.number, Refusal::BUFFER_TOO_SMALL);
        assert_eq!(distances, [7; 3]);
    }

    #[test]
    fn each_list_of_a_lookup_is_judged_by_its_own_length() {
        let (mut distances, mut entries) = ([7; 4], [7; 4]);
        for (capacity, more) in [(3, 4), (4, 3), (3, 3), (0, 4), (4, 0)] {
            let lists = (&mut distances[..capacity], &mut entries[..more]);
            let refusal = lookup_list(MAP_A, &[0, 1, 2, 3], lists.0, lists.1).unwrap_err();
            assert_eq!(refusal.number, Refusal::BUFFER_TOO_SMALL);
        }
        assert_eq!(lookup_list(MAP_A, &[], &mut [], &mut []), Ok(0));
        assert_eq!((distances, entries), ([7; 4], [7; 4]));
    }

    #[test]
    fn report_of_map_a() {
        let mut text = [b'.'; 160];
        let len = report(MAP_A, &mut text).unwrap();
        let (text, rest) = text.split_at(len);
        assert_eq!(
            text,
            b"slots 4\nfar 2\nstep 0\nindex 0\nsum 809\nreadings 3\n"
        );
        assert!(rest.iter().all(|&byte| byte == b'.'));
    }
}
