//! Maps from disparity frames.

use crate::{answer, raw, Refusal, Summary};

/// The distance of each disparity that a camera with two lenses can give, 0 to 255: filled once for a
/// device, or made of any 256 distances by `from`.
///
/// ```
/// use pciv::{DisparityTable, Refusal};
///
/// let table = DisparityTable::new(510)?;
/// assert_eq!(table.distances()[..4], [0, 510, 255, 170]);
/// assert_eq!(table.distances()[255], 2);
///
/// let mut measured = [0; 256];
/// measured[1] = 600;
/// assert_eq!(DisparityTable::from(measured).distances()[..2], [0, 600]);
///
/// let refusal = DisparityTable::new(0).unwrap_err();
/// assert_eq!(refusal.number, Refusal::ZERO_CONSTANT);
/// # Ok::<(), Refusal>(())
/// ```
#[derive(Clone, Copy, Debug, PartialEq, Eq, Hash)]
pub struct DisparityTable([u32; 256]);

impl DisparityTable {
    /// The table of a device constant, from 1 to 4,294,967,295: disparity 0 has the distance 0, where
    /// nothing was measured, and every other one the constant divided by it, rounded down, but at least 1.
    /// Refusal 19 where the constant is 0.
    pub fn new(constant: u32) -> Result<DisparityTable, Refusal> {
        let mut table = [0; 256];
        let mut refusal = Refusal::default();
        match raw::fill_table(constant, &mut table, &mut refusal) {
            0 => Ok(DisparityTable(table)),
            _ => Err(refusal),
        }
    }

    /// The distance of each disparity.
    pub const fn distances(&self) -> &[u32; 256] {
        &self.0
    }
}

impl From<[u32; 256]> for DisparityTable {
    fn from(distances: [u32; 256]) -> DisparityTable {
        DisparityTable(distances)
    }
}

/// The file of the map that a table makes of a frame of disparities, to the front of `out`: the distance
/// at each slot is the table's for the frame's disparity there. Answers its summary. Refusals 3 with map 1
/// for a frame of more than 1,048,576 disparities, then 12. Into [`longest_file`](crate::longest_file) bytes
/// or more it may be faster.
///
/// ```
/// use pciv::DisparityTable;
///
/// let table = DisparityTable::new(510)?; // once for a device
/// let frame = [0, 1, 2, 3, 255];
///
/// let mut file = vec![0; pciv::longest_file(frame.len() as u64)];
/// let summary = pciv::map_of_frame(&frame, &table, &mut file)?;
/// file.truncate(summary.len as usize);
/// assert_eq!((summary.n, summary.k, summary.len, summary.sum), (5, 2, 69, 937));
///
/// let mut distances = [0; 5];
/// pciv::scan(&file, &mut distances)?;
/// assert_eq!(distances, [0, 510, 255, 170, 2]);
/// # Ok::<(), pciv::Refusal>(())
/// ```
pub fn map_of_frame(
    frame: &[u8],
    table: &DisparityTable,
    out: &mut [u8],
) -> Result<Summary, Refusal> {
    answer(|summary, refusal| raw::map_of_frame(frame, &table.0, out, summary, refusal))
}

#[cfg(test)]
mod tests {
    use super::*;

    #[test]
    fn a_device_constant_of_zero_is_refused_with_zeros() {
        let mut table = [7; 256];
        let mut refusal = Refusal::default();
        assert_eq!(raw::fill_table(0, &mut table, &mut refusal), 19);
        assert_eq!((refusal.number, refusal.map, refusal.place), (19, 0, 0));
        assert_eq!(table, [0; 256]);
    }

    #[test]
    fn any_table_makes_a_map() {
        let mut out = [7; 43];
        let zeros = DisparityTable::from([0; 256]);
        assert_eq!(map_of_frame(&[9, 0], &zeros, &mut out).unwrap().sum, 0);
        assert_eq!(out[40..], [0, 0, 7]);
    }

    #[test]
    fn refused_buffers_are_unchanged() {
        let mut out = [7; 68];
        let table = DisparityTable::new(510).unwrap();
        let refusal = map_of_frame(&[0, 1, 2, 3, 255], &table, &mut out).unwrap_err();
        assert_eq!(
            (refusal.number, refusal.map),
            (Refusal::BUFFER_TOO_SMALL, 0)
        );
        let refusal = map_of_frame(&vec![1; 1_048_577], &table, &mut out).unwrap_err();
        assert_eq!((refusal.number, refusal.map), (Refusal::TOO_MANY_SLOTS, 1));
        assert_eq!(out, [7; 68]);
    }
}
