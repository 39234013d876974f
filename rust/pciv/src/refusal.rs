//! Refusals and what they mean.

use std::fmt;

/// Why a call was refused: the number of the rule, the map at fault and the place.
///
/// ```
/// let refusal = pciv::check(b"PCIV").unwrap_err();
/// assert_eq!((refusal.number, refusal.map, refusal.place), (1, 1, 0));
/// assert_eq!(
///     refusal.to_string(),
///     "refused 1 map 1 place 0: the file has fewer than 40 bytes"
/// );
/// ```
#[repr(C)]
#[derive(Clone, Copy, Debug, Default, PartialEq, Eq, Hash)]
pub struct Refusal {
    /// Number of the rule, one of the constants below.
    pub number: u64,
    /// The file, or the frame of a [`bundle`](crate::bundle), at fault, counted from 1; 0 for a fault of
    /// the call or of a bundle as a whole.
    pub map: u64,
    /// The entry, slot, position, record or frame that the rule names, 0 where it names none.
    pub place: u64,
}

/// The numbers, as in `include/pciv.h`.
///
/// ```
/// use pciv::Refusal;
///
/// let file = include_bytes!("../../../examples/map-a.pciv");
/// let distance = match pciv::lookup(file, 4) {
///     Err(Refusal { number: Refusal::SLOT_OUT_OF_RANGE, .. }) => None,
///     other => Some(other?.distance),
/// };
/// assert_eq!(distance, None);
/// # Ok::<(), Refusal>(())
/// ```
impl Refusal {
    /// A file has fewer than 40 bytes.
    pub const TRUNCATED_HEADER: u64 = 1;
    /// The first eight bytes of a file are not "PCIV" and four zeros.
    pub const BAD_MAGIC: u64 = 2;
    /// There are more than 1,048,576 slots.
    pub const TOO_MANY_SLOTS: u64 = 3;
    /// k is above n, or step or m is not the one that k gives. For [`repair`](crate::repair) the `k`
    /// given is above the `n` given.
    pub const BAD_COUNTS: u64 = 4;
    /// A file is not as long as n, k and m say; a buffer to be edited is shorter than that; a file to be
    /// repaired ends before its overflow entries do.
    pub const BAD_LENGTH: u64 = 5;
    /// An overflow entry breaks a rule; the place is the least such entry.
    pub const BAD_OVERFLOW_ENTRY: u64 = 6;
    /// A primary byte 255 has no overflow entry; the place is the least such slot.
    pub const MISSING_OVERFLOW_ENTRY: u64 = 7;
    /// An entry of the sparse index is wrong; the place is the least such index entry.
    pub const BAD_INDEX_ENTRY: u64 = 8;
    /// A slot asked for is n or more, or the lists of [`edit_list`](crate::edit_list) differ in
    /// length; for a list the place is the least such position in it.
    pub const SLOT_OUT_OF_RANGE: u64 = 9;
    /// Two maps differ in n; for a [`bundle`](crate::bundle), a frame's n is not the slot count, or frame
    /// 1's n where it is written, and the place is the least such frame, from 1.
    pub const SIZE_MISMATCH: u64 = 10;
    /// A resulting distance is above 4,294,967,295; the place is the least such slot.
    pub const DISTANCE_OVERFLOW: u64 = 11;
    /// The result does not fit into the caller's buffer. [`longest_file`](crate::longest_file) and
    /// [`file_len`](crate::file_len) say how long a file can be and is.
    pub const BUFFER_TOO_SMALL: u64 = 12;
    /// A mask has another number of words than n needs, or a bit set past n.
    pub const BAD_MASK: u64 = 13;
    /// A record of a [`bundle`](crate::bundle) is cut short, has a length below 2, stands first without
    /// kind 0, length 8 and a frame count of 1 to 8, has kind 0 later, or is a frame too many; the place is
    /// the least such record, from 0. Or no record is at fault, and records or frames are missing; the place
    /// is the number of records. Or [`bundle::write`](crate::bundle::write) is given no frame, or more than
    /// eight.
    pub const BAD_BUNDLE: u64 = 14;
    /// The device constant of a [`DisparityTable`](crate::DisparityTable) is 0.
    pub const ZERO_CONSTANT: u64 = 19;
}

/// What a refusal's number means, in words; "unknown refusal" for a number that there is not. "That
/// place" is the refusal's. [`Refusal`] prints them behind its three numbers.
///
/// ```
/// use pciv::Refusal;
///
/// let words = pciv::refusal_text(Refusal::BUFFER_TOO_SMALL);
/// assert_eq!(words, "the result does not fit into the buffer");
/// ```
pub const fn refusal_text(number: u64) -> &'static str {
    match number {
        0 => "not refused",
        Refusal::TRUNCATED_HEADER => "the file has fewer than 40 bytes",
        Refusal::BAD_MAGIC => "the first eight bytes are not \"PCIV\" and four zeros",
        Refusal::TOO_MANY_SLOTS => "more than 1,048,576 slots",
        Refusal::BAD_COUNTS => "the counts k, m and step do not fit n or each other",
        Refusal::BAD_LENGTH => "the file is not as long as its header says",
        Refusal::BAD_OVERFLOW_ENTRY => {
            "the overflow entry at that place has a slot out of range or order, \
             a distance below 255, or no 255 in the primary array"
        }
        Refusal::MISSING_OVERFLOW_ENTRY => {
            "the slot at that place is marked 255 and has no overflow entry"
        }
        Refusal::BAD_INDEX_ENTRY => "the index entry at that place is wrong",
        Refusal::SLOT_OUT_OF_RANGE => {
            "the slot asked for, of a list the one at that place, is n or more, \
             or only one of two lists has that place"
        }
        Refusal::SIZE_MISMATCH => {
            "the two maps, or the frame at that place and its bundle, \
             differ in their number of slots"
        }
        Refusal::DISTANCE_OVERFLOW => "the distance at that place would be above 4,294,967,295",
        Refusal::BUFFER_TOO_SMALL => "the result does not fit into the buffer",
        Refusal::BAD_MASK => "the mask has a wrong number of words or a bit set past n",
        Refusal::BAD_BUNDLE => {
            "the record at that place of the bundle is wrong or missing, \
             or the frames to be written are not one to eight"
        }
        Refusal::ZERO_CONSTANT => "the device constant is 0",
        _ => "unknown refusal",
    }
}

impl std::error::Error for Refusal {}

impl fmt::Display for Refusal {
    fn fmt(&self, f: &mut fmt::Formatter) -> fmt::Result {
        let Refusal { number, map, place } = self;
        let words = refusal_text(*number);
        write!(f, "refused {number} map {map} place {place}: {words}")
    }
}

#[cfg(test)]
mod tests {
    use super::*;

    #[test]
    fn every_number_has_words() {
        let unknown = refusal_text(15);
        assert_eq!(
            (unknown, refusal_text(u64::MAX)),
            ("unknown refusal", unknown)
        );
        let all = (0..=14).chain([19]);
        for number in all.clone() {
            let words = refusal_text(number);
            assert_ne!(words, unknown);
            assert!(all
                .clone()
                .all(|other| other == number || refusal_text(other) != words));
        }
    }

    #[test]
    fn words_follow_the_three_numbers() {
        let refusal = Refusal {
            number: Refusal::BAD_INDEX_ENTRY,
            map: 2,
            place: 77,
        };
        let text = "refused 8 map 2 place 77: the index entry at that place is wrong";
        assert_eq!(refusal.to_string(), text);
    }
}
