//! The numbers of the layout and its little-endian fields.

/// Bytes before the primary array.
pub const HEADER_LEN: usize = 40;
/// The most slots that a file may have.
pub const MAX_SLOTS: u64 = 1_048_576;
/// The primary byte of a slot whose distance is in overflow.
pub const SENTINEL: u8 = 255;

pub(crate) const MAGIC: [u8; 8] = *b"PCIV\0\0\0\0";
/// Up to this many overflow entries a file has no sparse index, and no index is longer.
const INDEX_TARGET: u64 = 2_048;

/// Bytes of an overflow entry: slot (8), distance (4).
pub(crate) const OVERFLOW_ENTRY_LEN: usize = 12;
/// Bytes of an index entry: slot (8), number of the overflow entry (8).
pub(crate) const INDEX_ENTRY_LEN: usize = 16;

pub(crate) type OverflowBytes = [u8; OVERFLOW_ENTRY_LEN];
pub(crate) type IndexBytes = [u8; INDEX_ENTRY_LEN];

/// The step of the sparse index of a file with `k` overflow entries; 0 for no index.
pub fn index_step(k: u64) -> u64 {
    if k <= INDEX_TARGET {
        0
    } else {
        k.div_ceil(INDEX_TARGET)
    }
}

/// How many entries that index has.
pub fn index_len(k: u64) -> u64 {
    match index_step(k) {
        0 => 0,
        step => k.div_ceil(step),
    }
}

/// The length in bytes of a file with `n` slots and `k` overflow entries, `k <= n <= MAX_SLOTS`.
pub fn file_len(n: u64, k: u64) -> u64 {
    HEADER_LEN as u64 + n + OVERFLOW_ENTRY_LEN as u64 * k + INDEX_ENTRY_LEN as u64 * index_len(k)
}

pub(crate) fn le64(bytes: &[u8]) -> u64 {
    u64::from_le_bytes(bytes.try_into().expect("eight bytes"))
}

pub(crate) fn le32(bytes: &[u8]) -> u32 {
    u32::from_le_bytes(bytes.try_into().expect("four bytes"))
}

pub(crate) fn overflow_slot(entry: &OverflowBytes) -> u64 {
    le64(&entry[..8])
}

pub(crate) fn overflow_distance(entry: &OverflowBytes) -> u32 {
    le32(&entry[8..])
}

pub(crate) fn index_slot(entry: &IndexBytes) -> u64 {
    le64(&entry[..8])
}

pub(crate) fn index_position(entry: &IndexBytes) -> u64 {
    le64(&entry[8..])
}

#[cfg(test)]
mod tests {
    use super::*;

    #[test]
    fn length_table() {
        let rows = [
            (5_000, 2_048, 0, 0, 29_616),
            (5_000, 2_049, 2, 1_025, 46_028),
            (5_000, 4_096, 2, 2_048, 86_960),
            (5_000, 4_097, 3, 1_366, 76_060),
            (1_048_576, 1_048_576, 512, 2_048, 13_664_296),
        ];
        for (n, k, step, m, len) in rows {
            assert_eq!(
                (index_step(k), index_len(k), file_len(n, k)),
                (step, m, len)
            );
        }
    }

    #[test]
    fn empty_map_is_a_header() {
        assert_eq!(file_len(0, 0), 40);
    }
}
