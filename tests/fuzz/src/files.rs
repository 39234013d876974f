//! Lists and files that an input describes: sound ones, damaged ones, and any bytes.

use crate::input::Input;
use reference::{index_len, index_step, HEADER_LEN};

/// Lists are up to this long, so that the sparse index has steps 0 to 3.
const MAX_LIST: usize = 6_200;

/// Next to these numbers of overflow entries the step changes.
const STEP_BORDERS: [usize; 2] = [2_044, 4_092];

/// A list: a few distances over and over, then some of them changed.
pub fn list(input: &mut Input, len: Option<usize>) -> Vec<u32> {
    let n = match (len, input.byte()) {
        (Some(len), 0..=223) => len,
        (_, code @ 0..=99) => usize::from(code % 20),
        (_, 100..=199) => input.below(256),
        (_, 200..=223) => input.below(MAX_LIST),
        (_, code) => STEP_BORDERS[usize::from(code) % 2] + input.below(16),
    };
    let count = 1 + input.below(12);
    let pattern: Vec<u32> = (0..count).map(|_| input.distance()).collect();
    let mut list: Vec<u32> = pattern.into_iter().cycle().take(n).collect();
    for _ in 0..input.below(8) {
        let (at, distance) = (place(input, n), input.distance());
        if n > 0 {
            list[at] = distance;
        }
    }
    list
}

/// A file: that of a list, perhaps damaged, or bytes as they come. A length is a wish for the list.
pub fn file(input: &mut Input, len: Option<usize>) -> Vec<u8> {
    match input.byte() {
        0..=119 => encode(&list(input, len)),
        120..=219 => {
            let mut file = encode(&list(input, len));
            for _ in 0..1 + input.below(3) {
                damage(input, &mut file);
            }
            file
        }
        _ => {
            let len = input.below(1_024);
            input.bytes(len).to_vec()
        }
    }
}

/// The file of a list.
pub fn encode(list: &[u32]) -> Vec<u8> {
    reference::encode(list).expect("few slots")
}

/// The slots of a file if its header is to be believed, no more than it has bytes.
pub fn claimed_slots(file: &[u8]) -> usize {
    (field(file, 8) as usize).min(file.len().saturating_sub(HEADER_LEN))
}

/// The overflow entries of a file if its header is to be believed, no more than it has bytes.
pub fn claimed_entries(file: &[u8]) -> usize {
    (field(file, 16) as usize).min(file.len())
}

fn field(file: &[u8], at: usize) -> u64 {
    let bytes = file.get(at..at + 8).map(|bytes| bytes.try_into());
    bytes.map_or(0, |bytes| u64::from_le_bytes(bytes.expect("eight bytes")))
}

/// Puts bytes to a place, where there is enough of it.
pub fn put(file: &mut [u8], at: usize, bytes: &[u8]) {
    if let Some(place) = file.get_mut(at..at + bytes.len()) {
        place.copy_from_slice(bytes);
    }
}

/// The place of one of so many: the first, the last, or any.
fn place(input: &mut Input, count: usize) -> usize {
    match input.byte() {
        0..=63 => 0,
        64..=127 => count.saturating_sub(1),
        _ => input.below(65_536) % count.max(1),
    }
}

/// Damages a file: a byte, a field of the header, an overflow entry, an index entry, the length, or
/// n and k with the counts that they give.
pub fn damage(input: &mut Input, file: &mut Vec<u8>) {
    let (n, k) = (claimed_slots(file), field(file, 16) as usize % (1 << 20));
    let telling = [n as u64, k as u64, field(file, 24), field(file, 32)];
    let entries = HEADER_LEN + n;
    match input.byte() % 8 {
        0 => {
            let (at, byte) = (place(input, file.len()), input.byte());
            put(file, at, &[byte]);
        }
        1 => {
            let at = 8 * input.below(5);
            put(file, at, &input.number(&telling).to_le_bytes());
        }
        2 => {
            let at = entries + 12 * place(input, k);
            let slot = field(file, at);
            put(file, at, &input.number(&[slot, n as u64]).to_le_bytes());
        }
        3 => {
            let at = entries + 12 * place(input, k) + 8;
            put(file, at, &input.distance().to_le_bytes());
        }
        4 => {
            let m = field(file, 24) as usize % (1 << 20);
            let at = entries + 12 * k + 16 * place(input, m) + 8 * input.below(2);
            let number = field(file, at);
            put(file, at, &input.number(&[number, n as u64]).to_le_bytes());
        }
        5 => {
            let len = file.len();
            let keep = input.number(&[len as u64, HEADER_LEN as u64]) as usize;
            file.resize(keep.min(len + 100), input.byte());
        }
        6 => {
            let k = input.number(&telling) % (1 << 20);
            put(file, 16, &k.to_le_bytes());
            put(file, 24, &index_len(k).to_le_bytes());
            put(file, 32, &index_step(k).to_le_bytes());
        }
        _ => {
            let at = HEADER_LEN + place(input, n);
            put(file, at, &[input.byte()]);
        }
    }
}
