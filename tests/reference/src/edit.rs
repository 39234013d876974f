//! The editor: one slot of the file at the front of a buffer gets another distance, in place. And
//! the plain editor of a run, which keeps a list.

use crate::entries::Entry;
use crate::layout::{HEADER_LEN, OVERFLOW_ENTRY_LEN, SENTINEL};
use crate::write::{encode, is_overflow, write_parts};
use crate::{file_len, require_capacity, Map, Refusal, Summary};

/// What an edit has done.
#[derive(Clone, Copy, Debug, PartialEq, Eq)]
pub struct Edited {
    /// The summary of the new file.
    pub summary: Summary,
    /// How many overflow entries of other slots have another number in it than in the old one.
    pub moved: u64,
}

/// Sets `slot` to `distance` in the file at the front of `buffer`. Refusals 1 to 8, then 9, 12.
/// What a shorter file leaves free becomes 0.
pub fn edit(buffer: &mut [u8], slot: u64, distance: u32) -> Result<Edited, Refusal> {
    let map = Map::open_front(buffer)?;
    let (n, k) = (map.n(), map.k());
    if slot >= n {
        return Err(Refusal::of_call(9, 0));
    }
    let at = HEADER_LEN + slot as usize;
    let entries_before = || map.entries().take_while(|entry| entry.slot < slot).count();
    match (buffer[at] == SENTINEL, is_overflow(distance)) {
        (false, false) => buffer[at] = distance as u8,
        (true, true) => {
            let at = HEADER_LEN + n as usize + OVERFLOW_ENTRY_LEN * entries_before() + 8;
            buffer[at..at + 4].copy_from_slice(&distance.to_le_bytes());
        }
        (false, true) => {
            let mut entries: Vec<Entry> = map.entries().collect();
            entries.insert(entries_before(), Entry { slot, distance });
            return rewrite(buffer, (n, k), slot, SENTINEL, &entries);
        }
        (true, false) => {
            let mut entries: Vec<Entry> = map.entries().collect();
            entries.remove(entries_before());
            return rewrite(buffer, (n, k), slot, distance as u8, &entries);
        }
    }
    Ok(Edited {
        summary: front(buffer, n, k).summary(),
        moved: 0,
    })
}

/// Writes the file with one other primary byte and other entries in the place of the old one, which
/// had `n` slots and `k` entries.
fn rewrite(
    buffer: &mut [u8],
    (n, k): (u64, u64),
    slot: u64,
    byte: u8,
    entries: &[Entry],
) -> Result<Edited, Refusal> {
    let old_slots = entry_slots(front(buffer, n, k));
    let mut primary = buffer[HEADER_LEN..HEADER_LEN + n as usize].to_vec();
    primary[slot as usize] = byte;
    let len = write_parts(&primary, entries.iter().copied(), buffer)?.len;
    let old_len = file_len(n, k);
    if len < old_len {
        buffer[len as usize..old_len as usize].fill(0);
    }
    let new = front(buffer, n, entries.len() as u64);
    Ok(Edited {
        summary: new.summary(),
        moved: count_moved(&old_slots, &entry_slots(new)),
    })
}

/// The file at the front of a buffer, which is known to be sound.
fn front(buffer: &[u8], n: u64, k: u64) -> Map<'_> {
    Map::split(&buffer[..file_len(n, k) as usize], n, k)
}

/// The slots of the entries of a file.
fn entry_slots(file: Map) -> Vec<u64> {
    file.entries().map(|entry| entry.slot).collect()
}

/// How many entries of other slots have another number than before: a walk over the slots of all
/// entries, those of the old file and those of the new one. The edited slot is in one of the lists
/// alone. So the shorter list has the other slots and no more; those that stand at the same place in
/// both lists have kept their number.
fn count_moved(old: &[u64], new: &[u64]) -> u64 {
    let others = old.len().min(new.len());
    let kept = old.iter().zip(new).filter(|(old, new)| old == new).count();
    (others - kept) as u64
}

/// How many numbers tell the answer to one edit of a list: those of the refusal, then those of the
/// summary, then how many entries have moved.
pub const ANSWER_LEN: usize = 10;

/// Makes the edits `slots[j]` to `distances[j]` in order on the file at the front of `buffer`, by
/// the plain editor; the answer to each goes to `answers`. Refusals 1 to 8, 9 with the first
/// position that only one list has, 12 where `answers` is too short. Answers how many edits there
/// are.
pub fn edit_list(
    buffer: &mut [u8],
    slots: &[u64],
    distances: &[u32],
    answers: &mut [u64],
) -> Result<u64, Refusal> {
    let list = Map::open_front(buffer)?.distances().collect();
    if slots.len() != distances.len() {
        let paired = slots.len().min(distances.len());
        return Err(Refusal::of_call(9, paired as u64));
    }
    require_capacity(ANSWER_LEN * slots.len(), answers.len())?;
    let mut editor = PlainEditor::new(list, buffer.len());
    let edits = slots.iter().zip(distances);
    for (answer, (&slot, &distance)) in answers.chunks_exact_mut(ANSWER_LEN).zip(edits) {
        answer.copy_from_slice(&answer_numbers(editor.edit(slot, distance)));
    }
    editor.fill(buffer);
    Ok(slots.len() as u64)
}

fn answer_numbers(answer: Result<Edited, Refusal>) -> [u64; ANSWER_LEN] {
    match answer {
        Ok(Edited { summary, moved }) => {
            let Summary {
                n,
                k,
                m,
                step,
                len,
                sum,
            } = summary;
            [0, 0, 0, n, k, m, step, len, sum, moved]
        }
        Err(Refusal { number, map, place }) => [number, map, place, 0, 0, 0, 0, 0, 0, 0],
    }
}

/// The plain editor: a list, its slots in overflow in rising order, its sum, the capacity of the
/// buffer, and the length of the longest file yet.
pub struct PlainEditor {
    list: Vec<u32>,
    overflow: Vec<u32>,
    sum: u64,
    capacity: usize,
    filled: usize,
}

impl PlainEditor {
    /// An editor that starts from a list of at most 1,048,576 distances.
    pub fn new(list: Vec<u32>, capacity: usize) -> PlainEditor {
        let slots = (0u32..).zip(&list);
        let overflow: Vec<u32> = slots
            .filter(|(_, &distance)| is_overflow(distance))
            .map(|(slot, _)| slot)
            .collect();
        PlainEditor {
            capacity,
            filled: file_len(list.len() as u64, overflow.len() as u64) as usize,
            sum: list.iter().copied().map(u64::from).sum(),
            list,
            overflow,
        }
    }

    /// The list as it is now.
    pub fn list(&self) -> &[u32] {
        &self.list
    }

    /// One edit. Refusals 9, 12.
    pub fn edit(&mut self, slot: u64, distance: u32) -> Result<Edited, Refusal> {
        let n = self.list.len() as u64;
        if slot >= n {
            return Err(Refusal::of_call(9, 0));
        }
        let place = &mut self.list[slot as usize];
        let [was, is] = [*place, distance].map(is_overflow);
        let k = self.overflow.len() as u64 - u64::from(was) + u64::from(is);
        let sum = self.sum - u64::from(*place) + u64::from(distance);
        let summary = Summary::of(n, k, sum);
        require_capacity(summary.len as usize, self.capacity)?;
        *place = distance;
        self.sum = sum;
        self.filled = self.filled.max(summary.len as usize);
        let moved = if was == is { 0 } else { self.renumber(slot) };
        Ok(Edited { summary, moved })
    }

    /// Takes a slot to the slots in overflow, or away from them. Answers how many of them are larger.
    fn renumber(&mut self, slot: u64) -> u64 {
        let slot = slot as u32;
        let larger = match self.overflow.binary_search(&slot) {
            Ok(place) => {
                self.overflow.remove(place);
                self.overflow.len() - place
            }
            Err(place) => {
                self.overflow.insert(place, slot);
                self.overflow.len() - place - 1
            }
        };
        larger as u64
    }

    /// Gives a buffer what it has to hold: the list's file, then zeros up to the length of the
    /// longest file yet; what follows stays.
    pub fn fill(&self, buffer: &mut [u8]) {
        let file = encode(&self.list).expect("few slots");
        buffer[..file.len()].copy_from_slice(&file);
        buffer[file.len()..self.filled].fill(0);
    }
}

#[cfg(test)]
mod tests {
    use super::*;

    const MAP_A: [u32; 4] = [0, 254, 255, 300];

    fn map_a(capacity: usize) -> Vec<u8> {
        let mut buffer = encode(&MAP_A).unwrap();
        buffer.resize(capacity, 7);
        buffer
    }

    #[test]
    fn worked_example_out_of_overflow() {
        let mut buffer = map_a(70);
        let edited = edit(&mut buffer, 2, 254).unwrap();
        assert_eq!((edited.summary.len, edited.summary.sum), (56, 808));
        assert_eq!(buffer[..56], encode(&[0, 254, 254, 300]).unwrap());
        assert_eq!(buffer[56..68], [0; 12]);
        assert_eq!(buffer[68..], [7; 2]);
    }

    #[test]
    fn worked_example_into_overflow() {
        let mut buffer = map_a(79);
        let before = buffer.clone();
        assert_eq!(edit(&mut buffer, 1, 255), Err(Refusal::of_call(12, 0)));
        assert_eq!(buffer, before);
        let mut buffer = map_a(80);
        assert_eq!(edit(&mut buffer, 1, 255).unwrap().summary.len, 80);
        assert_eq!(buffer, encode(&[0, 255, 255, 300]).unwrap());
    }

    #[test]
    fn one_entry_fewer_may_need_more_bytes() {
        let mut list = vec![7; 5_000];
        list[..4_097].fill(900);
        let file = encode(&list).unwrap();
        let mut buffer = file.clone();
        buffer.resize(file.len() + 10_899, 7);
        let before = buffer.clone();
        assert_eq!(edit(&mut buffer, 3, 0), Err(Refusal::of_call(12, 0)));
        assert_eq!(buffer, before);
        buffer.push(7);
        let edited = edit(&mut buffer, 3, 0).unwrap();
        assert_eq!((edited.summary.k, edited.moved), (4_096, 4_093));
    }

    /// The answer to an edit of A, by each of the editors.
    fn answer_in_a(capacity: usize, slot: u64, distance: u32) -> [u64; ANSWER_LEN] {
        let alone = answer_numbers(edit(&mut map_a(capacity), slot, distance));
        let mut plain = PlainEditor::new(MAP_A.to_vec(), capacity);
        assert_eq!(answer_numbers(plain.edit(slot, distance)), alone);
        alone
    }

    #[test]
    fn answers_in_their_order() {
        assert_eq!(answer_in_a(80, 2, 254), [0, 0, 0, 4, 1, 0, 0, 56, 808, 1]);
        assert_eq!(answer_in_a(79, 1, 255), [12, 0, 0, 0, 0, 0, 0, 0, 0, 0]);
        assert_eq!(answer_in_a(80, 4, 400), [9, 0, 0, 0, 0, 0, 0, 0, 0, 0]);
    }

    #[test]
    fn entries_that_edits_of_map_a_move() {
        let moved = |capacity, slot, distance| answer_in_a(capacity, slot, distance)[9];
        assert_eq!(moved(80, 2, 254), 1);
        assert_eq!(moved(80, 1, 255), 2);
        assert_eq!(moved(79, 1, 255), 0);
        assert_eq!(moved(80, 3, 7), 0);
        assert_eq!(moved(80, 3, 400), 0);
        assert_eq!(moved(80, 1, 7), 0);
        assert_eq!(moved(80, 4, 400), 0);
    }

    #[test]
    fn sums_after_edits_of_map_a() {
        let sum = |capacity, slot, distance| answer_in_a(capacity, slot, distance)[8];
        assert_eq!(sum(80, 2, 254), 808);
        assert_eq!(sum(80, 1, 255), 810);
        assert_eq!(sum(79, 1, 255), 0);
        assert_eq!(sum(80, 3, 7), 516);
        assert_eq!(sum(80, 3, 400), 909);
        assert_eq!(sum(80, 1, 7), 562);
        assert_eq!(sum(80, 0, 0), 809);
        assert_eq!(sum(80, 3, 300), 809);
        assert_eq!(sum(80, 0, u32::MAX), 4_294_968_104);
        assert_eq!(sum(80, 4, 400), 0);
    }

    #[test]
    fn moved_entries_have_other_numbers() {
        assert_eq!(count_moved(&[2, 3, 5], &[2, 3, 4, 5]), 1);
        assert_eq!(count_moved(&[2, 3, 5], &[0, 2, 3, 5]), 3);
        assert_eq!(count_moved(&[2, 3, 5], &[2, 3, 5, 9]), 0);
        assert_eq!(count_moved(&[2, 3, 5], &[3, 5]), 2);
        assert_eq!(count_moved(&[2, 3, 5], &[2, 5]), 1);
        assert_eq!(count_moved(&[2, 3, 5], &[2, 3]), 0);
        assert_eq!(count_moved(&[7], &[]), 0);
        assert_eq!(count_moved(&[], &[7]), 0);
    }

    #[test]
    fn a_list_of_edits_is_the_edits_in_turn() {
        let (slots, distances) = ([1, 9, 2, 1], [255, 0, 1, 3]);
        let mut buffer = map_a(81);
        let mut answers = [7; 41];
        let list = edit_list(&mut buffer, &slots, &distances, &mut answers);
        assert_eq!(list, Ok(4));
        let mut single = map_a(81);
        for (j, (slot, distance)) in slots.into_iter().zip(distances).enumerate() {
            let answer = answer_numbers(edit(&mut single, slot, distance));
            assert_eq!(answers[10 * j..10 * j + 10], answer);
        }
        assert_eq!(buffer, single);
        assert_eq!([8, 18, 28, 38].map(|at| answers[at]), [810, 0, 556, 304]);
        assert_eq!([9, 19, 29, 39, 40].map(|at| answers[at]), [2, 0, 1, 1, 7]);
    }
}
