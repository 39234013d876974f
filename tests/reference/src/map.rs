//! A checked file and the questions asked of it.

use crate::entries::{check_entries, check_sentinels, Entry};
use crate::layout::{
    file_len, index_len, index_position, index_slot, index_step, le64, overflow_distance,
    overflow_slot, IndexBytes, OverflowBytes, HEADER_LEN, INDEX_ENTRY_LEN, MAGIC, MAX_SLOTS,
    OVERFLOW_ENTRY_LEN, SENTINEL,
};
use crate::{require_capacity, Refusal, Summary};
use std::ops::Range;

/// Where a distance is stored.
#[derive(Clone, Copy, Debug, PartialEq, Eq)]
pub enum Origin {
    /// In the primary array.
    Inline,
    /// In the overflow entry with this number, counted from 0.
    Overflow(u64),
}

/// The distance at a slot, and where it is stored.
#[derive(Clone, Copy, Debug, PartialEq, Eq)]
pub struct Located {
    /// The distance.
    pub distance: u32,
    /// Where it is stored.
    pub origin: Origin,
}

impl Located {
    /// The distance and the number of its entry as lists have it, in a map with `k` overflow
    /// entries: k for an inline distance.
    fn numbered(self, k: u64) -> (u32, u64) {
        match self.origin {
            Origin::Inline => (self.distance, k),
            Origin::Overflow(entry) => (self.distance, entry),
        }
    }
}

/// The parts of a file that passed every rule.
#[derive(Clone, Copy, Debug)]
pub struct Map<'a> {
    primary: &'a [u8],
    overflow: &'a [OverflowBytes],
    index: &'a [IndexBytes],
}

impl<'a> Map<'a> {
    /// Checks a whole file: refusals 1 to 8, in this order.
    pub fn open(file: &'a [u8]) -> Result<Map<'a>, Refusal> {
        let (n, k) = read_header(file)?;
        if file.len() as u64 != file_len(n, k) {
            return Err(Refusal::of_file(5, 0));
        }
        let map = Map::split(file, n, k);
        check_entries(map.primary, map.entries())?;
        check_sentinels(map.primary, map.entries())?;
        map.check_index()?;
        Ok(map)
    }

    /// Checks the file at the front of a buffer: refusals 1 to 8, and 5 only where the buffer is
    /// shorter than the file.
    pub fn open_front(buffer: &'a [u8]) -> Result<Map<'a>, Refusal> {
        let (n, k) = read_header(buffer)?;
        let file = buffer.get(..file_len(n, k) as usize);
        Map::open(file.ok_or(Refusal::of_file(5, 0))?)
    }

    /// Splits a file of the right length into its parts.
    pub(crate) fn split(file: &'a [u8], n: u64, k: u64) -> Map<'a> {
        let (primary, rest) = file[HEADER_LEN..].split_at(n as usize);
        let (overflow, index) = rest.split_at(OVERFLOW_ENTRY_LEN * k as usize);
        Map {
            primary,
            overflow: overflow.as_chunks().0,
            index: index.as_chunks::<INDEX_ENTRY_LEN>().0,
        }
    }

    /// Refusal 8: index entry i is the slot of overflow entry i × step, then i × step.
    fn check_index(&self) -> Result<(), Refusal> {
        // Without an index there is nothing to compare, whatever the step of the walk.
        let step = index_step(self.k()).max(1) as usize;
        let indexed = (0u64..).zip(self.overflow).step_by(step);
        for (place, (entry, (position, indexed))) in (0u64..).zip(self.index.iter().zip(indexed)) {
            if index_slot(entry) != overflow_slot(indexed) || index_position(entry) != position {
                return Err(Refusal::of_file(8, place));
            }
        }
        Ok(())
    }

    /// The overflow entries.
    pub(crate) fn entries(&self) -> impl ExactSizeIterator<Item = Entry> + 'a {
        self.overflow.iter().map(|entry| Entry {
            slot: overflow_slot(entry),
            distance: overflow_distance(entry),
        })
    }

    /// Number of slots.
    pub(crate) fn n(&self) -> u64 {
        self.primary.len() as u64
    }

    /// Number of overflow entries.
    pub(crate) fn k(&self) -> u64 {
        self.overflow.len() as u64
    }

    /// The header's counts, the file's length, and the sum of the list.
    pub fn summary(&self) -> Summary {
        Summary::of(self.n(), self.k(), self.sum())
    }

    /// The primary array.
    pub fn primary(&self) -> &'a [u8] {
        self.primary
    }

    /// All distances in order of their slots: a merge of the primary array and the overflow
    /// entries.
    pub fn distances(&self) -> impl Iterator<Item = u32> + 'a {
        let mut entries = self.overflow.iter();
        self.primary.iter().map(move |&byte| match byte {
            SENTINEL => overflow_distance(entries.next().expect("an entry for each sentinel")),
            inline => u32::from(inline),
        })
    }

    /// The sum of all distances.
    pub fn sum(&self) -> u64 {
        self.distances().map(u64::from).sum()
    }

    /// The number of readings, the distances that are not 0.
    pub fn readings(&self) -> u64 {
        self.distances().filter(|&distance| distance != 0).count() as u64
    }

    /// The distance at a slot, and where it is stored. Refusal 9 for a slot outside.
    pub(crate) fn lookup(&self, slot: u64) -> Result<Located, Refusal> {
        if slot >= self.n() {
            return Err(Refusal::of_call(9, 0));
        }
        Ok(self.located(slot))
    }

    /// The same at a slot below n.
    fn located(&self, slot: u64) -> Located {
        match self.primary[slot as usize] {
            SENTINEL => self.located_in_overflow(slot),
            inline => Located {
                distance: u32::from(inline),
                origin: Origin::Inline,
            },
        }
    }

    /// The same at a slot in overflow.
    fn located_in_overflow(&self, slot: u64) -> Located {
        let block = self.overflow_block(slot);
        let at = self.overflow[block.clone()]
            .binary_search_by_key(&slot, overflow_slot)
            .expect("an entry for each sentinel");
        let entry = block.start + at;
        Located {
            distance: overflow_distance(&self.overflow[entry]),
            origin: Origin::Overflow(entry as u64),
        }
    }

    /// The overflow entries among which that of `slot` is: from the last index entry at or before
    /// the slot to the next one, or all without an index.
    fn overflow_block(&self, slot: u64) -> Range<usize> {
        let reached = self
            .index
            .partition_point(|entry| index_slot(entry) <= slot);
        let start = match reached {
            0 => 0,
            _ => index_position(&self.index[reached - 1]) as usize,
        };
        let end = match self.index.get(reached) {
            Some(next) => index_position(next) as usize,
            None => self.overflow.len(),
        };
        start..end
    }
}

/// Reads the header: refusals 1 to 4. Answers the numbers of slots and of overflow entries.
fn read_header(file: &[u8]) -> Result<(u64, u64), Refusal> {
    let header = file.get(..HEADER_LEN).ok_or(Refusal::of_file(1, 0))?;
    let field = |at: usize| le64(&header[at..at + 8]);
    let (n, k, m, step) = (field(8), field(16), field(24), field(32));
    if header[..8] != MAGIC {
        return Err(Refusal::of_file(2, 0));
    }
    if n > MAX_SLOTS {
        return Err(Refusal::of_file(3, 0));
    }
    if k > n || step != index_step(k) || m != index_len(k) {
        return Err(Refusal::of_file(4, 0));
    }
    Ok((n, k))
}

/// The summary of a file.
pub fn check(file: &[u8]) -> Result<Summary, Refusal> {
    Map::open(file).map(|map| map.summary())
}

/// The primary array of a file, empty where check refuses the file.
pub fn primary(file: &[u8]) -> &[u8] {
    Map::open(file).map_or(&[], |map| map.primary)
}

/// The list of distances that a file stores.
pub fn decode(file: &[u8]) -> Result<Vec<u32>, Refusal> {
    Map::open(file).map(|map| map.distances().collect())
}

/// The distance at one slot, and where it is stored. Refusals 1 to 8, then 9.
pub fn lookup(file: &[u8], slot: u64) -> Result<Located, Refusal> {
    Map::open(file)?.lookup(slot)
}

/// The same with the number of the overflow entry as [`lookup_list`] has it.
pub fn lookup_numbered(file: &[u8], slot: u64) -> Result<(u32, u64), Refusal> {
    let map = Map::open(file)?;
    Ok(map.lookup(slot)?.numbered(map.k()))
}

/// The distances at the slots of a list, to the front of `distances`, and the numbers of their
/// overflow entries, to the front of `entries`: k, how many entries there are, for an inline
/// distance. Refusals 1 to 8, then 9 with the least position in the list, then 12. Answers how many
/// slots there are.
pub fn lookup_list(
    file: &[u8],
    slots: &[u64],
    distances: &mut [u32],
    entries: &mut [u64],
) -> Result<u64, Refusal> {
    let map = Map::open(file)?;
    if let Some(position) = slots.iter().position(|&slot| slot >= map.n()) {
        return Err(Refusal::of_call(9, position as u64));
    }
    require_capacity(slots.len(), distances.len())?;
    require_capacity(slots.len(), entries.len())?;
    for ((distance, entry), &slot) in distances.iter_mut().zip(entries).zip(slots) {
        (*distance, *entry) = map.located(slot).numbered(map.k());
    }
    Ok(slots.len() as u64)
}

/// All distances, to the front of `distances`. Refusals 1 to 8, then 12. Answers how many there
/// are.
pub fn scan(file: &[u8], distances: &mut [u32]) -> Result<u64, Refusal> {
    let map = Map::open(file)?;
    require_capacity(map.primary.len(), distances.len())?;
    for (out, distance) in distances.iter_mut().zip(map.distances()) {
        *out = distance;
    }
    Ok(map.n())
}

/// The sum of all distances. Refusals 1 to 8.
pub fn sum(file: &[u8]) -> Result<u64, Refusal> {
    Map::open(file).map(|map| map.sum())
}

/// The number of readings of a map, from its primary array: a sentinel stands for a distance that is
/// not 0.
pub fn readings_of_primary(primary: &[u8]) -> u64 {
    primary.iter().filter(|&&byte| byte != 0).count() as u64
}

/// The number of readings. Refusals 1 to 8.
pub fn readings(file: &[u8]) -> Result<u64, Refusal> {
    Map::open(file).map(|map| map.readings())
}
