//! Cases about edits: runs of edits one by one and as a list, against the reference's editor, which
//! rewrites the file, and against the plain editor, which keeps a list.

use crate::call::{edited_of, summary_of, Call, Dirty, Guarded};
use crate::damage::ends_and_middle;
use crate::files::encode;
use crate::judge::Judge;
use crate::moves::Moves;
use crate::routines::and_beside;
use crate::run::{Run, Subject};
use crate::sums::Change;
use compare::lists::{self, Spread};
use compare::rng::Rng;
use pciv::{raw, Edited, Summary};
use reference::{file_len, Map, PlainEditor, ANSWER_LEN, HEADER_LEN};

/// All groups of such cases.
pub fn run_all(run: &mut Run) {
    worked_examples(run);
    small_runs(run);
    long_runs(run);
    overflow_counts(run);
    shorter_needs_more(run);
    moved_entries(run);
    changed_sums(run);
    lists_of_unequal_length(run);
    largest_map(run);
    largest_sum(run);
}

/// A starting list, the capacity of the buffer, and the edits.
struct Edits {
    list: Vec<u32>,
    capacity: usize,
    slots: Vec<u64>,
    distances: Vec<u32>,
}

impl Subject for Edits {
    fn describe(&self) -> String {
        let Edits { list, slots, .. } = self;
        let (n, count, capacity) = (list.len(), slots.len(), self.capacity);
        format!("{count} edits of {n} slots in {capacity} bytes")
    }

    fn compare(&self, judge: &mut Judge, rng: &mut Rng) {
        let start = self.start();
        self.one_by_one(judge, &start);
        let needed = ANSWER_LEN * self.slots.len();
        let mut capacities = vec![needed, needed + rng.below(20)];
        if needed > 0 {
            capacities.push(needed - 1);
        }
        for capacity in capacities {
            compare_list(judge, &start, &self.slots, &self.distances, capacity);
        }
    }
}

impl Edits {
    /// The buffer at the start: the list's file, then dirty bytes.
    fn start(&self) -> Vec<u8> {
        let mut buffer = encode(&self.list);
        buffer.extend((buffer.len()..self.capacity).map(u8::dirty));
        buffer
    }

    fn edits(&self) -> impl Iterator<Item = (u64, u32)> + '_ {
        self.slots
            .iter()
            .copied()
            .zip(self.distances.iter().copied())
    }

    /// Each edit on the buffer that the one before left.
    fn one_by_one(&self, judge: &mut Judge, start: &[u8]) {
        let mut plain = PlainEditor::new(self.list.clone(), start.len());
        let mut buffer = start.to_vec();
        for (slot, distance) in self.edits() {
            let limits = Limits::new(plain.list(), slot, distance);
            let after = compare_edit(judge, &buffer, slot, distance);
            let call = Call::new("edit", format!(" of slot {slot} to {distance}"));
            let answer = plain.edit(slot, distance);
            let edited = reference::edit(&mut buffer.clone(), slot, distance);
            judge.same(&format_args!("{call}: the plain editor"), answer, edited);
            if let Ok(reference::Edited { summary, .. }) = answer {
                let what = format_args!("{call}: the sum of the edited list");
                judge.same(&what, lists::sum(plain.list()), summary.sum);
            }
            let stray = limits.first_stray(&buffer, &after);
            judge.same(
                &format_args!("{call}: a byte that may not change"),
                None,
                stray,
            );
            buffer = after;
        }
        let mut wanted = start.to_vec();
        plain.fill(&mut wanted);
        judge.same_buffer(&"the buffer after the run", &wanted, &buffer);
    }
}

/// The bytes that an accepted edit may change.
struct Limits {
    /// The slot and its primary byte, where both exist.
    byte: usize,
    was_overflow: bool,
    is_overflow: bool,
    /// Where the slot's entry stands, or would.
    entry: usize,
}

impl Limits {
    fn new(list: &[u32], slot: u64, distance: u32) -> Limits {
        let slot = usize::try_from(slot).unwrap_or(usize::MAX).min(list.len());
        let before = list[..slot].iter().filter(|&&d| d >= 255).count();
        Limits {
            byte: HEADER_LEN + slot,
            was_overflow: list.get(slot).is_some_and(|&d| d >= 255),
            is_overflow: distance >= 255,
            entry: HEADER_LEN + list.len() + 12 * before,
        }
    }

    fn allow(&self, at: usize) -> bool {
        match (self.was_overflow, self.is_overflow) {
            (false, false) => at == self.byte,
            (true, true) => (self.entry + 8..self.entry + 12).contains(&at),
            _ => (16..40).contains(&at) || at == self.byte || at >= self.entry,
        }
    }

    fn first_stray(&self, before: &[u8], after: &[u8]) -> Option<usize> {
        (0..before.len()).find(|&at| before[at] != after[at] && !self.allow(at))
    }
}

/// Compares one edit of a buffer; answers what the library left there.
pub fn compare_edit(judge: &mut Judge, buffer: &[u8], slot: u64, distance: u32) -> Vec<u8> {
    let call = Call::new("edit", format!(" of slot {slot} to {distance}"));
    let mut wanted = Guarded::with(buffer);
    let mut got = wanted.clone();
    let answer = reference::edit(wanted.contents_mut(), slot, distance).map(edited_of);
    judge.value(&call, answer, |Edited { summary, moved }, refusal| {
        let buffer = got.contents_mut();
        raw::edit(buffer, slot, distance, summary, moved, refusal)
    });
    judge.same_guarded(&call, "buffer", &wanted, &got);
    judge.edits(call.routine, buffer, [(distance, answer.ok())].into_iter());
    got.contents().to_vec()
}

/// Compares a list of edits of a buffer, with a list for so many numbers of answers.
pub fn compare_list(
    judge: &mut Judge,
    buffer: &[u8],
    slots: &[u64],
    distances: &[u32],
    capacity: usize,
) {
    let with = format!(
        " of {} slots and {} distances, capacity {capacity}",
        slots.len(),
        distances.len()
    );
    let call = Call::new("edit_list", with);
    let mut wanted = (Guarded::with(buffer), Guarded::dirty(capacity));
    let mut got = wanted.clone();
    let answer = reference::edit_list(
        wanted.0.contents_mut(),
        slots,
        distances,
        wanted.1.contents_mut(),
    );
    judge.value(&call, answer, |count, refusal| {
        raw::edit_list(
            got.0.contents_mut(),
            slots,
            distances,
            got.1.contents_mut(),
            count,
            refusal,
        )
    });
    judge.same_guarded(&call, "buffer", &wanted.0, &got.0);
    judge.same_guarded(&call, "answers", &wanted.1, &got.1);
    let (answers, _) = wanted.1.contents().as_chunks();
    let edits = distances.iter().copied().zip(answers.iter().map(done));
    let edits = edits.take(answer.unwrap_or(0) as usize);
    judge.edits(call.routine, buffer, edits);
}

/// What an edit has done by its answer in a list, `None` where it is refused.
fn done(answer: &[u64; ANSWER_LEN]) -> Option<Edited> {
    let [number, _, _, n, k, m, step, len, sum, moved] = *answer;
    let summary = Summary {
        n,
        k,
        m,
        step,
        len,
        sum,
    };
    (number == 0).then_some(Edited { summary, moved })
}

impl Judge {
    /// Notes what edits of the file at the front of a buffer have to do, each told by its distance and
    /// by what it does, a refused one by `None`.
    fn edits(
        &mut self,
        routine: &'static str,
        buffer: &[u8],
        edits: impl Iterator<Item = (u32, Option<Edited>)>,
    ) {
        let file = Map::open_front(buffer).ok();
        let mut old = file.map_or_else(Summary::default, |file| summary_of(file.summary()));
        for (distance, done) in edits {
            let moves = Moves::of(&old, distance, done);
            self.moves.insert((routine, moves));
            let change = Change::of(&old, distance, done);
            self.changes.insert((routine, change));
            if let Some(Edited { summary, .. }) = done {
                self.sum(routine, &summary);
                old = summary;
            }
        }
    }
}

/// A distance to edit to: inline, in overflow, or at a border.
fn distance(rng: &mut Rng) -> u32 {
    match rng.below(4) {
        0 => rng.below(255) as u32,
        1 => 255 + rng.below(60_000) as u32,
        _ => rng.pick(&[0, 1, 44, 254, 255, 256, 300, u32::MAX]),
    }
}

/// A slot to edit: mostly inside, the first and the last among them, some beyond.
fn slot(rng: &mut Rng, n: usize) -> u64 {
    match rng.below(12) {
        0 => rng.pick(&[n as u64, n as u64 + 1, 1 << 32, u64::MAX]),
        1 => 0,
        2 => (n as u64).wrapping_sub(1),
        _ => rng.below(n.max(1)) as u64,
    }
}

fn random_edits(rng: &mut Rng, n: usize, count: usize) -> (Vec<u64>, Vec<u32>) {
    (0..count).map(|_| (slot(rng, n), distance(rng))).unzip()
}

/// A capacity for the file of a list: exact, one entry more less a byte, that entry's space, or
/// generous.
fn capacity(rng: &mut Rng, list: &[u32]) -> usize {
    let len = encode(list).len();
    let extra = rng.below(300);
    len + rng.pick(&[0, 0, 11, 12, 24, extra, 40_000])
}

fn worked_examples(run: &mut Run) {
    for (number, capacity) in [68, 79, 80, 100].into_iter().enumerate() {
        run.case("worked example of edits", number, |_| Edits {
            list: vec![0, 254, 255, 300],
            capacity,
            slots: vec![1, 2, 1, 1, 3, 4, 0, 0],
            distances: vec![255, 254, 255, 254, 4_294_967_295, 1, 255, 255],
        });
    }
}

fn small_runs(run: &mut Run) {
    for number in 0..1_500 {
        run.case("small run of edits", number, |rng| {
            let n = lists::size(rng).min(700);
            let list = lists::mixed(rng, n);
            let count = rng.below(40);
            let (slots, distances) = random_edits(rng, n, count);
            Edits {
                capacity: capacity(rng, &list),
                list,
                slots,
                distances,
            }
        });
    }
}

fn long_runs(run: &mut Run) {
    for number in 0..12 {
        run.case("long run of edits", number, |rng| {
            let n = rng.pick(&[1, 7, 64, 300]);
            let list = lists::mixed(rng, n);
            let (slots, distances) = random_edits(rng, n, 4_000);
            Edits {
                capacity: capacity(rng, &list),
                list,
                slots,
                distances,
            }
        });
    }
}

/// Runs about the numbers of overflow entries where the step changes, both ways.
fn overflow_counts(run: &mut Run) {
    let mut number = 0;
    for k in lists::STEP_BORDERS {
        for extra in [0, 12, 10_899, 10_900, 60_000] {
            run.case("edits about an overflow count", number, |rng| {
                let n = 5_000;
                let list = lists::with_overflow(rng, n, k, Spread::Scattered);
                let (slots, distances) = random_edits(rng, n, 60);
                Edits {
                    capacity: encode(&list).len() + extra,
                    list,
                    slots,
                    distances,
                }
            });
            number += 1;
        }
    }
}

/// From 4,097 to 4,096 entries and back, in buffers just too short and just long enough.
fn shorter_needs_more(run: &mut Run) {
    let (fewer, more) = (file_len(5_000, 4_096), file_len(5_000, 4_097));
    for (number, capacity) in [more, fewer - 1, fewer, fewer + 1].into_iter().enumerate() {
        for (inner, spread) in lists::SPREADS.into_iter().enumerate() {
            run.case("an entry fewer", 3 * number + inner, |rng| {
                let list = lists::with_overflow(rng, 5_000, 4_097, spread);
                let entries = overflow_slots(&list);
                let slot = rng.pick(&entries);
                Edits {
                    list,
                    capacity: capacity as usize,
                    slots: vec![slot, slot, slot, entries[0], entries[4_096]],
                    distances: vec![254, 255, 0, 7, 7],
                }
            });
        }
    }
}

/// The slots in overflow.
fn overflow_slots(list: &[u32]) -> Vec<u64> {
    let slots = (0..).zip(list);
    slots
        .filter(|(_, &distance)| distance >= 255)
        .map(|(slot, _)| slot)
        .collect()
}

/// Edits into and out of overflow, there and back, on maps with few and many entries, some without
/// other slots. In an exact buffer an edit that makes the file longer is refused.
fn moved_entries(run: &mut Run) {
    let mut number = 0;
    for k in [0, 1, 2, 3].into_iter().chain(lists::STEP_BORDERS) {
        for inline in [0, 1, 300] {
            for spread in lists::SPREADS {
                for extra in [0, 40_000] {
                    run.case("entries that edits move", number, |rng| {
                        let list = lists::with_overflow(rng, k + inline, k, spread);
                        let (slots, distances) = there_and_back(&list);
                        Edits {
                            capacity: encode(&list).len() + extra,
                            list,
                            slots,
                            distances,
                        }
                    });
                    number += 1;
                }
            }
        }
    }
}

/// Both ends of a list, slots in overflow at both ends and in the middle, and those beside them: each
/// goes into or out of overflow, and back. Then two slots beyond n.
fn there_and_back(list: &[u32]) -> (Vec<u64>, Vec<u32>) {
    let n = list.len() as u64;
    let overflow = overflow_slots(list);
    let telling = ends_and_middle(overflow.len()).into_iter();
    let ends = [0, n.saturating_sub(1)].into_iter();
    let slots = ends.chain(telling.map(|entry| overflow[entry]));
    let mut slots: Vec<u64> = and_beside(slots, n).collect();
    slots.sort_unstable();
    slots.dedup();
    let there_and_back = slots.into_iter().flat_map(|slot| {
        let distance = list[slot as usize];
        let there = if distance < 255 { 255 } else { 254 };
        [(slot, there), (slot, distance)]
    });
    there_and_back.chain([(n, 255), (u64::MAX, 0)]).unzip()
}

/// Edits that change the sum by nothing, by one and by much, on maps with none, half and all of their
/// slots in overflow. In an exact buffer an edit that makes the file longer is refused.
fn changed_sums(run: &mut Run) {
    let mut number = 0;
    for n in [1, 2, 64, 300, 4_097] {
        for k in [0, n / 2, n] {
            for extra in [0, 40_000] {
                run.case("sums that edits change", number, |rng| {
                    let list = lists::with_overflow(rng, n, k, Spread::Scattered);
                    let (slots, distances) = up_and_down(&list);
                    Edits {
                        capacity: encode(&list).len() + extra,
                        list,
                        slots,
                        distances,
                    }
                });
                number += 1;
            }
        }
    }
}

/// Slots at both ends of a list and in the middle: each gets the distance that it has, one less, one
/// more, the least, the largest, and its own twice. Then a slot beyond n.
fn up_and_down(list: &[u32]) -> (Vec<u64>, Vec<u32>) {
    let slots = ends_and_middle(list.len()).into_iter();
    let edits = slots.flat_map(|slot| {
        let distance = list[slot];
        let (less, more) = (distance.saturating_sub(1), distance.saturating_add(1));
        let distances = [distance, less, more, 0, u32::MAX, distance, distance];
        distances.map(|distance| (slot as u64, distance))
    });
    edits.chain([(list.len() as u64, 7)]).unzip()
}

/// Lists of slots and of distances with different lengths.
fn lists_of_unequal_length(run: &mut Run) {
    for number in 0..200 {
        run.case("edit lists of unequal length", number, |rng| {
            let n = lists::size(rng).min(200);
            let list = lists::mixed(rng, n);
            let buffer = encode(&list);
            let (slots, mut distances) = random_edits(rng, n, 9);
            distances.truncate(rng.below(9));
            Unequal {
                buffer,
                slots,
                distances,
            }
        });
    }
}

struct Unequal {
    buffer: Vec<u8>,
    slots: Vec<u64>,
    distances: Vec<u32>,
}

impl Subject for Unequal {
    fn describe(&self) -> String {
        let Unequal {
            slots, distances, ..
        } = self;
        format!("{} slots, {} distances", slots.len(), distances.len())
    }

    fn compare(&self, judge: &mut Judge, rng: &mut Rng) {
        let Unequal {
            buffer,
            slots,
            distances,
        } = self;
        let all = [distances.as_slice(), &[7; 12]].concat();
        for distances in [&distances[..], &all] {
            let capacity = rng.pick(&[0, 9 * ANSWER_LEN, 100]);
            compare_list(judge, buffer, slots, distances, capacity);
        }
    }
}

fn largest_map(run: &mut Run) {
    let n = reference::MAX_SLOTS as usize;
    for (number, k) in [n / 100, n].into_iter().enumerate() {
        run.case("edits of the largest map", number, |rng| {
            let list = lists::with_overflow(rng, n, k, Spread::Scattered);
            let (slots, distances) = random_edits(rng, n, 12);
            Edits {
                capacity: capacity(rng, &list),
                list,
                slots,
                distances,
            }
        });
    }
}

/// All distances are the largest one: edits that keep it, and out of overflow and back.
fn largest_sum(run: &mut Run) {
    let n = reference::MAX_SLOTS;
    for (number, extra) in [0, 100].into_iter().enumerate() {
        run.case("edits at the largest sum", number, |_| {
            let list = vec![u32::MAX; n as usize];
            Edits {
                capacity: encode(&list).len() + extra,
                list,
                slots: vec![0, n - 1, n - 1, n / 2, n / 2, n],
                distances: vec![u32::MAX, u32::MAX - 1, u32::MAX, 254, u32::MAX, 0],
            }
        });
    }
}
