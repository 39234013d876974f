//! The calls made for one file.

use crate::call::capacities;
use crate::damage::le64;
use crate::judge::Judge;
use crate::masks::{self, THRESHOLDS};
use crate::parts::Parts;
use crate::run::Subject;
use crate::shifts::SHIFTS;
use crate::trial::Trial;
use crate::writing;
use compare::lists;
use compare::rng::Rng;
use reference::Summary;

/// Compares every routine on one file.
pub fn compare_file(judge: &mut Judge, rng: &mut Rng, file: &[u8]) {
    let mut trial = Trial::new(judge, rng, file);
    trial.check();
    trial.primary();
    trial.sum();
    trial.readings();
    for capacity in capacities(rng, reference::report_text(file).len()) {
        trial.report(capacity);
    }
    match reference::check(file) {
        Ok(summary) => sound_file(&mut trial, rng, &summary),
        Err(_) => refused_file(&mut trial, rng),
    }
}

/// Compares the reference with the list that a file was made of, and the routines that make it.
pub fn compare_list(judge: &mut Judge, rng: &mut Rng, file: &[u8], distances: &[u32]) {
    let decoded = reference::decode(file).unwrap_or_default();
    judge.same_buffer(&"the reference's list", distances, &decoded);
    let sum = reference::check(file).map(|summary| summary.sum);
    judge.same(&"the reference's sum", Ok(lists::sum(distances)), sum);
    writing::compare_write(judge, rng, distances);
    Parts::of(distances).compare(judge, rng);
}

fn sound_file(trial: &mut Trial, rng: &mut Rng, summary: &Summary) {
    trial.readings_of_primary(rng);
    for capacity in capacities(rng, summary.n as usize) {
        trial.scan(capacity);
    }
    let inside = telling_slots(rng, trial.original(), summary);
    let beyond = [summary.n, summary.n + 1, 1 << 32, 1 << 63, u64::MAX];
    for &slot in inside.iter().chain(&beyond) {
        trial.lookup(slot);
    }
    lookup_lists(trial, rng, &inside, &beyond);
    let by = rng.pick(&SHIFTS);
    trial.shift(rng, by);
    let t = rng.pick(&THRESHOLDS);
    trial.masks(rng, t);
    let mask = masks::random_mask(rng, summary.n as usize);
    trial.masked(rng, &mask);
}

/// Calls whose own faults must not come before those of the file.
fn refused_file(trial: &mut Trial, rng: &mut Rng) {
    trial.scan(0);
    trial.scan(trial.original().len());
    trial.lookup(0);
    trial.lookup(u64::MAX);
    let (slots, capacities) = ([0, u64::MAX, rng.word()], (rng.below(5), rng.below(5)));
    trial.lookup_list_in(rng, &slots, capacities);
    let by = rng.pick(&SHIFTS);
    trial.shift(rng, by);
    let t = rng.pick(&THRESHOLDS);
    trial.masks(rng, t);
    let n = rng.below(300);
    let mask = masks::random_mask(rng, n);
    trial.masked(rng, &mask);
    let (slot, distance) = (rng.pick(&[0, 1, u64::MAX]), rng.pick(&[0, 255]));
    let tail = rng.pick(&[0, 1, 100]);
    trial.edit(tail, slot, distance);
}

/// Slots below n where a lookup may go wrong: both ends, random ones, and those about telling
/// overflow entries.
fn telling_slots(rng: &mut Rng, file: &[u8], summary: &Summary) -> Vec<u64> {
    let n = summary.n as usize;
    if n == 0 {
        return Vec::new();
    }
    let mut slots = vec![0, summary.n - 1];
    slots.extend((0..6).map(|_| rng.below(n) as u64));
    let entries = telling_entries(rng, summary).into_iter();
    let in_overflow = entries.map(|entry| overflow_slot(file, n, entry));
    slots.extend(and_beside(in_overflow, summary.n));
    slots
}

/// Some slots, each between the two beside it, as far as they are below n.
pub fn and_beside(slots: impl Iterator<Item = u64>, n: u64) -> impl Iterator<Item = u64> {
    let three = slots.flat_map(|slot| [slot.wrapping_sub(1), slot, slot + 1]);
    three.filter(move |&slot| slot < n)
}

/// Overflow entries at both ends, a random one, and those about the second, the last and a random
/// index entry.
fn telling_entries(rng: &mut Rng, summary: &Summary) -> Vec<usize> {
    let k = summary.k as usize;
    if k == 0 {
        return Vec::new();
    }
    let step = summary.step as usize;
    let last_indexed = (k - 1) / step.max(1) * step;
    let mut entries = vec![0, k - 1, rng.below(k)];
    let any_indexed = rng.below(k) / step.max(1) * step;
    for indexed in [step, any_indexed, last_indexed] {
        entries.extend([indexed.wrapping_sub(1), indexed, indexed + 1]);
    }
    entries.retain(|&entry| entry < k);
    entries.sort_unstable();
    entries.dedup();
    entries
}

fn overflow_slot(file: &[u8], n: usize, entry: usize) -> u64 {
    le64(&file[reference::HEADER_LEN + n + 12 * entry..])
}

/// Lists of slots inside the map, and the same with slots beyond it at several positions.
fn lookup_lists(trial: &mut Trial, rng: &mut Rng, inside: &[u64], beyond: &[u64]) {
    let mut list = inside.to_vec();
    list.extend((0..inside.len()).map(|_| rng.pick(inside)));
    trial.lookup_list(rng, &list);
    trial.lookup_list(rng, &[]);
    for position in [0, list.len() / 2, list.len()] {
        let mut refused = list.clone();
        refused.insert(position, rng.pick(beyond));
        trial.lookup_list_in(rng, &refused, (refused.len(), refused.len()));
        refused.push(rng.pick(beyond));
        trial.lookup_list(rng, &refused);
    }
}
