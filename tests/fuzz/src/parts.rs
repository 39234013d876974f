//! The routines that write a file from a list or from its parts.

use crate::call::{Bench, NONE};
use crate::files::list;
use crate::input::Input;
use pciv::raw;

/// One slot more than a map can have.
pub const TOO_MANY: usize = (1 << 20) + 1;

pub fn write(bench: &mut Bench, input: &mut Input) {
    let list = match input.byte() {
        255 => vec![0; TOO_MANY],
        _ => list(input, None),
    };
    bench.file(
        (&list, NONE),
        input,
        |list, _, out| reference::write(list, out),
        |list, _, out, summary, refusal| raw::write(list, out, summary, refusal),
    );
}

/// A primary array and overflow entries.
struct Parts {
    primary: Vec<u8>,
    slots: Vec<u64>,
    distances: Vec<u32>,
}

/// The parts of a list, perhaps with faults.
fn parts(input: &mut Input) -> Parts {
    let list = list(input, None);
    let entries = (0..).zip(&list).filter(|(_, &distance)| distance >= 255);
    let (slots, distances) = entries.map(|(slot, &distance)| (slot, distance)).unzip();
    let mut parts = Parts {
        primary: list
            .iter()
            .map(|&distance| distance.min(255) as u8)
            .collect(),
        slots,
        distances,
    };
    for _ in 0..input.below(4) {
        parts.damage(input);
    }
    if input.byte() == 255 {
        parts.primary = vec![0; TOO_MANY];
    }
    parts
}

impl Parts {
    /// Another byte, slot or distance, an entry more or fewer, two swapped, or a list truncated.
    fn damage(&mut self, input: &mut Input) {
        let Parts {
            primary,
            slots,
            distances,
        } = self;
        let (n, k) = (primary.len() as u64, slots.len().min(distances.len()));
        let (kind, at) = (input.byte() % 8, input.below(65_536));
        let entry = at % k.max(1);
        match kind {
            0 if n > 0 => primary[at % n as usize] = input.byte(),
            1 if k > 0 => slots[entry] = input.number(&[slots[entry], n]),
            2 if k > 0 => distances[entry] = input.distance(),
            3 if k > 0 => {
                slots.remove(entry);
                distances.remove(entry);
            }
            4 => {
                slots.insert(entry, input.number(&[n]));
                distances.insert(entry, input.distance());
            }
            5 if k > 1 => slots.swap(entry, (entry + 1) % k),
            6 => slots.truncate(at % (k + 1)),
            7 => distances.truncate(at % (k + 1)),
            _ => (),
        }
    }
}

pub fn close(bench: &mut Bench, input: &mut Input) {
    let Parts {
        primary,
        slots,
        distances,
    } = parts(input);
    bench.file_of_three(
        (&primary, &slots, &distances),
        input,
        |(primary, slots, distances), out| reference::close(primary, slots, distances, out),
        |(primary, slots, distances), out, summary, refusal| {
            raw::close(primary, slots, distances, out, summary, refusal)
        },
    );
}

pub fn close_entries(bench: &mut Bench, input: &mut Input) {
    let parts = parts(input);
    let pairs = parts.slots.into_iter().zip(parts.distances);
    let entries: Vec<pciv::Entry> = pairs
        .map(|(slot, distance)| pciv::Entry { slot, distance })
        .collect();
    bench.file(
        (&parts.primary, &entries),
        input,
        |primary, entries, out| {
            let entry = |&pciv::Entry { slot, distance }| reference::Entry { slot, distance };
            let entries: Vec<reference::Entry> = entries.iter().map(entry).collect();
            reference::close_entries(primary, &entries, out)
        },
        raw::close_entries,
    );
}
