//! Calls on one file.

use crate::call::{
    capacities, capacity_pairs, file_capacities, located_of, summary_of, told, Answer, Call, Dirty,
};
use crate::edits;
use crate::files::encode;
use crate::judge::Judge;
use crate::masks::{MASKING, SELECTING};
use crate::read_only::ReadOnly;
use compare::lists;
use compare::rng::Rng;
use pciv::raw;
use reference::ANSWER_LEN;

/// A file that the library only reads, and the judge of its answers.
pub struct Trial<'a> {
    judge: &'a mut Judge,
    file: ReadOnly<u8>,
}

impl<'a> Trial<'a> {
    pub fn new(judge: &'a mut Judge, rng: &mut Rng, file: &[u8]) -> Trial<'a> {
        Trial {
            judge,
            file: ReadOnly::new(rng, file, reference::SENTINEL),
        }
    }

    /// The file, out of the library's reach.
    pub fn original(&self) -> &[u8] {
        self.file.original()
    }

    pub fn check(&mut self) {
        let call = Call::new("check", "");
        let answer = reference::check(self.file.original()).map(summary_of);
        self.judge.value(&call, answer, |out, refusal| {
            raw::check(self.file.contents(), out, refusal)
        });
        if let Ok(summary) = answer {
            self.judge.sum(call.routine, &summary);
        }
        self.settle(&call);
    }

    pub fn primary(&mut self) {
        let call = Call::new("primary_span", "");
        let span = match reference::check(self.file.original()) {
            Ok(summary) => [reference::HEADER_LEN as u64, summary.n],
            Err(_) => [0, 0],
        };
        let mut written = [7; 2];
        let answer = raw::primary_span(self.file.contents(), &mut written);
        self.judge.calls += 1;
        self.judge.same(&call, (span[1], span), (answer, written));
        self.settle(&call);
    }

    /// As C has it, and as Rust has it.
    pub fn lookup(&mut self, slot: u64) {
        let call = Call::new("lookup", format!(" of slot {slot}"));
        let answer = reference::lookup_numbered(self.file.original(), slot);
        let found = self
            .judge
            .value(&call, answer, |(distance, entry), refusal| {
                raw::lookup(self.file.contents(), slot, distance, entry, refusal)
            });
        if let Some(found) = found {
            self.judge.found(&call, self.file.original(), slot, found);
        }
        self.settle(&call);
        let call = Call::new("lookup", format!(" of slot {slot} from Rust"));
        let answer = reference::lookup(self.file.original(), slot).map(located_of);
        self.judge.value(&call, answer, |located, refusal| {
            told(pciv::lookup(self.file.contents(), slot), located, refusal)
        });
        self.settle(&call);
    }

    /// In lists of several capacities.
    pub fn lookup_list(&mut self, rng: &mut Rng, slots: &[u64]) {
        for capacities in capacity_pairs(rng, slots.len()) {
            self.lookup_list_in(rng, slots, capacities);
        }
    }

    pub fn lookup_list_in(&mut self, rng: &mut Rng, slots: &[u64], capacities: (usize, usize)) {
        let shown = &slots[..slots.len().min(8)];
        let count = slots.len();
        let with = format!(" of {count} slots {shown:?}.., capacities {capacities:?}");
        let call = Call::new("lookup_list", with);
        let mut slots = ReadOnly::new(rng, slots, u64::MAX);
        let found = self.judge.buffers(
            &call,
            capacities,
            |distances, entries| {
                let file = self.file.original();
                reference::lookup_list(file, slots.original(), distances, entries)
            },
            |distances, entries, count, refusal| {
                let file = self.file.contents();
                raw::lookup_list(file, slots.contents(), distances, entries, count, refusal)
            },
        );
        if let Some((distances, entries)) = found {
            let found = distances.contents().iter().zip(entries.contents());
            for (&slot, (&distance, &entry)) in slots.original().iter().zip(found) {
                let file = self.file.original();
                self.judge.found(&call, file, slot, (distance, entry));
            }
        }
        slots.settle(self.judge, &call, "the list of slots");
        self.settle(&call);
    }

    pub fn scan(&mut self, capacity: usize) {
        let call = Call::with_capacity("scan", capacity);
        self.judge.buffer(
            &call,
            capacity,
            |out| reference::scan(self.file.original(), out),
            |out, count, refusal| raw::scan(self.file.contents(), out, count, refusal),
        );
        self.settle(&call);
    }

    pub fn sum(&mut self) {
        let call = Call::new("sum", "");
        let answer = reference::sum(self.file.original());
        self.judge.value(&call, answer, |out, refusal| {
            raw::sum(self.file.contents(), out, refusal)
        });
        self.settle(&call);
    }

    pub fn readings(&mut self) {
        self.hold_readings("", reference::readings(self.file.original()));
    }

    /// The primary array alone tells the readings of a sound file: the reference counts them from
    /// its bytes, and the library on a file that has them and other distances in overflow.
    pub fn readings_of_primary(&mut self, rng: &mut Rng) {
        let list = reference::decode(self.file.original()).unwrap_or_default();
        let other = encode(&lists::other_overflow(rng, &list));
        let primary = reference::primary(self.file.original());
        let kept = &"the primary array with other distances in overflow";
        self.judge
            .same_buffer(kept, primary, reference::primary(&other));
        let count = reference::readings_of_primary(primary);
        let listed = reference::readings(self.file.original());
        self.judge
            .same(&"the reference's readings", listed, Ok(count));
        Trial::new(self.judge, rng, &other).hold_readings(" with other distances", Ok(count));
    }

    fn hold_readings(&mut self, with: &str, answer: Answer<u64>) {
        let call = Call::new("readings", with);
        self.judge.value(&call, answer, |out, refusal| {
            raw::readings(self.file.contents(), out, refusal)
        });
        self.settle(&call);
    }

    pub fn report(&mut self, capacity: usize) {
        let call = Call::with_capacity("report", capacity);
        self.judge.buffer(
            &call,
            capacity,
            |out| reference::report(self.file.original(), out),
            |out, count, refusal| raw::report(self.file.contents(), out, count, refusal),
        );
        self.settle(&call);
    }

    /// In buffers of several capacities.
    pub fn shift(&mut self, rng: &mut Rng, by: i32) {
        let answer = reference::shift(self.file.original(), by, self.judge.scratch());
        for capacity in file_capacities(rng, &answer) {
            let call = Call::new("shift", format!(" by {by}, capacity {capacity}"));
            self.judge.file(
                &call,
                capacity,
                |out| reference::shift(self.file.original(), by, out),
                |out, summary, refusal| raw::shift(self.file.contents(), by, out, summary, refusal),
            );
            self.settle(&call);
        }
    }

    /// A mask of each kind, in lists of several capacities.
    pub fn masks(&mut self, rng: &mut Rng, t: u32) {
        let n = reference::check(self.file.original()).map_or(200, |summary| summary.n);
        for selecting in &SELECTING {
            for capacity in capacities(rng, reference::mask_len(n as usize)) {
                let call = Call::new(selecting.name, format!(" at {t}, capacity {capacity}"));
                self.judge.buffer(
                    &call,
                    capacity,
                    |out| (selecting.reference)(self.file.original(), t, out),
                    |out, count, refusal| {
                        (selecting.library)(self.file.contents(), t, out, count, refusal)
                    },
                );
                self.settle(&call);
            }
        }
    }

    /// Both files from the file and a mask, in buffers of several capacities.
    pub fn masked(&mut self, rng: &mut Rng, mask: &[u64]) {
        let mut mask = ReadOnly::new(rng, mask, u64::MAX);
        for masking in &MASKING {
            let (file, words) = (self.file.original(), mask.original());
            let answer = (masking.reference)(file, words, self.judge.scratch());
            for capacity in file_capacities(rng, &answer) {
                let with = format!(", {} words, capacity {capacity}", mask.original().len());
                let call = Call::new(masking.name, with);
                self.judge.file(
                    &call,
                    capacity,
                    |out| (masking.reference)(self.file.original(), mask.original(), out),
                    |out, summary, refusal| {
                        (masking.library)(
                            self.file.contents(),
                            mask.contents(),
                            out,
                            summary,
                            refusal,
                        )
                    },
                );
                mask.settle(self.judge, &call, "the mask");
                self.settle(&call);
            }
        }
    }

    /// One edit, then a list of two, of the file with some bytes behind it.
    pub fn edit(&mut self, tail: usize, slot: u64, distance: u32) {
        let mut buffer = self.file.original().to_vec();
        buffer.extend((0..tail).map(u8::dirty));
        edits::compare_edit(self.judge, &buffer, slot, distance);
        let (slots, distances) = ([slot, slot / 2], [distance, 255]);
        edits::compare_list(self.judge, &buffer, &slots, &distances, 2 * ANSWER_LEN);
    }

    fn settle(&mut self, call: &Call) {
        self.file.settle(self.judge, call, "the file");
    }
}
