//! Cases about bundles: lists as frames, records to be skipped, records at fault, damaged frames, frames
//! of other sizes, counts and capacities, any records and any bytes.

use crate::call::{capacities, told, Answer, Call};
use crate::damage::{self, Damage};
use crate::files::encode;
use crate::judge::Judge;
use crate::met::{met_by_records, met_by_slots};
use crate::read_only::ReadOnly;
use crate::records::{self, every_fault, with_faults, Fault, Record, FRAME};
use crate::run::{Run, Subject};
use compare::lists::{self, SPREADS, STEP_BORDERS};
use compare::rng::{case_seed, Rng};
use pciv::raw;
use reference::bundle::MAX_FRAMES;
use reference::{MAX_SLOTS, SENTINEL};
use std::{array, slice};

/// All groups of such cases.
pub fn run_all(run: &mut Run) {
    bursts(run);
    overflow_counts(run);
    every_capacity(run);
    skipped_records(run);
    bad_records(run);
    cut_bundles(run);
    damaged_frames(run);
    unequal_frames(run);
    counts_to_write(run);
    random_records(run);
    largest_maps(run);
}

/// How many capacities are tried.
#[derive(Clone, Copy)]
enum Capacities {
    Telling,
    /// From 0 to some more than are needed.
    All,
}

impl Capacities {
    fn for_len(self, rng: &mut Rng, len: usize) -> Vec<usize> {
        match self {
            Capacities::Telling => capacities(rng, len),
            Capacities::All => (0..len + 9).collect(),
        }
    }
}

/// A bundle that the library only reads, and the judge of its answers.
struct Trial<'a> {
    judge: &'a mut Judge,
    bundle: ReadOnly<u8>,
}

impl Trial<'_> {
    /// As C has it, and as Rust has it.
    fn read(&mut self) {
        let call = Call::new("bundle_read", "");
        let answer = reference::bundle::read(self.bundle.original());
        let answer = answer.map(|counts| (counts.slots, counts.frames));
        self.judge.value(&call, answer, |(slots, frames), refusal| {
            raw::bundle_read(self.bundle.contents(), slots, frames, refusal)
        });
        self.settle(&call);
        let call = Call::new("bundle_read", " from Rust");
        self.judge.value(&call, answer, |counts, refusal| {
            let read = pciv::bundle::read(self.bundle.contents());
            told(read.map(|read| (read.slots, read.frames)), counts, refusal)
        });
        self.settle(&call);
    }

    /// As C has it, and as Rust has it.
    fn row(&mut self, slot: u64) {
        let answer = reference::bundle::row(self.bundle.original(), slot);
        let call = Call::new("bundle_row", format!(" of slot {slot}"));
        self.judge.buffer(
            &call,
            MAX_FRAMES,
            |row: &mut [u32]| answer.map(|distances| row.copy_from_slice(&distances)),
            |row, (), refusal| {
                let row = row.try_into().expect("eight distances");
                raw::bundle_row(self.bundle.contents(), slot, row, refusal)
            },
        );
        self.settle(&call);
        let call = Call::new("bundle_row", format!(" of slot {slot} from Rust"));
        self.judge.value(&call, answer, |row, refusal| {
            let answer = pciv::bundle::row(self.bundle.contents(), slot);
            told(answer, row, refusal)
        });
        self.settle(&call);
    }

    /// As C has it, and as Rust has it.
    fn nearest(&mut self, capacity: usize) {
        let call = Call::with_capacity("bundle_nearest", capacity);
        self.judge.buffer(
            &call,
            capacity,
            |out| reference::bundle::nearest(self.bundle.original(), out),
            |out, count, refusal| raw::bundle_nearest(self.bundle.contents(), out, count, refusal),
        );
        self.settle(&call);
        let call = Call::new("bundle_nearest", format!(" from Rust, capacity {capacity}"));
        self.judge.buffer(
            &call,
            capacity,
            |out| reference::bundle::nearest(self.bundle.original(), out),
            |out, count, refusal| {
                let answer = pciv::bundle::nearest(self.bundle.contents(), out);
                told(answer.map(|count| count as u64), count, refusal)
            },
        );
        self.settle(&call);
    }

    fn settle(&mut self, call: &Call) {
        self.bundle.settle(self.judge, call, "the bundle");
    }
}

/// Compares every call on one bundle.
fn compare_reading(judge: &mut Judge, rng: &mut Rng, bundle: &[u8], tried: Capacities) {
    let answer = reference::bundle::read(bundle);
    if answer.is_ok() || answer.is_err_and(|refusal| refusal.number == 14) {
        judge.bundles.extend(met_by_records(bundle));
    }
    let bundle = ReadOnly::new(rng, bundle, SENTINEL);
    let len = bundle.original().len();
    let mut trial = Trial { judge, bundle };
    trial.read();
    match answer {
        Ok(counts) => {
            for slot in telling_slots(rng, counts.slots) {
                trial.row(slot);
            }
            for capacity in tried.for_len(rng, counts.slots as usize) {
                trial.nearest(capacity);
            }
        }
        Err(_) => {
            trial.row(0);
            trial.row(u64::MAX);
            trial.nearest(0);
            trial.nearest(rng.pick(&[1, 4, 100]).min(len));
        }
    }
}

/// Slots at both ends of n, a random one, and others beyond, also such that are inside in 32 bits.
fn telling_slots(rng: &mut Rng, n: u64) -> Vec<u64> {
    let any = rng.below(n.max(1) as usize) as u64;
    let high = 1 << 32;
    let mut slots = vec![0, 1, any, n, n + 1, high, high + any, 1 << 63, u64::MAX];
    slots.extend([n.checked_sub(1), n.checked_sub(2)].into_iter().flatten());
    slots
}

/// Frames that the library only reads, and how many of them it has to use.
struct Parts {
    frames: Vec<ReadOnly<u8>>,
    count: usize,
}

impl Parts {
    /// Eight frames; where there are fewer the last one is repeated, in the same memory.
    fn eight<'a>(&'a self, of: fn(&'a ReadOnly<u8>) -> &'a [u8]) -> [&'a [u8]; MAX_FRAMES] {
        let last = self.frames.len() - 1;
        array::from_fn(|i| of(&self.frames[i.min(last)]))
    }

    fn write_by_reference(&self, out: &mut [u8]) -> Answer<u64> {
        reference::bundle::write(&self.eight(ReadOnly::original), self.count as u64, out)
    }

    /// As C has it.
    fn write(&mut self, judge: &mut Judge, capacity: usize) {
        let with = format!(" of {} frames, capacity {capacity}", self.count);
        let call = Call::new("bundle_write", with);
        judge.buffer(
            &call,
            capacity,
            |out| self.write_by_reference(out),
            |out, written, refusal| {
                let frames = self.eight(ReadOnly::contents);
                raw::bundle_write(&frames, self.count, out, written, refusal)
            },
        );
        self.settle(judge, &call);
    }

    /// As Rust has it, with exactly so many frames.
    fn write_from_rust(&mut self, judge: &mut Judge, capacity: usize) {
        let with = format!(" of {} frames from Rust, capacity {capacity}", self.count);
        let call = Call::new("bundle_write", with);
        judge.buffer(
            &call,
            capacity,
            |out| self.write_by_reference(out),
            |out, written, refusal| {
                let frames = self.eight(ReadOnly::contents).into_iter().cycle();
                let frames: Vec<&[u8]> = frames.take(self.count).collect();
                let answer = pciv::bundle::write(&frames, out);
                told(answer.map(|len| len as u64), written, refusal)
            },
        );
        self.settle(judge, &call);
    }

    fn settle(&mut self, judge: &mut Judge, call: &Call) {
        for (number, frame) in (1..).zip(&mut self.frames) {
            frame.settle(judge, call, &format!("frame {number}"));
        }
    }
}

/// Compares calls that write a bundle. Answers it where they are done.
fn compare_writing(
    judge: &mut Judge,
    rng: &mut Rng,
    frames: &[Vec<u8>],
    count: usize,
    tried: Capacities,
) -> Option<Vec<u8>> {
    let place = |frame: &Vec<u8>| ReadOnly::new(rng, frame, SENTINEL);
    let frames = frames.iter().map(place).collect();
    let mut parts = Parts { frames, count };
    let used = &parts.eight(ReadOnly::original)[..count.min(MAX_FRAMES)];
    let len = pciv::bundle::bundle_len(used);
    let mut bundle = vec![0; len];
    let answer = parts.write_by_reference(&mut bundle);
    let capacities = match answer {
        Ok(written) => {
            judge.same(&"the length of the bundle", written, len as u64);
            tried.for_len(rng, len)
        }
        Err(_) => vec![0, rng.pick(&[11, 13, 100, 3_000])],
    };
    for capacity in capacities {
        parts.write(judge, capacity);
        if count <= 2 * MAX_FRAMES {
            parts.write_from_rust(judge, capacity);
        }
    }
    answer.is_ok().then_some(bundle)
}

/// A bundle to read.
struct Reading {
    what: String,
    bundle: Vec<u8>,
}

impl Reading {
    fn new(what: impl Into<String>, bundle: Vec<u8>) -> Reading {
        let what = what.into();
        Reading { what, bundle }
    }

    fn with_faults(base: &[Record], faults: &[Fault]) -> Reading {
        Reading::new(format!("{faults:?}"), with_faults(base, faults))
    }
}

impl Subject for Reading {
    fn describe(&self) -> String {
        format!("{}, {} bytes", self.what, self.bundle.len())
    }

    fn compare(&self, judge: &mut Judge, rng: &mut Rng) {
        compare_reading(judge, rng, &self.bundle, Capacities::Telling);
    }
}

/// Frames to write, and how many of them are used.
struct Writing {
    what: String,
    frames: Vec<Vec<u8>>,
    count: usize,
}

impl Subject for Writing {
    fn describe(&self) -> String {
        let lens: Vec<usize> = self.frames.iter().map(Vec::len).collect();
        format!("{} of {lens:?} bytes, count {}", self.what, self.count)
    }

    fn compare(&self, judge: &mut Judge, rng: &mut Rng) {
        let Writing { frames, count, .. } = self;
        compare_writing(judge, rng, frames, *count, Capacities::Telling);
    }
}

/// Frames, sound or not, that are written, and read in a bundle that says this number of slots.
struct Frames {
    what: String,
    frames: Vec<Vec<u8>>,
    slots: usize,
}

impl Subject for Frames {
    fn describe(&self) -> String {
        let Frames {
            what,
            frames,
            slots,
        } = self;
        let lens: Vec<usize> = frames.iter().map(Vec::len).collect();
        format!("{what}, frames of {lens:?} bytes, {slots} slots")
    }

    fn compare(&self, judge: &mut Judge, rng: &mut Rng) {
        let records = records::records(self.slots, &self.frames);
        let bundle = records::bytes(&records);
        compare_reading(judge, rng, &bundle, Capacities::Telling);
        let frames = with_garbage(rng, &self.frames);
        let count = self.frames.len();
        compare_writing(judge, rng, &frames, count, Capacities::Telling);
    }
}

/// The frames, then some that are not to be looked at: none, any bytes, frames of another size, damaged
/// ones.
fn with_garbage(rng: &mut Rng, frames: &[Vec<u8>]) -> Vec<Vec<u8>> {
    let mut frames = frames.to_vec();
    while frames.len() < MAX_FRAMES {
        let garbage = match rng.below(4) {
            0 => vec![],
            1 => {
                let len = rng.below(90);
                rng.bytes(len)
            }
            2 => encode(&vec![300; rng.below(9)]),
            _ => {
                let mut damaged = frames[0].clone();
                damaged.push(0);
                damaged
            }
        };
        frames.push(garbage);
    }
    frames
}

/// Lists of equal length, which are written as frames and read again.
struct Burst {
    what: String,
    lists: Vec<Vec<u32>>,
    tried: Capacities,
}

impl Subject for Burst {
    fn describe(&self) -> String {
        let slots = self.lists[0].len();
        format!("{}, {} frames, {slots} slots", self.what, self.lists.len())
    }

    fn compare(&self, judge: &mut Judge, rng: &mut Rng) {
        let Burst { lists, tried, .. } = self;
        let files: Vec<Vec<u8>> = lists.iter().map(|list| encode(list)).collect();
        let frames = with_garbage(rng, &files);
        let written = compare_writing(judge, rng, &frames, lists.len(), *tried);
        let bundle = records::bytes(&records::records(lists[0].len(), &files));
        let written = written.unwrap_or_default();
        judge.same_buffer(&"the reference's bundle", &bundle, &written);
        hold_reference(judge, &bundle, lists);
        judge.bundles.extend(met_by_slots(lists));
        compare_reading(judge, rng, &bundle, *tried);
    }
}

/// Holds the reference to the lists that a bundle was made of.
fn hold_reference(judge: &mut Judge, bundle: &[u8], lists: &[Vec<u32>]) {
    let n = lists[0].len();
    let at = |slot: usize| lists.iter().map(move |list| list[slot]);
    let least = |slot| at(slot).filter(|&distance| distance > 0).min();
    let wanted: Vec<u32> = (0..n).map(|slot| least(slot).unwrap_or(0)).collect();
    let mut nearest = vec![0; n];
    let count = reference::bundle::nearest(bundle, &mut nearest);
    judge.same(&"the reference's slots", Ok(n as u64), count);
    judge.same_buffer(&"the reference's nearest distances", &wanted, &nearest);
    for slot in damage::ends_and_middle(n) {
        let mut wanted = [0; MAX_FRAMES];
        wanted.iter_mut().zip(at(slot)).for_each(|(to, x)| *to = x);
        let row = reference::bundle::row(bundle, slot as u64);
        judge.same(&"the reference's row", Ok(wanted), row);
    }
}

/// A list to be one of several frames: one of the mixtures, or zero distances among those at borders.
fn list(rng: &mut Rng, n: usize) -> Vec<u32> {
    match rng.below(3) {
        0 => lists::zeros_and(rng, n, |rng| rng.pick(&[1, 2, 254, 255, 256, u32::MAX])),
        _ => lists::mixed(rng, n),
    }
}

/// Sizes next to multiples of those that a program may take at once.
const LONG_SIZES: [usize; 9] = [
    4_095, 4_096, 4_097, 8_191, 8_192, 8_193, 12_287, 12_288, 12_289,
];

/// Bundles of 1 to 8 lists.
fn bursts(run: &mut Run) {
    for number in 0..800 {
        run.case("burst", number, |rng| {
            let n = match number % 8 {
                0 => rng.pick(&LONG_SIZES),
                1 => 0,
                _ => lists::size(rng),
            };
            burst(rng, n, 1 + number / 8 % MAX_FRAMES)
        });
    }
    for number in 0..MAX_FRAMES {
        run.case("burst of one file", number, |rng| {
            let n = lists::size(rng);
            let frames = vec![encode(&list(rng, n))];
            let (what, count) = ("frames in the same memory".into(), number + 1);
            Writing {
                what,
                frames,
                count,
            }
        });
    }
}

fn burst(rng: &mut Rng, n: usize, frames: usize) -> Burst {
    Burst {
        what: "lists".into(),
        lists: (0..frames).map(|_| list(rng, n)).collect(),
        tried: Capacities::Telling,
    }
}

/// Frames with numbers of overflow entries where the index changes.
fn overflow_counts(run: &mut Run) {
    let counts: Vec<usize> = [0, 1].into_iter().chain(STEP_BORDERS).collect();
    for (number, &k) in counts.iter().enumerate() {
        for (inner, spread) in SPREADS.into_iter().enumerate() {
            run.case("burst, overflow count", 3 * number + inner, |rng| {
                let n = 4_097 + rng.below(600);
                let frames = 1 + (3 * number + inner) % MAX_FRAMES;
                let mut others = (1..frames).map(|_| {
                    let k = rng.pick(&counts);
                    let spread = rng.pick(&SPREADS);
                    lists::with_overflow(rng, n, k, spread)
                });
                let mut lists: Vec<Vec<u32>> = others.by_ref().collect();
                let at = rng.below(frames);
                lists.insert(at, lists::with_overflow(rng, n, k, spread));
                Burst {
                    what: format!("{k} in overflow ({spread:?}) in frame {}", at + 1),
                    lists,
                    tried: Capacities::Telling,
                }
            });
        }
    }
}

/// Small bundles in every capacity: of the writer's buffer, and of the list.
fn every_capacity(run: &mut Run) {
    let examples = lists::EXAMPLES.map(<[u32]>::to_vec);
    let [a, b, ones, empty] = examples;
    let bursts = [
        vec![a.clone(), b.clone()],
        vec![a.clone()],
        vec![b, a, ones],
        vec![empty; 3],
        vec![vec![300; 65], vec![0; 65]],
        vec![vec![255]; 8],
    ];
    for (number, lists) in bursts.into_iter().enumerate() {
        run.case("burst in every capacity", number, |_| Burst {
            what: "every capacity".into(),
            lists,
            tried: Capacities::All,
        });
    }
}

/// A small bundle of this many frames of four slots.
fn small(rng: &mut Rng, frames: usize) -> Vec<Record> {
    let frames: Vec<Vec<u8>> = (0..frames).map(|_| encode(&list(rng, 4))).collect();
    records::records(4, &frames)
}

/// Kinds that are skipped, and lengths of what they have.
const OTHER_KINDS: [u16; 9] = [2, 3, 255, 256, 257, 512, 1 << 15, u16::MAX - 1, u16::MAX];
const OTHER_LENS: [usize; 11] = [0, 1, 2, 3, 4, 6, 7, 8, 100, 256, 5_000];

/// A record to be skipped, whose payload may look like records.
fn other_record(rng: &mut Rng) -> Record {
    let payload = match rng.below(4) {
        0 => records::bytes(&small(rng, 1)),
        _ => {
            let len = rng.pick(&OTHER_LENS);
            rng.bytes(len)
        }
    };
    Record::new(rng.pick(&OTHER_KINDS), &payload)
}

/// Records to be skipped: each kind and each length, at every place behind the header; several; many.
fn skipped_records(run: &mut Run) {
    let mut number = 0;
    for frames in [1, 3, MAX_FRAMES] {
        for at in 1..frames + 2 {
            for turn in 0..OTHER_KINDS.len().max(OTHER_LENS.len()) {
                run.case("record to be skipped", number, |rng| {
                    let kind = OTHER_KINDS[turn % OTHER_KINDS.len()];
                    let payload = rng.bytes(OTHER_LENS[turn % OTHER_LENS.len()]);
                    let record = Record::new(kind, &payload);
                    Reading::with_faults(&small(rng, frames), &[Fault::Insert(at, record)])
                });
                number += 1;
            }
        }
    }
    for number in 0..400 {
        run.case("records to be skipped", number, |rng| {
            let mut records = small(rng, 1 + number % MAX_FRAMES);
            for _ in 0..rng.pick(&[2, 3, 10, 60]) {
                let at = 1 + rng.below(records.len());
                records.insert(at, other_record(rng));
            }
            let what = format!("{} records", records.len());
            Reading::new(what, records::bytes(&records))
        });
    }
}

/// The bundles to put faults into: one frame; three, with records to be skipped; eight.
fn bases(run: &Run, group: &str) -> Vec<Vec<Record>> {
    let mut rng = Rng::new(case_seed(run.seed, group, 0));
    let mut skipping = small(&mut rng, 3);
    for at in [1, 3, 6] {
        let record = other_record(&mut rng);
        skipping.insert(at, record);
    }
    vec![small(&mut rng, 1), skipping, small(&mut rng, MAX_FRAMES)]
}

/// Each fault of the records alone, pairs of them, and pairs with damaged frames.
fn bad_records(run: &mut Run) {
    for (number, base) in bases(run, "records").into_iter().enumerate() {
        let faults = every_fault(&base);
        for (case, fault) in faults.iter().enumerate() {
            run.case(&format!("bad record, bundle {number},"), case, |_| {
                Reading::with_faults(&base, slice::from_ref(fault))
            });
        }
        let all = 0..faults.len();
        let pairs = all.flat_map(|first| (0..=first).map(move |second| [first, second]));
        for (case, pair) in pairs.enumerate() {
            run.case(&format!("two bad records, bundle {number},"), case, |_| {
                Reading::with_faults(&base, &pair.map(|at| faults[at].clone()))
            });
        }
        for case in 0..500 {
            let group = format!("bad record and damaged frame, bundle {number},");
            run.case(&group, case, |rng| {
                let mut base = base.clone();
                let frames = base.iter_mut().filter(|record| record.kind == FRAME);
                for Record { payload, .. } in frames {
                    let at = rng.below(payload.len());
                    payload[at] = rng.pick(&[0, 1, 255, payload[at], payload[at]]);
                }
                let fault = faults[rng.below(faults.len())].clone();
                Reading::with_faults(&base, &[fault])
            });
        }
    }
}

/// Bundles that end at every byte, and that go on for some.
fn cut_bundles(run: &mut Run) {
    for (number, base) in bases(run, "bundle to cut").into_iter().enumerate() {
        let whole = records::bytes(&base);
        for len in 0..whole.len().min(1_200) {
            run.case(&format!("cut bundle {number},"), len, |_| {
                Reading::new("cut", whole[..len].to_vec())
            });
        }
        for more in 0..20 {
            run.case(&format!("longer bundle {number},"), more, |rng| {
                let byte = rng.pick(&[0, 1, 2, 8, 255]);
                let mut bundle = whole.clone();
                bundle.resize(whole.len() + more, byte);
                Reading::new(format!("{more} bytes of {byte} more"), bundle)
            });
        }
    }
}

/// The frames to damage: slots and overflow entries, and how many cases with two of them damaged.
const BASES: [(usize, usize, usize); 5] = [
    (0, 0, 200),
    (1, 1, 200),
    (4, 2, 1_000),
    (65, 3, 1_000),
    (2_100, 2_049, 200),
];

/// Frames of fewer slots are damaged in each of eight places, others in one.
const FEW_SLOTS: usize = 100;

/// One fault in every field of a frame, the first to the eighth, with frames behind it and without. Two
/// damaged frames; a damaged frame and one of another size.
fn damaged_frames(run: &mut Run) {
    for (number, (n, k, count)) in BASES.into_iter().enumerate() {
        let mut rng = Rng::new(case_seed(run.seed, "frame to damage", number));
        let base = encode(&lists::with_overflow(&mut rng, n, k, SPREADS[2]));
        let summary = reference::check(&base).expect("a list's file is sound");
        let single = damage::every_field(&base, &summary);
        let name = format!("{n} slots, {k} in overflow");
        for (case, damage) in single.iter().enumerate() {
            let places = match n {
                0..FEW_SLOTS => 0..MAX_FRAMES,
                _ => case % MAX_FRAMES..case % MAX_FRAMES + 1,
            };
            for place in places {
                let number = MAX_FRAMES * case + place;
                run.case(&format!("damaged frame, {name},"), number, |rng| {
                    let frames = place + 1 + rng.below(MAX_FRAMES - place);
                    let mut frames = beside(rng, &base, n, place, frames);
                    damage.apply(&mut frames[place]);
                    let what = format!("frame {}: {damage:?}", place + 1);
                    Frames {
                        what,
                        frames,
                        slots: n,
                    }
                });
            }
        }
        for case in 0..count {
            run.case(&format!("two damaged frames, {name},"), case, |rng| {
                let frames = 2 + rng.below(MAX_FRAMES - 1);
                let mut frames = beside(rng, &base, n, 0, frames);
                let mut what = String::new();
                for _ in 0..2 {
                    let place = rng.below(frames.len());
                    let damage = single[rng.below(single.len())].clone();
                    frames[place] = match rng.below(4) {
                        0 => encode(&vec![7; n + 1]),
                        _ => damaged(&base, &damage),
                    };
                    what += &format!("frame {}: {damage:?} or another size; ", place + 1);
                }
                let slots = rng.pick(&[n, n, n + 1]);
                Frames {
                    what,
                    frames,
                    slots,
                }
            });
        }
    }
}

fn damaged(base: &[u8], damage: &Damage) -> Vec<u8> {
    let mut file = base.to_vec();
    damage.apply(&mut file);
    file
}

/// So many frames of n slots, this file at one place.
fn beside(rng: &mut Rng, file: &[u8], n: usize, place: usize, frames: usize) -> Vec<Vec<u8>> {
    let mut all: Vec<Vec<u8>> = (0..frames)
        .map(|_| encode(&lists::zeros_and(rng, n, |rng| rng.byte().into())))
        .collect();
    all[place] = file.to_vec();
    all
}

/// Frames of other sizes than the bundle says, than frame 1 has, or both.
fn unequal_frames(run: &mut Run) {
    for number in 0..600 {
        run.case("frames of unequal sizes", number, |rng| {
            let n = lists::size(rng);
            let mut sizes = vec![n; 1 + number % MAX_FRAMES];
            for _ in 0..rng.below(3) {
                let at = rng.below(sizes.len());
                sizes[at] = rng.pick(&[n + 1, n.saturating_sub(1), 0, 1, n + 256]);
            }
            let most = MAX_SLOTS as usize;
            let slots = match rng.below(3) {
                0 => rng.pick(&[n + 1, sizes[0], 0, n + (1 << 16), most, most + 1]),
                _ => n,
            };
            let frames = sizes.iter().map(|&n| encode(&list(rng, n))).collect();
            let what = format!("sizes {sizes:?}");
            Frames {
                what,
                frames,
                slots,
            }
        });
    }
}

/// Counts for the writer: each, none, too many, and such that are right in fewer bits; with sound frames
/// only, and with ones that are not to be looked at.
fn counts_to_write(run: &mut Run) {
    const COUNTS: [usize; 22] = [
        0,
        1,
        2,
        3,
        4,
        5,
        6,
        7,
        8,
        9,
        10,
        16,
        255,
        256,
        257,
        264,
        (1 << 16) + 1,
        1 << 32,
        (1 << 32) + 1,
        (1 << 32) + 8,
        1 << 63,
        usize::MAX,
    ];
    for (number, count) in COUNTS.into_iter().enumerate() {
        for inner in 0..12 {
            run.case("count to write", 12 * number + inner, |rng| {
                let n = lists::size(rng).min(70);
                let used = match inner {
                    0..4 => MAX_FRAMES,
                    4..8 => count.min(MAX_FRAMES),
                    _ => rng.below(MAX_FRAMES + 1),
                };
                let frames: Vec<Vec<u8>> =
                    (0..used.max(1)).map(|_| encode(&list(rng, n))).collect();
                Writing {
                    what: format!("{used} sound frames"),
                    frames: with_garbage(rng, &frames),
                    count,
                }
            });
        }
    }
}

/// Records that come as they come, mostly with the right lengths, some bytes of them changed; and bytes.
fn random_records(run: &mut Run) {
    for number in 0..6_000 {
        run.case("random records", number, |rng| {
            let n = rng.below(4);
            let frames = rng.below(4);
            let mut records = vec![Record::header(n as u32, 1 + frames as u16)];
            for _ in 0..rng.below(7) {
                let n = rng.pick(&[n, n, n, n, n, n + 1]);
                records.push(match rng.below(8) {
                    0..5 => Record::new(FRAME, &encode(&list(rng, n))),
                    5 => Record::header(n as u32, 1),
                    _ => other_record(rng),
                });
            }
            let mut bundle = records::bytes(&records);
            for _ in 0..rng.below(3) {
                let at = rng.below(bundle.len());
                bundle[at] = rng.pick(&[0, 1, 2, 8, 40, 255]);
            }
            Reading::new(format!("{} records", records.len()), bundle)
        });
    }
    for number in 0..3_000 {
        run.case("random bytes as a bundle", number, |rng| {
            let len = rng.below(60);
            let any = (0..len).map(|_| rng.pick(&[0, 0, 0, 1, 2, 4, 8, 255]));
            let any: Vec<u8> = any.collect();
            let header = records::bytes(&[Record::header(0, 1)]);
            let front = if number % 2 == 0 { &header[..] } else { &[] };
            let bundle = [front, &any].concat();
            Reading::new(format!("random {bundle:?}"), bundle)
        });
    }
}

/// The largest maps: eight of them, 1 % in overflow; one with all and one at the largest distance; one
/// alone; one slot too many, in a frame and in the header.
fn largest_maps(run: &mut Run) {
    let n = MAX_SLOTS as usize;
    run.case("burst of the largest maps", 0, |rng| Burst {
        what: "1 % in overflow".into(),
        lists: (0..MAX_FRAMES)
            .map(|_| lists::with_overflow(rng, n, n / 100, SPREADS[2]))
            .collect(),
        tried: Capacities::Telling,
    });
    run.case("burst of the largest maps", 1, |rng| Burst {
        what: "all in overflow".into(),
        lists: vec![
            vec![u32::MAX; n],
            lists::with_overflow(rng, n, n, SPREADS[2]),
        ],
        tried: Capacities::Telling,
    });
    run.case("burst of the largest maps", 2, |rng| burst(rng, n, 1));
    run.case("burst of the largest maps", 3, |_| {
        let mut file = encode(&vec![0; n]);
        file[8..16].copy_from_slice(&(MAX_SLOTS + 1).to_le_bytes());
        file.push(0);
        Frames {
            what: "one slot too many".into(),
            frames: vec![encode(&vec![0; n]), file],
            slots: n,
        }
    });
    run.case("burst of the largest maps", 4, |_| Frames {
        what: "one slot too many in the header".into(),
        frames: vec![encode(&vec![0; n])],
        slots: n + 1,
    });
}
