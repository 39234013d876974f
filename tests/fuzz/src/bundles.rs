//! Bundles: frames, mostly of one size, among other records; damaged frames, and records at fault.

use crate::call::{dirty, Bench, NONE};
use crate::files::{damage, encode, list, put};
use crate::input::Input;
use pciv::raw;
use reference::bundle::MAX_FRAMES;

/// How many faults: mostly none, up to three.
fn faults(input: &mut Input) -> usize {
    match input.byte() {
        0..=159 => 0,
        160..=223 => 1,
        code => usize::from(code / 16) - 12,
    }
}

/// So many frames, some of them damaged, and the slots of the first before that.
fn frames(input: &mut Input, count: usize) -> (Vec<Vec<u8>>, usize) {
    let first = list(input, None);
    let n = first.len();
    let mut frames = vec![encode(&first)];
    for _ in 1..count {
        frames.push(encode(&list(input, Some(n))));
    }
    for _ in 0..faults(input) {
        let at = input.below(count);
        damage(input, &mut frames[at]);
    }
    (frames, n)
}

/// A record: its length, its kind and its payload.
fn record(kind: u16, payload: &[u8]) -> Vec<u8> {
    let length = payload.len() as u32 + 2;
    [&length.to_le_bytes()[..], &kind.to_le_bytes(), payload].concat()
}

fn header(slots: u32, frames: u16) -> Vec<u8> {
    record(
        0,
        &[&slots.to_le_bytes()[..], &frames.to_le_bytes()].concat(),
    )
}

/// A bundle: that of some frames, with other records among them and perhaps with faults, or bytes as they
/// come.
fn bundle(input: &mut Input) -> Vec<u8> {
    if input.byte() >= 248 {
        let len = input.below(256);
        return input.bytes(len).to_vec();
    }
    let count = 1 + input.below(MAX_FRAMES);
    let (frames, n) = frames(input, count);
    let mut records = vec![header(n as u32, count as u16)];
    records.extend(frames.iter().map(|frame| record(1, frame)));
    for _ in 0..input.below(64).saturating_sub(56) {
        let at = 1 + input.below(records.len());
        let kind = (input.number(&[256]) as u16).max(2);
        let len = input.below(32);
        records.insert(at, record(kind, input.bytes(len)));
    }
    for _ in 0..faults(input) {
        fault(input, &mut records);
    }
    let mut bundle = records.concat();
    if input.byte() >= 240 {
        let len = input.number(&[bundle.len() as u64, 0]) as usize;
        bundle.resize(len.min(bundle.len() + 8), input.byte());
    }
    bundle
}

/// Puts a fault into a record: another length, kind or count; a header or a record more, or a record
/// less; fewer bytes.
fn fault(input: &mut Input, records: &mut Vec<Vec<u8>>) {
    let (at, kind) = (input.below(records.len()), input.byte() % 8);
    let frames = records.len() as u64 - 1;
    let Some(record) = records.get_mut(at) else {
        return;
    };
    let len = record.len() as u64;
    match kind {
        0 => {
            let length = input.number(&[len.saturating_sub(4), 2]) as u32;
            put(record, 0, &length.to_le_bytes());
        }
        1 => put(record, 4, &(input.number(&[0, 256]) as u16).to_le_bytes()),
        2 => {
            let count = input.number(&[frames, 8, 256 + frames]) as u16;
            put(&mut records[0], 10, &count.to_le_bytes());
        }
        3 => {
            let slots = claimed(&records[0]);
            let slots = input.number(&[slots, slots + (1 << 16)]) as u32;
            put(&mut records[0], 6, &slots.to_le_bytes());
        }
        4 => records.insert(at, header(0, 1)),
        5 => records.insert(at, records[at].clone()),
        6 if frames > 0 => drop(records.remove(at)),
        _ => record.truncate(input.number(&[len, 6]).min(len) as usize),
    }
}

/// The slots of a bundle if its header is to be believed.
fn claimed(bundle: &[u8]) -> u64 {
    let slots = bundle.get(6..10).map(|bytes| bytes.try_into());
    slots.map_or(0, |bytes| {
        u32::from_le_bytes(bytes.expect("four bytes")).into()
    })
}

pub fn read(bench: &mut Bench, input: &mut Input) {
    bench.value(
        &bundle(input),
        |bundle| reference::bundle::read(bundle).map(|counts| (counts.slots, counts.frames)),
        |bundle, (slots, frames), refusal| raw::bundle_read(bundle, slots, frames, refusal),
    );
}

pub fn row(bench: &mut Bench, input: &mut Input) {
    let bundle = bundle(input);
    let slot = input.number(&[claimed(&bundle), 1 << 32]);
    bench.value(
        &bundle,
        |bundle| reference::bundle::row(bundle, slot),
        |bundle, row, refusal| raw::bundle_row(bundle, slot, row, refusal),
    );
}

pub fn nearest(bench: &mut Bench, input: &mut Input) {
    let bundle = bundle(input);
    let slots = claimed(&bundle) as usize;
    let capacity = input.capacity(slots.min(bundle.len()));
    bench.list(
        &bundle,
        capacity,
        reference::bundle::nearest,
        raw::bundle_nearest,
    );
}

/// Eight frames, of which the count says how many are to be used. They lie one behind another, any of them
/// first.
pub fn write(bench: &mut Bench, input: &mut Input) {
    let used = 1 + input.below(MAX_FRAMES);
    let (mut frames, _) = frames(input, used);
    while frames.len() < MAX_FRAMES {
        let len = input.below(64);
        frames.push(input.bytes(len).to_vec());
    }
    let count = match input.byte() {
        0..=223 => used,
        _ => input.number(&[8, 256 + used as u64]) as usize,
    };
    let records = frames.iter().take(count).map(|frame| 6 + frame.len());
    let capacity = input.capacity(12 + records.sum::<usize>());
    let first = input.below(MAX_FRAMES);
    let lens: Vec<usize> = frames.iter().map(Vec::len).collect();
    frames.rotate_left(first);
    bench.call(
        (&frames.concat(), NONE, NONE),
        (&dirty::<u8>(capacity), NONE),
        |(bytes, ..), (out, _)| {
            reference::bundle::write(&eight(bytes, &lens, first), count as u64, out)
        },
        |(bytes, ..), (out, _), written, refusal| {
            raw::bundle_write(&eight(bytes, &lens, first), count, out, written, refusal)
        },
    );
}

/// Frames of these lengths, of which one lies at the front of the bytes.
fn eight<'a>(mut bytes: &'a [u8], lens: &[usize], first: usize) -> [&'a [u8]; MAX_FRAMES] {
    let mut eight = [&[][..]; MAX_FRAMES];
    for frame in (first..MAX_FRAMES).chain(0..first) {
        (eight[frame], bytes) = bytes.split_at(lens[frame]);
    }
    eight
}
