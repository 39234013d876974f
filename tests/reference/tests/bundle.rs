//! Bundles by the reference, held to worked cases and to the rules of `docs/FORMAT.md`.

use reference::bundle::{nearest, read, row, write, Counts, MAX_FRAMES};
use reference::{encode, Refusal};

const A: [u32; 4] = [0, 254, 255, 300];
const B: [u32; 4] = [1, 1, 1, 4_294_967_295];
const DIRTY: u8 = 0xA5;
const DIRTY_DISTANCE: u32 = 0xA5A5_A5A5;

fn file_of(distances: &[u32]) -> Vec<u8> {
    encode(distances).expect("few slots")
}

fn refusal(number: u64, map: u64, place: u64) -> Refusal {
    Refusal { number, map, place }
}

/// Bytes of a record, with whatever length.
fn record_of_len(len: u32, kind: u16, payload: &[u8]) -> Vec<u8> {
    [&len.to_le_bytes()[..], &kind.to_le_bytes(), payload].concat()
}

fn record(kind: u16, payload: &[u8]) -> Vec<u8> {
    record_of_len(payload.len() as u32 + 2, kind, payload)
}

/// Record 0.
fn header(slots: u32, frames: u16) -> Vec<u8> {
    record(
        0,
        &[&slots.to_le_bytes()[..], &frames.to_le_bytes()].concat(),
    )
}

/// The record of a frame with these distances.
fn frame(distances: &[u32]) -> Vec<u8> {
    record(1, &file_of(distances))
}

/// The records of A and B in a bundle.
fn records_of_a_b() -> Vec<Vec<u8>> {
    vec![header(4, 2), frame(&A), frame(&B)]
}

/// The frames that the writer takes: those given, then bytes that are no file.
fn eight<'a>(frames: &[&'a [u8]]) -> [&'a [u8]; MAX_FRAMES] {
    let mut eight: [&[u8]; MAX_FRAMES] = [b"no file"; MAX_FRAMES];
    eight[..frames.len()].copy_from_slice(frames);
    eight
}

/// The bundle of the files of some lists. What follows it stays, and it fits into no less.
fn bundle_of(lists: &[&[u32]]) -> Vec<u8> {
    let files: Vec<Vec<u8>> = lists.iter().map(|list| file_of(list)).collect();
    let files: Vec<&[u8]> = files.iter().map(Vec::as_slice).collect();
    let (frames, count) = (eight(&files), files.len() as u64);
    let wanted = 12 + files.iter().map(|file| 6 + file.len()).sum::<usize>();
    let mut out = vec![DIRTY; wanted + 3];
    assert_eq!(write(&frames, count, &mut out), Ok(wanted as u64));
    assert_eq!(out[wanted..], [DIRTY; 3]);
    out.truncate(wanted);
    let mut exact = vec![DIRTY; wanted];
    assert_eq!(write(&frames, count, &mut exact), Ok(wanted as u64));
    assert_eq!(exact, out);
    for capacity in [0, 11, 12, wanted - 1] {
        let mut short = vec![DIRTY; capacity];
        assert_eq!(write(&frames, count, &mut short), Err(refusal(12, 0, 0)));
        assert_eq!(short, vec![DIRTY; capacity]);
    }
    out
}

/// All that a bundle answers: its counts, its rows and its nearest distances. The list of the nearest
/// fits into no less, and what follows it stays.
fn answers(bundle: &[u8]) -> (Counts, Vec<[u32; MAX_FRAMES]>, Vec<u32>) {
    let counts = read(bundle).unwrap();
    let rows = (0..counts.slots).map(|slot| row(bundle, slot).unwrap());
    let slots = counts.slots as usize;
    let mut distances = vec![DIRTY_DISTANCE; slots + 2];
    assert_eq!(nearest(bundle, &mut distances), Ok(counts.slots));
    assert_eq!(distances[slots..], [DIRTY_DISTANCE; 2]);
    distances.truncate(slots);
    if slots > 0 {
        let mut short = vec![DIRTY_DISTANCE; slots - 1];
        assert_eq!(nearest(bundle, &mut short), Err(refusal(12, 0, 0)));
        assert_eq!(short, vec![DIRTY_DISTANCE; slots - 1]);
    }
    for slot in [counts.slots, counts.slots + 1, u64::MAX] {
        assert_eq!(row(bundle, slot), Err(refusal(9, 0, 0)));
    }
    (counts, rows.collect(), distances)
}

/// Every call on a bundle gives this refusal, whatever slot and capacity.
fn assert_refused(bundle: &[u8], number: u64, map: u64, place: u64) {
    let wanted = refusal(number, map, place);
    assert_eq!(read(bundle), Err(wanted));
    for slot in [0, u64::MAX] {
        assert_eq!(row(bundle, slot), Err(wanted));
    }
    for capacity in [0, 9] {
        let mut distances = vec![DIRTY_DISTANCE; capacity];
        assert_eq!(nearest(bundle, &mut distances), Err(wanted));
        assert_eq!(distances, vec![DIRTY_DISTANCE; capacity]);
    }
}

#[test]
fn a_and_b_in_a_bundle() {
    let bundle = bundle_of(&[&A, &B]);
    assert_eq!(bundle.len(), 148);
    assert_eq!(bundle[..12], [8, 0, 0, 0, 0, 0, 4, 0, 0, 0, 2, 0]);
    assert_eq!(bundle[12..18], [70, 0, 0, 0, 1, 0]);
    assert_eq!(bundle[18..86], file_of(&A));
    assert_eq!(bundle[86..92], [58, 0, 0, 0, 1, 0]);
    assert_eq!(bundle[92..], file_of(&B));

    let (counts, rows, distances) = answers(&bundle);
    assert_eq!((counts.slots, counts.frames), (4, 2));
    let wanted = [
        [0, 1, 0, 0, 0, 0, 0, 0],
        [254, 1, 0, 0, 0, 0, 0, 0],
        [255, 1, 0, 0, 0, 0, 0, 0],
        [300, 4_294_967_295, 0, 0, 0, 0, 0, 0],
    ];
    assert_eq!(rows, wanted);
    assert_eq!(distances, [1, 1, 1, 300]);
}

#[test]
fn one_to_eight_frames() {
    let lists: [[u32; 3]; 8] = [
        [0, 900, 0],
        [0, 0, 0],
        [0, 800, 254],
        [0, 1_000, 255],
        [0, 255, 256],
        [0, 4_294_967_295, 0],
        [0, 254, 300],
        [0, 9, 1],
    ];
    let nearest_at_1 = [900, 900, 800, 800, 255, 255, 254, 9];
    let nearest_at_2 = [0, 0, 254, 254, 254, 254, 254, 1];
    for count in 1..=8 {
        let used: Vec<&[u32]> = lists[..count].iter().map(|list| &list[..]).collect();
        let (counts, rows, distances) = answers(&bundle_of(&used));
        assert_eq!((counts.slots, counts.frames), (3, count as u64));
        for (slot, row) in rows.iter().enumerate() {
            let mut wanted = lists.map(|list| list[slot]);
            wanted[count..].fill(0);
            assert_eq!(*row, wanted);
        }
        let at = count - 1;
        assert_eq!(distances, [0, nearest_at_1[at], nearest_at_2[at]]);
    }
}

#[test]
fn a_bundle_of_no_slots() {
    let bundle = bundle_of(&[&[], &[], &[]]);
    assert_eq!(bundle.len(), 12 + 3 * 46);
    let (counts, rows, distances) = answers(&bundle);
    assert_eq!((counts.slots, counts.frames), (0, 3));
    assert!(rows.is_empty() && distances.is_empty());
    assert_eq!(nearest(&bundle, &mut []), Ok(0));
}

#[test]
fn frames_with_an_index() {
    let lists = [2_048, 2_049, 4_097].map(|k| {
        let mut list = vec![7; 5_000];
        list[..k].fill(300 + k as u32);
        list
    });
    let bundle = bundle_of(&lists.each_ref().map(Vec::as_slice));
    let rows = [
        (2_047, [2_348, 2_349, 4_397, 0, 0, 0, 0, 0]),
        (2_048, [7, 2_349, 4_397, 0, 0, 0, 0, 0]),
        (4_096, [7, 7, 4_397, 0, 0, 0, 0, 0]),
        (4_999, [7, 7, 7, 0, 0, 0, 0, 0]),
    ];
    for (slot, wanted) in rows {
        assert_eq!(row(&bundle, slot), Ok(wanted));
    }
    let mut distances = vec![DIRTY_DISTANCE; 5_000];
    assert_eq!(nearest(&bundle, &mut distances), Ok(5_000));
    assert_eq!(distances[2_046..2_050], [2_348, 2_348, 7, 7]);
}

#[test]
fn other_kinds_are_passed_over() {
    let wanted = answers(&bundle_of(&[&A, &B]));
    let others = [
        record(2, &[]),
        record(2, b"three"),
        record(255, &[0]),
        record(256, &header(4, 2)),
        record(257, &frame(&A)),
        record(65_535, &[0; 70_000]),
    ];
    for place in 1..=3 {
        for other in &others {
            let mut records = records_of_a_b();
            records.insert(place, other.clone());
            assert_eq!(answers(&records.concat()), wanted);
            records.insert(place, other.clone());
            assert_eq!(answers(&records.concat()), wanted);
        }
    }
}

#[test]
fn cuts_at_every_byte() {
    let bundle = bundle_of(&[&A, &B]);
    for len in 0..bundle.len() {
        // records 0, 1 and 2 begin at 0, 12 and 86
        let place = match len {
            0..=11 => 0,
            12..=85 => 1,
            86.. => 2,
        };
        assert_refused(&bundle[..len], 14, 0, place);
    }
}

#[test]
fn bytes_left_over_are_a_record_cut_short() {
    for left in 1..=3 {
        let bundle = [bundle_of(&[&A, &B]), vec![0; left]].concat();
        assert_refused(&bundle, 14, 0, 3);
        assert_refused(&vec![0; left], 14, 0, 0);
    }
    let cut = [bundle_of(&[&A, &B]), record_of_len(3, 2, &[])].concat();
    assert_refused(&cut, 14, 0, 3);
    let endless = [bundle_of(&[&A, &B]), record_of_len(u32::MAX, 2, &[])].concat();
    assert_refused(&endless, 14, 0, 3);
}

#[test]
fn lengths_below_2() {
    for len in [0, 1] {
        for place in 0..=3 {
            let mut records = records_of_a_b();
            let bytes = [&[len, 0, 0, 0][..], &vec![9; len.into()]].concat();
            records.insert(place, bytes);
            assert_refused(&records.concat(), 14, 0, place as u64);
        }
    }
}

#[test]
fn the_first_record_is_the_header() {
    let frames = || [frame(&A), frame(&B)].concat();
    let with_first = |first: Vec<u8>| [first, frames()].concat();
    assert_eq!(read(&with_first(header(4, 2))).unwrap().frames, 2);
    for kind in [1, 2, 256, 65_535] {
        let counts = record(kind, &[4, 0, 0, 0, 2, 0]);
        assert_refused(&with_first(counts), 14, 0, 0);
    }
    for counts in [&[][..], &[4, 0, 0, 0, 2], &[4, 0, 0, 0, 2, 0, 0]] {
        assert_refused(&with_first(record(0, counts)), 14, 0, 0);
    }
    for count in [0, 9, 256, 257, 65_535] {
        assert_refused(&with_first(header(4, count)), 14, 0, 0);
    }
    assert_refused(&frames(), 14, 0, 0);
}

#[test]
fn a_later_header() {
    for place in 1..=3 {
        for later in [header(4, 2), record(0, &[])] {
            let mut records = records_of_a_b();
            records.insert(place, later);
            assert_refused(&records.concat(), 14, 0, place as u64);
        }
    }
}

#[test]
fn a_frame_too_many() {
    let mut records = vec![header(4, 1), frame(&A), frame(&B)];
    assert_refused(&records.concat(), 14, 0, 2);
    records.insert(1, record(2, &[]));
    assert_refused(&records.concat(), 14, 0, 3);

    let nine = [vec![header(4, 8)], vec![frame(&A); 9]].concat();
    assert_refused(&nine.concat(), 14, 0, 9);
}

#[test]
fn frames_missing() {
    assert_refused(&header(4, 1), 14, 0, 1);
    assert_refused(&[header(4, 3), frame(&A), frame(&B)].concat(), 14, 0, 3);
    let passed_over = [record(9, &[]), record(9, &[1])].concat();
    assert_refused(&[header(4, 1), passed_over].concat(), 14, 0, 3);
}

#[test]
fn the_least_record_at_fault() {
    let cut = || vec![9, 0, 0];
    let empty = || vec![0; 4];
    let cases = [
        (vec![header(4, 2), header(4, 2), frame(&A), cut()], 1),
        (vec![header(4, 1), frame(&A), frame(&B), header(4, 1)], 2),
        (vec![header(4, 1), frame(&A), header(4, 1), frame(&B)], 2),
        (vec![header(4, 0), frame(&A), empty()], 0),
        (vec![header(4, 2), empty(), header(4, 2)], 1),
        // frames are missing too
        (vec![header(4, 8), frame(&A), empty()], 2),
        (vec![header(4, 8), frame(&A), frame(&B), cut()], 3),
        (vec![header(4, 8), header(4, 8)], 1),
    ];
    for (records, place) in cases {
        assert_refused(&records.concat(), 14, 0, place);
    }
}

#[test]
fn each_frame_is_checked() {
    let a = file_of(&A);
    let with = |at: usize, byte: u8| {
        let mut file = a.clone();
        file[at] = byte;
        file
    };
    let damaged = [
        (vec![], 1, 0),
        (a[..39].to_vec(), 1, 0),
        (with(0, 0), 2, 0),
        (with(11, 1), 3, 0),
        (with(16, 5), 4, 0),
        (a[..67].to_vec(), 5, 0),
        ([&a[..], &[0]].concat(), 5, 0),
        (with(56, 2), 6, 1),
        (with(41, 255), 7, 1),
    ];
    for (file, number, place) in damaged {
        for map in 1..=3 {
            let mut records = vec![header(4, 3), frame(&A), frame(&A), frame(&A)];
            records[map] = record(1, &file);
            records.insert(map, record(7, b"before"));
            assert_refused(&records.concat(), number, map as u64, place);
            // a fault of a later frame, of any number, comes after it
            if let Some(next) = records.get_mut(map + 2) {
                *next = record(1, &[]);
                assert_refused(&records.concat(), number, map as u64, place);
            }
        }
    }
    let mut list = vec![7; 3_000];
    list[..2_049].fill(900);
    let mut file = file_of(&list);
    let last = file.len() - 16;
    file[last] ^= 1;
    let bundle = [header(3_000, 2), frame(&list), record(1, &file)].concat();
    assert_refused(&bundle, 8, 2, 1_024);
}

#[test]
fn order_of_refusals() {
    let empty = || record(1, &[]);
    let short = || frame(&A[..3]);
    // a record at fault before a frame at fault
    assert_refused(
        &[header(4, 2), empty(), frame(&A), header(4, 2)].concat(),
        14,
        0,
        3,
    );
    assert_refused(&[header(4, 2), empty()].concat(), 14, 0, 2);
    // frames at fault before other numbers of slots
    assert_refused(&[header(4, 2), short(), empty()].concat(), 1, 2, 0);
    // the least frame with another number of slots, records passed over not counted
    assert_refused(&[header(4, 2), short(), short()].concat(), 10, 0, 1);
    assert_refused(
        &[header(4, 2), record(5, &[]), frame(&A), short()].concat(),
        10,
        0,
        2,
    );
    assert_refused(&[header(3, 2), frame(&A), frame(&B)].concat(), 10, 0, 1);
    for slots in [0, 5, 260, 1_048_577, u32::MAX] {
        assert_refused(&[header(slots, 2), frame(&A), frame(&B)].concat(), 10, 0, 1);
    }
}

#[test]
fn counts_that_the_writer_refuses() {
    let (a, mut out) = (file_of(&A), [DIRTY; 1_000]);
    let sound = [&a[..]; MAX_FRAMES];
    for frames in [sound, eight(&[])] {
        for count in [0, 9, 256, 257, u64::MAX] {
            for capacity in [0, 1_000] {
                let answer = write(&frames, count, &mut out[..capacity]);
                assert_eq!(answer, Err(refusal(14, 0, 0)));
            }
        }
    }
    assert_eq!(out, [DIRTY; 1_000]);
    assert_eq!(write(&sound, 8, &mut out), Ok(12 + 8 * 74));
}

#[test]
fn frames_that_the_writer_refuses() {
    let (a, short) = (file_of(&A), file_of(&A[..3]));
    let long = [&a[..], &[0]].concat();
    let cases: [(&[&[u8]], _); 6] = [
        (&[&[]], refusal(1, 1, 0)),
        (&[&a, &long, &[]], refusal(5, 2, 0)),
        (&[&a, &short, &[]], refusal(1, 3, 0)),
        (&[&a, &short, &short], refusal(10, 0, 2)),
        (&[&short, &a, &a], refusal(10, 0, 2)),
        (&[&a, &a, &a, &a, &a, &a, &a, &short], refusal(10, 0, 8)),
    ];
    for (frames, wanted) in cases {
        for capacity in [0, 1_000] {
            let mut out = vec![DIRTY; capacity];
            let answer = write(&eight(frames), frames.len() as u64, &mut out);
            assert_eq!(answer, Err(wanted));
            assert_eq!(out, vec![DIRTY; capacity]);
        }
    }
}
