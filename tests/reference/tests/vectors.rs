//! The reference, held to the answers that are written down for the files of `tests/vectors`.

use reference::bundle::{nearest, read, row, write, MAX_FRAMES};
use reference::vectors::{bundles, vectors, Contents};
use reference::{check, decode, encode, readings, sum, Refusal};
use std::array;

#[test]
fn every_file_gets_its_answer() {
    for vector in vectors() {
        let (name, file) = (&vector.name, &vector.file);
        match &vector.answer {
            Ok(Contents { summary, list }) => {
                assert_eq!(check(file), Ok(*summary), "{name}");
                assert!(decode(file).as_ref() == Ok(list), "{name}");
                assert!(encode(list).as_ref() == Ok(file), "{name}");
                let total = list.iter().copied().map(u64::from).sum();
                assert_eq!((summary.sum, sum(file)), (total, Ok(total)), "{name}");
                let count = list.iter().filter(|&&distance| distance > 0).count();
                assert_eq!(readings(file), Ok(count as u64), "{name}");
            }
            Err(refusal) => {
                assert_eq!(check(file), Err(*refusal), "{name}");
                assert_eq!(decode(file), Err(*refusal), "{name}");
            }
        }
    }
}

#[test]
fn every_refusal_of_a_file_is_there() {
    for number in 1..=8 {
        let vectors = vectors();
        let mut refusals = vectors.iter().filter_map(|v| v.answer.as_ref().err());
        assert!(refusals.any(|refusal| refusal.number == number), "{number}");
    }
}

/// A file `..-before-NN` whose first fault is repaired has the fault NN.
#[test]
fn the_later_fault_is_there() {
    type Repair = fn(&mut Vec<u8>);
    let repairs: [(&str, Repair, u64); 8] = [
        ("bad-01-before-02.pciv", |file| file.push(0), 2),
        ("bad-02-before-03.pciv", |file| file[4] = 0, 3),
        ("bad-03-before-04.pciv", |file| file[8] = 0, 4),
        ("bad-04-before-05.pciv", |file| file[32] = 0, 5),
        ("bad-05-before-06.pciv", |file| file.truncate(68), 6),
        ("bad-06-place-1-before-07.pciv", |file| file[65] = 1, 7),
        ("bad-06-place-2048-before-08.pciv", |f| f[26_725] = 1, 8),
        ("bad-07-place-2099-before-08.pciv", |f| f[2_139] = 0, 8),
    ];
    let two_faults: Vec<_> = vectors()
        .into_iter()
        .filter(|vector| vector.name.contains("-before-"))
        .collect();
    assert_eq!(two_faults.len(), repairs.len());
    for (mut vector, (name, repair, number)) in two_faults.into_iter().zip(repairs) {
        assert_eq!(vector.name, name);
        repair(&mut vector.file);
        let later = Refusal {
            number,
            map: 1,
            place: 0,
        };
        assert_eq!(check(&vector.file), Err(later), "{name}");
    }
}

#[test]
fn every_bundle_gets_its_answer() {
    for vector in bundles::vectors() {
        let (name, file) = (&vector.name, &vector.file);
        let mut distances = vec![7; 5_000];
        match &vector.answer {
            Ok(contents) => {
                let n = contents.counts.slots as usize;
                assert_eq!(read(file), Ok(contents.counts), "{name}");
                assert_eq!(nearest(file, &mut distances), Ok(n as u64), "{name}");
                assert!(distances[..n] == contents.nearest, "{name}");
                for slot in 0..n {
                    let at = |frame: usize| contents.lists.get(frame).map_or(0, |list| list[slot]);
                    let distances: [u32; MAX_FRAMES] = array::from_fn(at);
                    assert_eq!(row(file, slot as u64), Ok(distances), "{name}");
                }
                assert_eq!(written(&contents.lists), others_removed(file), "{name}");
            }
            Err(refusal) => {
                assert_eq!(read(file), Err(*refusal), "{name}");
                assert_eq!(row(file, 0), Err(*refusal), "{name}");
                assert_eq!(nearest(file, &mut distances), Err(*refusal), "{name}");
            }
        }
    }
}

/// The bundle that the reference writes of some lists.
fn written(lists: &[Vec<u32>]) -> Vec<u8> {
    let files: Vec<Vec<u8>> = lists.iter().map(|list| encode(list).unwrap()).collect();
    let frames = array::from_fn(|frame| files.get(frame).map_or(&[][..], Vec::as_slice));
    let mut out = vec![0; 100_000];
    let len = write(&frames, files.len() as u64, &mut out).unwrap();
    out.truncate(len as usize);
    out
}

/// A sound bundle without the records that are skipped.
fn others_removed(mut bundle: &[u8]) -> Vec<u8> {
    let mut kept = Vec::new();
    while let Some((length, _)) = bundle.split_first_chunk() {
        let (record, rest) = bundle.split_at(4 + u32::from_le_bytes(*length) as usize);
        if record[5] == 0 && record[4] < 2 {
            kept.extend(record);
        }
        bundle = rest;
    }
    kept
}

#[test]
fn every_refusal_of_a_bundle_is_there() {
    for number in (1..=8).chain([10, 14]) {
        let vectors = bundles::vectors();
        let mut refusals = vectors.iter().filter_map(|v| v.answer.as_ref().err());
        assert!(refusals.any(|refusal| refusal.number == number), "{number}");
    }
}

/// A bundle `..-before-NN` whose first fault is repaired has the fault NN.
#[test]
fn the_later_fault_of_a_bundle_is_there() {
    type Repair = fn(&mut Vec<u8>);
    let repairs: [(&str, Repair, [u64; 3]); 3] = [
        ("bad-02-map-2-before-10.pcib", |b| b[69] = b'P', [10, 0, 1]),
        (
            "bad-06-map-1-place-0-before-02.pcib",
            |bundle| bundle[70] = 255,
            [2, 2, 0],
        ),
        (
            "bad-14-place-2-before-01.pcib",
            |bundle| bundle.extend([2, 0, 0, 0, 1, 0]),
            [1, 1, 0],
        ),
    ];
    let two_faults: Vec<_> = bundles::vectors()
        .into_iter()
        .filter(|vector| vector.name.contains("-before-"))
        .collect();
    assert_eq!(two_faults.len(), repairs.len());
    for (mut vector, (name, repair, [number, map, place])) in two_faults.into_iter().zip(repairs) {
        assert_eq!(vector.name, name);
        repair(&mut vector.file);
        let later = Refusal { number, map, place };
        assert_eq!(read(&vector.file), Err(later), "{name}");
    }
}

#[test]
fn names_are_unique() {
    let maps = vectors().into_iter().map(|vector| vector.name);
    let bundles = bundles::vectors().into_iter().map(|vector| vector.name);
    for names in [maps.collect::<Vec<_>>(), bundles.collect()] {
        assert!(names.is_sorted_by(|a, b| a < b));
    }
}
