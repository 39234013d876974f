//! Reading by the reference, held to the small maps and rules of `docs/FORMAT.md`.

use reference::{
    check, decode, encode, lookup, lookup_list, lookup_numbered, primary, readings,
    readings_of_primary, scan, sum, Located, Origin, Refusal, Summary,
};

const A: [u32; 4] = [0, 254, 255, 300];
const B: [u32; 4] = [1, 1, 1, 4_294_967_295];

fn file_of(distances: &[u32]) -> Vec<u8> {
    encode(distances).expect("few slots")
}

/// A list with `k` slots in overflow, every other slot inline, up to the last index entry and past.
fn list_with_overflow(k: usize) -> Vec<u32> {
    (0..2 * k as u32)
        .map(|slot| {
            if slot % 2 == 1 {
                255 + slot
            } else {
                slot % 255
            }
        })
        .collect()
}

fn refused(number: u64, map: u64, place: u64) -> Option<Refusal> {
    Some(Refusal { number, map, place })
}

/// The refusal of map A's file after writing `bytes` at `at`.
fn refusal_with(at: usize, bytes: &[u8]) -> Option<Refusal> {
    let mut file = file_of(&A);
    file[at..at + bytes.len()].copy_from_slice(bytes);
    check(&file).err()
}

#[test]
fn empty_map() {
    let file = file_of(&[]);
    let summary = Summary {
        n: 0,
        k: 0,
        m: 0,
        step: 0,
        len: 40,
        sum: 0,
    };
    assert_eq!(check(&file), Ok(summary));
    assert_eq!(primary(&file), []);
    assert_eq!((sum(&file), readings(&file)), (Ok(0), Ok(0)));
    assert_eq!(lookup(&file, 0).err(), refused(9, 0, 0));
    assert_eq!(lookup_numbered(&file, 0).err(), refused(9, 0, 0));
    assert_eq!(lookup_list(&file, &[], &mut [], &mut []), Ok(0));
}

#[test]
fn map_a() {
    let file = file_of(&A);
    let summary = Summary {
        n: 4,
        k: 2,
        m: 0,
        step: 0,
        len: 68,
        sum: 809,
    };
    assert_eq!(check(&file), Ok(summary));
    assert_eq!(primary(&file), [0x00, 0xFE, 0xFF, 0xFF]);
    assert_eq!(decode(&file).unwrap(), A);
    assert_eq!((sum(&file), readings(&file)), (Ok(809), Ok(3)));
    assert_eq!(readings_of_primary(primary(&file)), 3);
}

#[test]
fn map_b() {
    let file = file_of(&B);
    assert_eq!(decode(&file).unwrap(), B);
    assert_eq!((sum(&file), readings(&file)), (Ok(4_294_967_298), Ok(4)));
    assert_eq!(check(&file).unwrap().sum, 4_294_967_298);
}

#[test]
fn refusals_of_the_header() {
    let file = file_of(&A);
    assert_eq!(check(&[]).err(), refused(1, 1, 0));
    assert_eq!(check(&file[..39]).err(), refused(1, 1, 0));
    for at in 0..8 {
        assert_eq!(refusal_with(at, &[1]), refused(2, 1, 0));
    }
    assert_eq!(
        refusal_with(8, &1_048_577u64.to_le_bytes()),
        refused(3, 1, 0)
    );
    assert_eq!(refusal_with(16, &[5]), refused(4, 1, 0));
    assert_eq!(refusal_with(24, &[1]), refused(4, 1, 0));
    assert_eq!(refusal_with(32, &[1]), refused(4, 1, 0));
    assert_eq!(check(&file[..67]).err(), refused(5, 1, 0));
    assert_eq!(check(&[&file[..], &[0]].concat()).err(), refused(5, 1, 0));
}

#[test]
fn refusals_of_the_parts() {
    // entry 0 at byte 44: slot 2, distance 255; entry 1 at byte 56: slot 3, distance 300
    assert_eq!(refusal_with(56, &[4]), refused(6, 1, 1));
    assert_eq!(refusal_with(56, &[2]), refused(6, 1, 1));
    assert_eq!(refusal_with(52, &[254]), refused(6, 1, 0));
    assert_eq!(refusal_with(42, &[254]), refused(6, 1, 0));
    assert_eq!(refusal_with(41, &[255]), refused(7, 1, 1));
}

#[test]
fn refusals_of_the_index() {
    let sound = file_of(&list_with_overflow(2_049));
    let start = sound.len() - 16 * 1_025;
    for (place, half) in [(0, 0), (0, 8), (512, 0), (512, 8), (1_024, 0), (1_024, 8)] {
        let mut file = sound.clone();
        file[start + 16 * place + half] ^= 1;
        assert_eq!(check(&file).err(), refused(8, 1, place as u64));
    }
}

#[test]
fn earlier_rules_come_first() {
    let mut file = file_of(&list_with_overflow(2_049));
    let last = file.len() - 1;
    file[last] ^= 1;
    assert_eq!(check(&file).err(), refused(8, 1, 1_024));
    file[40] = 255;
    assert_eq!(check(&file).err(), refused(7, 1, 0));
    file[41] = 0;
    assert_eq!(check(&file).err(), refused(6, 1, 0));
    file.pop();
    assert_eq!(check(&file).err(), refused(5, 1, 0));
}

/// Where each distance of a list is stored: the entries have the numbers of the distances in
/// overflow before them.
fn origins(distances: &[u32]) -> Vec<Origin> {
    let mut entries = 0..;
    let origin = |&distance: &u32| match distance {
        0..255 => Origin::Inline,
        _ => Origin::Overflow(entries.next().expect("a number")),
    };
    distances.iter().map(origin).collect()
}

#[test]
fn lookups_agree_with_the_list() {
    for k in [0, 1, 7, 8, 9, 2_048, 2_049, 4_096, 4_097] {
        let mut distances = list_with_overflow(k);
        distances.push(254);
        let file = file_of(&distances);
        let origins = origins(&distances);
        let n = distances.len();
        let slots: Vec<u64> = (0..n as u64).rev().collect();
        let (mut found, mut entries) = (vec![0; n], vec![0; n]);
        let count = lookup_list(&file, &slots, &mut found, &mut entries);
        assert_eq!(count, Ok(n as u64));
        found.reverse();
        entries.reverse();
        assert!(found == distances, "{k} overflow entries");
        for slot in 0..n {
            let entry = match origins[slot] {
                Origin::Inline => k as u64,
                Origin::Overflow(entry) => entry,
            };
            assert_eq!(entries[slot], entry, "{k} overflow entries, slot {slot}");
        }
        for slot in (0..n).step_by(61) {
            let (distance, origin) = (distances[slot], origins[slot]);
            let located = Located { distance, origin };
            assert_eq!(lookup(&file, slot as u64), Ok(located));
            let numbered = (distance, entries[slot]);
            assert_eq!(lookup_numbered(&file, slot as u64), Ok(numbered));
        }
    }
}

#[test]
fn lookup_list_refuses_slots_before_either_list() {
    let file = file_of(&A);
    let (mut distances, mut entries) = ([7; 5], [7; 5]);
    for (capacity, more) in [(3, 5), (5, 3), (3, 3), (0, 5), (5, 0)] {
        let lists = (&mut distances[..capacity], &mut entries[..more]);
        let beyond = lookup_list(&file, &[3, 3, 4, 0, 9], lists.0, lists.1);
        assert_eq!(beyond.err(), refused(9, 0, 2));
        let too_short = lookup_list(&file, &[3, 3, 2, 0], lists.0, lists.1);
        assert_eq!(too_short.err(), refused(12, 0, 0));
    }
    assert_eq!((distances, entries), ([7; 5], [7; 5]));
    let count = lookup_list(&file, &[3, 0, 3, 2], &mut distances, &mut entries);
    assert_eq!(count, Ok(4));
    assert_eq!(distances, [300, 0, 300, 255, 7]);
    assert_eq!(entries, [1, 2, 1, 0, 7]);
}

#[test]
fn scan_keeps_what_follows() {
    let file = file_of(&A);
    let mut distances = [7; 6];
    assert_eq!(scan(&file, &mut distances[..3]).err(), refused(12, 0, 0));
    assert_eq!(distances, [7; 6]);
    assert_eq!(scan(&file, &mut distances), Ok(4));
    assert_eq!(distances, [0, 254, 255, 300, 7, 7]);
}

/// A list has exactly one file: whatever check accepts is the file of its own list.
#[test]
fn accepted_files_are_encodings() {
    let file = file_of(&[0, 254, 255, 300, 256, 9]);
    for at in 0..file.len() {
        for value in 0..=255 {
            let mut changed = file.clone();
            changed[at] = value;
            if let Ok(distances) = decode(&changed) {
                assert_eq!(file_of(&distances), changed);
            }
        }
    }
}
