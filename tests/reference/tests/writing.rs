//! Writing and closing by the reference, held to the rules of `docs/FORMAT.md`.

use reference::{check, close, close_entries, encode, write, Entry, Refusal, Summary};

const DIRTY: u8 = 0xA5;

fn refused(number: u64, map: u64, place: u64) -> Result<Summary, Refusal> {
    Err(Refusal { number, map, place })
}

/// The outcome of closing by both routines, which must agree, into a buffer of 200 bytes.
fn closed(primary: &[u8], entries: &[(u64, u32)]) -> Result<Vec<u8>, Refusal> {
    let structs: Vec<Entry> = entries
        .iter()
        .map(|&(slot, distance)| Entry { slot, distance })
        .collect();
    let (slots, distances): (Vec<u64>, Vec<u32>) = entries.iter().copied().unzip();
    let mut buffers = [[DIRTY; 200]; 2];
    let answers = [
        close(primary, &slots, &distances, &mut buffers[0]),
        close_entries(primary, &structs, &mut buffers[1]),
    ];
    assert_eq!((answers[0], buffers[0]), (answers[1], buffers[1]));
    let len = answers[0].map_or(0, |summary| summary.len as usize);
    assert!(buffers[0][len..].iter().all(|&byte| byte == DIRTY));
    answers[0].map(|_| buffers[0][..len].to_vec())
}

#[test]
fn write_fills_the_front_of_the_buffer() {
    let distances = [0, 254, 255, 300];
    let file = encode(&distances).unwrap();
    let mut out = [DIRTY; 70];
    assert_eq!(write(&distances, &mut out[..67]), refused(12, 0, 0));
    assert_eq!(out, [DIRTY; 70]);
    assert_eq!(write(&distances, &mut out), check(&file));
    assert_eq!(out[..68], file);
    assert_eq!(out[68..], [DIRTY; 2]);
}

#[test]
fn closing_gives_the_list_its_file() {
    let file = encode(&[0, 254, 255, 300]);
    assert_eq!(closed(&[0, 254, 255, 255], &[(2, 255), (3, 300)]), file);
    assert_eq!(closed(&[], &[]), encode(&[]));
    assert_eq!(closed(&[7, 8], &[]), encode(&[7, 8]));
}

#[test]
fn closing_builds_the_index() {
    let distances: Vec<u32> = (0..4_200).map(|slot| 200 + slot % 3_000).collect();
    let file = encode(&distances).unwrap();
    let (entries, _) = file[40 + 4_200..].as_chunks::<12>();
    let entries: Vec<Entry> = entries[..check(&file).unwrap().k as usize]
        .iter()
        .map(|entry| Entry {
            slot: u64::from_le_bytes(entry[..8].try_into().unwrap()),
            distance: u32::from_le_bytes(entry[8..].try_into().unwrap()),
        })
        .collect();
    let mut out = vec![0; file.len()];
    let short = close_entries(&file[40..4_240], &entries, &mut out[1..]);
    assert_eq!(short, refused(12, 0, 0));
    let done = close_entries(&file[40..4_240], &entries, &mut out);
    assert_eq!(done, check(&file));
    assert!(out == file);
}

#[test]
fn closing_refuses_entries_before_sentinels() {
    let place_of = |entries: &[(u64, u32)]| {
        let refusal = closed(&[255, 9, 255, 255], entries).unwrap_err();
        assert_eq!(refusal.map, 1);
        (refusal.number, refusal.place)
    };
    let sound = [(0, 255), (2, 300), (3, 256)];
    assert_eq!(place_of(&[sound[0], (4, 300), sound[2]]), (6, 1));
    assert_eq!(place_of(&[sound[0], sound[0], sound[1]]), (6, 1));
    assert_eq!(place_of(&[sound[1], sound[0], sound[2]]), (6, 1));
    assert_eq!(place_of(&[sound[0], sound[1], (3, 254)]), (6, 2));
    assert_eq!(place_of(&[sound[0], (1, 255), sound[1]]), (6, 1));
    assert_eq!(place_of(&[sound[0], sound[2]]), (7, 2));
    assert_eq!(place_of(&[]), (7, 0));
    // a missing entry at slot 0 and a wrong last one
    assert_eq!(place_of(&[sound[1], (3, 0)]), (6, 1));
}

#[test]
fn lists_of_unequal_length_are_refused() {
    let primary = [255, 255, 255];
    let mut out = [DIRTY; 100];
    let mut place = |slots: &[u64], distances: &[u32]| {
        let refusal = close(&primary, slots, distances, &mut out).unwrap_err();
        assert_eq!((refusal.number, refusal.map), (6, 1));
        refusal.place
    };
    assert_eq!(place(&[0, 1, 2], &[300, 300]), 2);
    assert_eq!(place(&[0, 1], &[300, 300, 300]), 2);
    assert_eq!(place(&[], &[300]), 0);
    assert_eq!(place(&[0, 0, 2], &[300, 300]), 1);
    assert_eq!(out, [DIRTY; 100]);
}
