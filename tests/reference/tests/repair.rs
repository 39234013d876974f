//! Repair by the reference, held to the worked cases and rules of `docs/FORMAT.md`.

use reference::{check, encode, file_len, repair, Refusal, Repaired, CORRECTION_LEN, MAX_SLOTS};

type Line = [u64; CORRECTION_LEN];

const A: [u32; 4] = [0, 254, 255, 300];
const DIRTY: u8 = 0xA5;

/// The repaired file and its lines. What follows them stays, and they fit into no less.
fn repaired(file: &[u8], n: u64, k: u64) -> (Vec<u8>, Vec<Line>) {
    let mut out = vec![DIRTY; file_len(n, n) as usize + 40_000];
    let mut numbers = vec![7; CORRECTION_LEN * (n + k + 9) as usize];
    let Repaired { summary, lines } = repair(file, n, k, &mut out, &mut numbers).unwrap();
    let (len, count) = (summary.len as usize, CORRECTION_LEN * lines as usize);
    assert!(out[len..].iter().all(|&byte| byte == DIRTY));
    assert!(numbers[count..].iter().all(|&number| number == 7));
    out.truncate(len);
    numbers.truncate(count);
    assert_eq!(check(&out), Ok(summary));
    assert_in(file, (n, k), (len, count), true);
    for less in 1..=len.min(3) {
        assert_in(file, (n, k), (len - less, count), false);
    }
    for less in 1..=count.min(5) {
        assert_in(file, (n, k), (len, count - less), false);
    }
    (out, numbers.as_chunks().0.to_vec())
}

/// Whether a repair fits into buffers of these capacities; where it does not, they stay as they are.
fn assert_in(file: &[u8], (n, k): (u64, u64), (len, count): (usize, usize), fits: bool) {
    let (mut out, mut numbers) = (vec![DIRTY; len], vec![7; count]);
    let answer = repair(file, n, k, &mut out, &mut numbers);
    match fits {
        true => assert!(answer.is_ok()),
        false => {
            assert_eq!(answer, refused(12, 0));
            assert!(out.iter().all(|&byte| byte == DIRTY));
            assert!(numbers.iter().all(|&number| number == 7));
        }
    }
}

fn refused(number: u64, map: u64) -> Result<Repaired, Refusal> {
    Err(Refusal {
        number,
        map,
        place: 0,
    })
}

fn file_of(distances: &[u32]) -> Vec<u8> {
    encode(distances).expect("few slots")
}

/// The file of A with other bytes at some offsets.
fn a_with(changes: &[(usize, u8)]) -> Vec<u8> {
    let mut file = file_of(&A);
    for &(at, byte) in changes {
        file[at] = byte;
    }
    file
}

#[test]
fn a_sound_file_gives_itself_and_no_lines() {
    assert_eq!(repaired(&file_of(&A), 4, 2), (file_of(&A), vec![]));
    assert_eq!(repaired(&file_of(&[]), 0, 0), (file_of(&[]), vec![]));
    for k in [2_048, 2_049, 4_096, 4_097] {
        let mut list = vec![7; 5_000];
        list[..k].fill(900);
        let file = file_of(&list);
        assert_eq!(repaired(&file, 5_000, k as u64), (file, vec![]));
    }
}

#[test]
fn fields_of_the_header() {
    let file = a_with(&[(0, 7), (32, 9)]);
    let lines = vec![[1, 0, 0x5649_4307, 0x5649_4350], [1, 32, 9, 0]];
    assert_eq!(repaired(&file, 4, 2), (file_of(&A), lines));

    let mut file = file_of(&A);
    file[..40].fill(0xFF);
    let lines = vec![
        [1, 0, 0xFFFF_FFFF, 0x5649_4350],
        [1, 4, 0xFFFF_FFFF, 0],
        [1, 8, u64::MAX, 4],
        [1, 16, u64::MAX, 2],
        [1, 24, u64::MAX, 0],
        [1, 32, u64::MAX, 0],
    ];
    assert_eq!(repaired(&file, 4, 2), (file_of(&A), lines));
}

#[test]
fn swapped_entries() {
    let a = file_of(&A);
    let file = [&a[..44], &a[56..68], &a[44..56]].concat();
    let lines = vec![[1, 16, 2, 1], [2, 1, 2, 0], [3, 2, 255, 254]];
    assert_eq!(repaired(&file, 4, 2), (file_of(&[0, 254, 254, 300]), lines));
}

#[test]
fn fewer_entries_than_there_are() {
    let lines = vec![[1, 16, 2, 1], [3, 3, 255, 254], [4, 0, 12, 0]];
    let wanted = (file_of(&[0, 254, 255, 254]), lines);
    assert_eq!(repaired(&file_of(&A), 4, 1), wanted);
}

#[test]
fn each_reason_to_drop_an_entry() {
    let lost_2 = |slot| vec![[1, 16, 2, 1], [2, 0, slot, 0], [3, 2, 255, 254]];
    let without_2 = file_of(&[0, 254, 254, 300]);
    // its slot is n, or far beyond; its distance is 254; its byte is 254; its slot is an inline one
    assert_eq!(
        repaired(&a_with(&[(44, 4)]), 4, 2),
        (without_2.clone(), lost_2(4))
    );
    let beyond = a_with(&[(51, 0x80)]);
    assert_eq!(
        repaired(&beyond, 4, 2),
        (without_2.clone(), lost_2(1 << 63 | 2))
    );
    let near = a_with(&[(52, 254)]);
    assert_eq!(repaired(&near, 4, 2), (without_2.clone(), lost_2(2)));
    let lines = vec![[1, 16, 2, 1], [2, 0, 2, 0]];
    assert_eq!(repaired(&a_with(&[(42, 254)]), 4, 2), (without_2, lines));
    assert_eq!(repaired(&a_with(&[(44, 1)]), 4, 2).1, lost_2(1));
}

#[test]
fn entries_are_judged_beside_the_last_one_kept() {
    let file = |slots: &[u64]| {
        let mut file = file_of(&[255; 6])[..46].to_vec();
        for (number, slot) in (300u32..).zip(slots) {
            file.extend(slot.to_le_bytes());
            file.extend(number.to_le_bytes());
        }
        file
    };
    // Slot 9 is dropped; 2 is judged beside 1, and so is kept.
    let (out, lines) = repaired(&file(&[1, 9, 2]), 6, 3);
    assert_eq!(out, file_of(&[254, 300, 302, 254, 254, 254]));
    assert_eq!(lines[..2], [[1, 16, 6, 2], [2, 1, 9, 0]]);
    // Of two entries of one slot the first is kept.
    let (out, lines) = repaired(&file(&[3, 3, 2, 4]), 6, 4);
    assert_eq!(out, file_of(&[254, 254, 254, 300, 303, 254]));
    assert_eq!(lines[1..3], [[2, 1, 3, 0], [2, 2, 2, 0]]);
    // An entry that is dropped for its distance does not stand in the way of the next one.
    let mut near = file(&[3, 2, 4]);
    near[46 + 8..46 + 12].copy_from_slice(&254u32.to_le_bytes());
    let (out, lines) = repaired(&near, 6, 3);
    assert_eq!(out, file_of(&[254, 254, 301, 254, 302, 254]));
    assert_eq!(lines[1], [2, 0, 3, 0]);
}

#[test]
fn bytes_behind_the_entries() {
    let a = file_of(&A);
    for more in [1, 12, 16, 1_000] {
        let longer = [&a[..], &vec![0; more]].concat();
        let lines = vec![[4, 0, more as u64, 0]];
        assert_eq!(repaired(&longer, 4, 2), (a.clone(), lines));
    }
    // Index bytes of a map with 2,049 entries.
    let mut list = vec![7; 2_100];
    list[..2_049].fill(900);
    let file = file_of(&list);
    let index = 16 * 1_025;
    let mut changed = file.clone();
    *changed.last_mut().unwrap() ^= 1;
    let same_length = vec![[4, 0, index, index]];
    assert_eq!(
        repaired(&changed, 2_100, 2_049),
        (file.clone(), same_length)
    );
    for (given, len) in [(0, 0), (1, 1), (index - 1, index - 1)] {
        let shorter = &file[..file.len() - (index - given) as usize];
        let lines = vec![[4, 0, len, index]];
        assert_eq!(repaired(shorter, 2_100, 2_049), (file.clone(), lines));
    }
    // An entry fewer needs no index: the old one is a line of its own.
    list[2_048] = 254;
    let lines = vec![
        [1, 16, 2_049, 2_048],
        [1, 24, 1_025, 0],
        [1, 32, 2, 0],
        [2, 2_048, 2_048, 0],
        [3, 2_048, 255, 254],
        [4, 0, index, 0],
    ];
    let mut dropped = file.clone();
    dropped[40 + 2_100 + 12 * 2_048 + 8..][..4].fill(0);
    assert_eq!(repaired(&dropped, 2_100, 2_049), (file_of(&list), lines));
}

#[test]
fn refusals_in_their_order() {
    let a = file_of(&A);
    let refusal = |file: &[u8], n, k| repair(file, n, k, &mut [], &mut []);
    for n in [MAX_SLOTS + 1, 1 << 32, 1 << 63, u64::MAX] {
        for k in [0, n, n.saturating_add(1), u64::MAX] {
            assert_eq!(refusal(&[], n, k), refused(3, 1));
        }
    }
    for (n, k) in [(0, 1), (4, 5), (4, u64::MAX), (MAX_SLOTS, MAX_SLOTS + 1)] {
        assert_eq!(refusal(&[], n, k), refused(4, 1));
    }
    for (file, n, k) in [
        (&a[..67], 4, 2),
        (&a[..39], 0, 0),
        (&a[..0], 0, 0),
        (&a[..], MAX_SLOTS, MAX_SLOTS),
        (&a[..], 5, 2),
        (&a[..], 29, 0),
    ] {
        assert_eq!(refusal(file, n, k), refused(5, 1));
    }
    assert_eq!(refusal(&a, 4, 2), refused(12, 0));
    assert_eq!(refusal(&a[..40], 0, 0), refused(12, 0));
    assert_eq!(refusal(&a, 28, 0), refused(12, 0));
}
