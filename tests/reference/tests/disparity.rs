//! Disparity tables and maps of frames by the reference, held to worked cases and to the rules of
//! `docs/FORMAT.md`.

use reference::{
    check, decode, encode, fill_table, map_of_frame, Refusal, Summary, DISPARITIES, MAX_SLOTS,
};

const DIRTY: u8 = 0xA5;

fn refusal(number: u64, map: u64, place: u64) -> Refusal {
    Refusal { number, map, place }
}

/// The table of a constant that is not 0.
fn table_of(constant: u32) -> [u32; DISPARITIES] {
    let (answer, table) = fill_table(constant);
    assert_eq!(answer, Ok(()), "{constant}");
    table
}

/// The file of the map of a frame. What follows it stays, and it fits into no less.
fn file_of(frame: &[u8], table: &[u32; DISPARITIES]) -> Vec<u8> {
    let longest = 40 + 12 * frame.len() + 16 * 2_048;
    let mut out = vec![DIRTY; frame.len() + longest];
    let Summary { len, .. } = map_of_frame(frame, table, &mut out).unwrap();
    let len = len as usize;
    assert!(out[len..].iter().all(|&byte| byte == DIRTY));
    out.truncate(len);
    let mut exact = vec![DIRTY; len];
    assert_eq!(map_of_frame(frame, table, &mut exact), check(&out));
    assert_eq!(exact, out);
    for capacity in [0, 39, 40, len - 1] {
        let mut short = vec![DIRTY; capacity.min(len - 1)];
        let answer = map_of_frame(frame, table, &mut short);
        assert_eq!(answer, Err(refusal(12, 0, 0)));
        assert!(short.iter().all(|&byte| byte == DIRTY));
    }
    out
}

#[test]
fn tables_of_the_worked_examples() {
    let at = |constant, disparities: &[usize]| -> Vec<u32> {
        let table = table_of(constant);
        disparities.iter().map(|&d| table[d]).collect()
    };
    assert_eq!(at(1, &[0, 1, 2, 255]), [0, 1, 1, 1]);
    assert_eq!(at(254, &[0, 1, 2, 127, 128, 255]), [0, 254, 127, 2, 1, 1]);
    assert_eq!(at(255, &[0, 1, 2, 254, 255]), [0, 255, 127, 1, 1]);
    assert_eq!(
        at(u32::MAX, &[0, 1, 2, 255]),
        [0, 4_294_967_295, 2_147_483_647, 16_843_009]
    );
}

#[test]
fn the_constant_0_is_refused_with_zeros() {
    assert_eq!(fill_table(0), (Err(refusal(19, 0, 0)), [0; DISPARITIES]));
}

/// The rule by multiplication: d times the distance is at most F, and d times one more is above it.
#[test]
fn distances_multiplied_give_the_constant_again() {
    let multiples = (1..=255).flat_map(|d| [d * 255 - 1, d * 255, d * 255 + 1]);
    let wide = (0..2_000u32).map(|i| u32::MAX - i * 1_999_993);
    for constant in (1..=1_000).chain(multiples).chain(wide) {
        let table = table_of(constant);
        assert_eq!(table[0], 0);
        for (d, distance) in (0u64..).zip(table).skip(1) {
            let (f, distance) = (u64::from(constant), u64::from(distance));
            let is_right = match f < d {
                true => distance == 1,
                false => d * distance <= f && f < d * (distance + 1),
            };
            assert!(is_right, "{constant} {d}: {distance}");
        }
        assert!(table[1..].is_sorted_by(|nearer, farther| nearer >= farther));
    }
}

#[test]
fn maps_of_the_worked_examples() {
    let frame = [0, 1, 2, 3, 255];
    let file = file_of(&frame, &table_of(510));
    assert_eq!(file, encode(&[0, 510, 255, 170, 2]).unwrap());
    let Summary { k, len, sum, .. } = check(&file).unwrap();
    assert_eq!((k, len, sum), (2, 69, 937));
    let zeros = file_of(&frame, &fill_table(0).1);
    assert_eq!(zeros, encode(&[0; 5]).unwrap());
    assert_eq!(zeros.len(), 45);
    assert_eq!(file_of(&[], &table_of(510)), encode(&[]).unwrap());
}

#[test]
fn a_table_may_have_any_distances() {
    let mut table = [254; DISPARITIES];
    for (disparity, distance) in [(0, 255), (7, 0), (128, u32::MAX), (255, 300)] {
        table[disparity] = distance;
    }
    let frame: Vec<u8> = (0..5_000u32).map(|slot| (slot * 77) as u8).collect();
    let distances: Vec<u32> = frame.iter().map(|&d| table[usize::from(d)]).collect();
    assert_eq!(decode(&file_of(&frame, &table)), Ok(distances));
    let all = file_of(&frame, &[300; DISPARITIES]);
    assert_eq!(all, encode(&[300; 5_000]).unwrap());
}

#[test]
fn too_many_disparities_are_refused_before_the_buffer() {
    let frame = vec![9; MAX_SLOTS as usize + 1];
    let table = table_of(510);
    for capacity in [0, 2_000_000] {
        let mut out = vec![DIRTY; capacity];
        let answer = map_of_frame(&frame, &table, &mut out);
        assert_eq!(answer, Err(refusal(3, 1, 0)));
        assert!(out.iter().all(|&byte| byte == DIRTY));
    }
    let longest = file_of(&frame[1..], &table);
    assert_eq!(check(&longest).unwrap().n, MAX_SLOTS);
}
