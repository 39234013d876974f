//! The files of `examples/`, made from scratch.

use crate::layout::{HEADER_LEN, INDEX_ENTRY_LEN};
use crate::{check, encode};

/// Name and bytes of each example file.
pub fn example_files() -> Vec<(&'static str, Vec<u8>)> {
    let [map_a, portrait] =
        [MAP_A.to_vec(), portrait()].map(|list| encode(&list).expect("few slots"));
    let spoiled = spoiled(&portrait);
    vec![
        ("map-a.pciv", map_a),
        ("portrait-160x120.pciv", portrait),
        ("portrait-160x120-spoiled.pciv", spoiled),
    ]
}

/// A map as a damaged card may give it back: the header's counts but for n, and 512 bytes in the middle
/// of the sparse index, are zeros.
fn spoiled(file: &[u8]) -> Vec<u8> {
    let summary = check(file).expect("a sound map");
    let middle = file.len() - INDEX_ENTRY_LEN * summary.m as usize / 2;
    let mut spoiled = file.to_vec();
    spoiled[16..HEADER_LEN].fill(0);
    spoiled[middle..middle + 512].fill(0);
    spoiled
}

const MAP_A: [u32; 4] = [0, 254, 255, 300];

const WIDTH: u32 = 160;
const HEIGHT: u32 = 120;

/// A portrait's depth preview, row by row: a head and shoulders before a wall, a corridor behind.
/// Only exactly rounded operations are used, so every machine makes the same file.
fn portrait() -> Vec<u32> {
    (0..HEIGHT)
        .flat_map(|y| (0..WIDTH).map(move |x| distance_at(x, y)))
        .collect()
}

/// The distance in centimetres at one pixel, 0 where none is measured.
fn distance_at(x: u32, y: u32) -> u32 {
    let pixel = Pixel {
        x: f64::from(x),
        y: f64::from(y),
        grain: grain(x, y),
    };
    if pixel.is_lost() {
        return 0;
    }
    let depth = pixel
        .head()
        .or_else(|| pixel.neck())
        .or_else(|| pixel.shoulders())
        .or_else(|| pixel.corridor())
        .unwrap_or_else(|| pixel.wall());
    (depth + 1.5 * (pixel.grain - 0.5)).round() as u32
}

/// Sensor noise at a pixel, from 0 to 1: an integer hash of its place.
fn grain(x: u32, y: u32) -> f64 {
    let mut h = (y * WIDTH + x).wrapping_mul(0x9E37_79B1);
    h = (h ^ (h >> 15)).wrapping_mul(0x85EB_CA77);
    h = (h ^ (h >> 13)).wrapping_mul(0xC2B2_AE3D);
    f64::from((h ^ (h >> 16)) & 0xFFFF) / 65_535.0
}

struct Pixel {
    x: f64,
    y: f64,
    grain: f64,
}

impl Pixel {
    /// The squared distance from a centre, where 1 is the rim of the ellipse with these radii.
    fn radius2(&self, centre: (f64, f64), radii: (f64, f64)) -> f64 {
        let dx = (self.x - centre.0) / radii.0;
        let dy = (self.y - centre.1) / radii.1;
        dx * dx + dy * dy
    }

    /// A smooth bump: 1 at the centre, 0 from the rim on.
    fn bump(&self, centre: (f64, f64), radii: (f64, f64)) -> f64 {
        let fall = (1.0 - self.radius2(centre, radii)).max(0.0);
        fall * fall
    }

    fn head_radius2(&self) -> f64 {
        self.radius2((68.0, 46.0), (23.0, 31.0))
    }

    /// Stray hair scatters the light along the upper rim of the head: no distance is measured.
    fn is_lost(&self) -> bool {
        let rim = (self.head_radius2() - 1.02).abs();
        let chance = 0.9 - 6.0 * rim;
        self.y < 52.0 && self.grain < chance
    }

    fn head(&self) -> Option<f64> {
        let r2 = self.head_radius2();
        if r2 > 1.0 {
            return None;
        }
        let skull = 108.0 - 19.0 * (1.0 - r2).sqrt();
        let nose = 7.0 * self.bump((68.0, 51.0), (4.5, 8.0));
        let eyes =
            3.5 * self.bump((59.5, 43.5), (6.0, 4.0)) + 3.5 * self.bump((76.5, 43.5), (6.0, 4.0));
        let lips = 2.0 * self.bump((68.0, 63.0), (7.0, 3.0));
        let hair = if self.y < 31.0 { 2.0 } else { 0.0 };
        Some(skull - nose + eyes - lips - hair)
    }

    fn neck(&self) -> Option<f64> {
        let across = (self.x - 68.0) / 12.0;
        let inside = across * across < 1.0 && (60.0..92.0).contains(&self.y);
        inside.then(|| 118.0 - 9.0 * (1.0 - across * across).sqrt())
    }

    fn shoulders(&self) -> Option<f64> {
        let r2 = self.radius2((68.0, 128.0), (60.0, 45.0));
        (r2 < 1.0).then(|| 139.0 - 30.0 * (1.0 - r2).sqrt())
    }

    /// A doorway into a corridor, from 3 m at its frame to 25 m at the vanishing point.
    fn corridor(&self) -> Option<f64> {
        let (dx, dy) = ((self.x - 130.0).abs() / 19.5, (self.y - 40.0).abs() / 27.5);
        let reach = dx.max(dy);
        (reach <= 1.0).then(|| (300.0 / reach.max(0.01)).clamp(300.0, 2_499.0))
    }

    /// The wall recedes to the right and, slightly, downwards.
    fn wall(&self) -> f64 {
        183.0 + 0.36 * self.x + 0.05 * self.y
    }
}

#[cfg(test)]
mod tests {
    use super::*;
    use crate::repair;

    #[test]
    fn files_in_the_repository_are_these() {
        let folder = concat!(env!("CARGO_MANIFEST_DIR"), "/../../examples");
        for (name, bytes) in example_files() {
            let stored = std::fs::read(format!("{folder}/{name}")).expect(name);
            assert!(
                stored == bytes,
                "{name} differs from what make_examples makes"
            );
        }
    }

    #[test]
    fn the_spoiled_portrait_is_repaired_to_the_portrait() {
        let files = example_files();
        let [(_, portrait), (_, spoiled)] = &files[1..] else {
            panic!("three files");
        };
        assert_eq!(check(spoiled).map_err(|refusal| refusal.number), Err(5));
        let (mut out, mut corrections) = (vec![0; portrait.len()], [7; 17]);
        let repaired = repair(spoiled, 19_200, 2_145, &mut out, &mut corrections).unwrap();
        assert!(out == *portrait);
        assert_eq!(repaired.lines, 4);
        let lines = [[1, 16, 0, 2_145], [1, 24, 0, 1_073], [1, 32, 0, 2]];
        assert_eq!(corrections[..12], *lines.as_flattened());
        assert_eq!(corrections[12..], [4, 0, 17_168, 17_168, 7]);
    }

    #[test]
    fn portrait_has_a_sparse_index_and_fits_the_report() {
        let (_, file) = &example_files()[1];
        let summary = check(file).unwrap();
        assert_eq!((summary.n, summary.step), (19_200, 2));
        assert!(summary.len <= 65_536);
    }
}
