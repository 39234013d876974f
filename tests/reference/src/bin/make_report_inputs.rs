//! Writes inputs of the report program, each `NAME.pciv` with the text `NAME.txt` that it must
//! print: `make_report_inputs FOLDER`.

use reference::{encode, examples::example_files, file_len, report_text, HEADER_LEN, MAX_INPUT};
use std::{env, fs, io, path::Path};

fn main() -> io::Result<()> {
    let folder = env::args()
        .nth(1)
        .expect("usage: make_report_inputs FOLDER");
    let folder = Path::new(&folder);
    fs::create_dir_all(folder)?;
    for (name, input) in inputs() {
        fs::write(folder.join(name).with_extension("pciv"), &input)?;
        fs::write(folder.join(name).with_extension("txt"), report_text(&input))?;
    }
    Ok(())
}

fn inputs() -> Vec<(&'static str, Vec<u8>)> {
    let [map_a, portrait] = [0, 1].map(|i| example_files()[i].1.clone());
    let longest = sound_map(MAX_INPUT, 2_500);
    vec![
        ("empty-input", vec![]),
        ("empty-map", sound_map(HEADER_LEN, 0)),
        ("map-a-truncated", map_a[..67].to_vec()),
        ("map-a-extended", [&map_a[..], &[0]].concat()),
        ("map-a-bad-magic", flipped(&map_a, 7)),
        ("map-a-bad-distance", flipped(&map_a, 53)),
        ("map-a", map_a),
        (
            "portrait-missing-overflow-entry",
            flipped(&portrait, HEADER_LEN),
        ),
        (
            "portrait-bad-last-index-entry",
            flipped(&portrait, portrait.len() - 1),
        ),
        ("portrait", portrait),
        ("zeros-65536", vec![0; MAX_INPUT]),
        ("sound-65536-no-index", sound_map(MAX_INPUT, 2_048)),
        ("sound-65536-index", longest.clone()),
        ("sound-65536-then-one-byte", [&longest[..], &[0]].concat()),
        ("sound-65537", sound_map(MAX_INPUT + 1, 2_500)),
        ("zeros-65537", vec![0; MAX_INPUT + 1]),
    ]
}

/// The file of a map that is `len` bytes long and has `k` overflow entries, its first slots.
fn sound_map(len: usize, k: usize) -> Vec<u8> {
    let n = len - file_len(0, k as u64) as usize;
    let distances: Vec<u32> = (0..n as u32)
        .map(|slot| {
            if slot < k as u32 {
                300 + slot
            } else {
                slot % 255
            }
        })
        .collect();
    encode(&distances).expect("few slots")
}

/// The file with all bits of one byte flipped.
fn flipped(file: &[u8], at: usize) -> Vec<u8> {
    let mut file = file.to_vec();
    file[at] ^= 0xFF;
    file
}
