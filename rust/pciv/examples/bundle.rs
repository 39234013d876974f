//! `bundle BUNDLE MAP..`: packs one to eight maps with the same number of slots, the frames of a burst,
//! into BUNDLE, a new file. `bundle BUNDLE`: reads one. Prints how many frames and slots it has; how many
//! slots have a reading in some frame, and the mean of the nearest ones; and the distances by frame at
//! the slot that is nearest of all. Where packing fails BUNDLE is not made. Exits with 0 when done, 1 where a
//! file cannot be read or written, 2 where it is called in another way, 3 where the library refuses.

use pciv::bundle::{self, Counts};
use pciv::Refusal;
use std::ffi::{OsStr, OsString};
use std::io::{self, Write};
use std::{env, error::Error, fs, process::ExitCode};

fn main() -> ExitCode {
    let names: Vec<OsString> = env::args_os().skip(1).collect();
    let Some((name, maps)) = names.split_first() else {
        return usage();
    };
    if maps.len() > bundle::MAX_FRAMES {
        return usage();
    }
    match run(name, maps) {
        Ok(()) => ExitCode::SUCCESS,
        Err(error) => match error.downcast_ref() {
            Some(refusal) => {
                tell(refusal, &names);
                ExitCode::from(3)
            }
            None => {
                eprintln!("bundle: {error}");
                ExitCode::FAILURE
            }
        },
    }
}

fn usage() -> ExitCode {
    eprintln!("usage: bundle BUNDLE MAP.., to pack one to eight maps; bundle BUNDLE, to read it");
    ExitCode::from(2)
}

/// A fault of a frame is told with the name of its map, or with its number. The maps are behind BUNDLE.
fn tell(refusal: &Refusal, names: &[OsString]) {
    let Refusal { number, map, place } = *refusal;
    eprintln!("refused {number} map {map} place {place}");
    let (frame, reason) = match number {
        Refusal::SIZE_MISMATCH => (place, "has not as many slots as the bundle"),
        Refusal::BAD_BUNDLE => (map, "the record at that place is wrong or missing"),
        _ => (map, pciv::refusal_text(number)),
    };
    match names.get(frame as usize) {
        Some(name) => eprintln!("bundle: {}", named(name, reason)),
        None => eprintln!("bundle: {}, frame {frame}: {reason}", names[0].display()),
    }
}

fn run(name: &OsStr, maps: &[OsString]) -> Result<(), Box<dyn Error>> {
    if maps.is_empty() {
        return look(&read_file(name)?);
    }
    let bytes = pack(maps)?;
    write_new_file(name, &bytes)?;
    look(&bytes).inspect_err(|_| remove(name))
}

/// The bundle of the maps.
fn pack(maps: &[OsString]) -> Result<Vec<u8>, Box<dyn Error>> {
    let files: Vec<Vec<u8>> = maps
        .iter()
        .map(|map| read_file(map))
        .collect::<Result<_, _>>()?;
    let frames: Vec<&[u8]> = files.iter().map(Vec::as_slice).collect();
    let mut bytes = vec![0; bundle::bundle_len(&frames)];
    bundle::write(&frames, &mut bytes)?;
    Ok(bytes)
}

fn look(bytes: &[u8]) -> Result<(), Box<dyn Error>> {
    let Counts { slots, frames } = bundle::read(bytes)?;
    let mut nearest = vec![0; slots as usize];
    bundle::nearest(bytes, &mut nearest)?;
    let mut text = format!("{frames} frames of {slots} slots, {} bytes\n", bytes.len());

    let readings = (0..).zip(&nearest).filter(|(_, &distance)| distance != 0);
    match readings.clone().min_by_key(|(_, &distance)| distance) {
        None => text += "no readings\n",
        Some((slot, _)) => {
            let count = readings.count();
            let sum: u64 = nearest.iter().map(|&distance| u64::from(distance)).sum();
            let mean = sum as f64 / count as f64;
            let row = bundle::row(bytes, slot)?.map(|distance| distance.to_string());
            let row = row[..frames as usize].join(" ");
            text += &format!("nearest readings: {count} slots, mean {mean:.1} cm\n");
            text += &format!("nearest slot: {slot}, by frame {row} cm\n");
        }
    }
    let mut out = io::stdout().lock();
    let said = out.write_all(text.as_bytes()).and_then(|()| out.flush());
    said.map_err(|error| format!("standard output: {error}").into())
}

fn read_file(name: &OsStr) -> Result<Vec<u8>, String> {
    fs::read(name).map_err(|error| named(name, error))
}

fn write_new_file(name: &OsStr, bytes: &[u8]) -> Result<(), String> {
    let mut file = fs::File::create_new(name).map_err(|error| named(name, error))?;
    let written = file.write_all(bytes).and_then(|()| file.sync_all());
    written.map_err(|error| {
        remove(name);
        named(name, error)
    })
}

/// Removes a new BUNDLE.
fn remove(name: &OsStr) {
    let _ = fs::remove_file(name);
}

fn named(file: &OsStr, what: impl std::fmt::Display) -> String {
    format!("{}: {what}", file.display())
}
