//! `stroke MAP DISTANCE OUT`: looks at a map, selects what is 1 to DISTANCE cm away, and paints a
//! stroke: every 40th of the selected slots gets the distance 400 in a copy of the map, which is
//! edited in place through a memory mapping. The copy is OUT.tmp, and becomes OUT when all is done.

// For the mapping alone, which the standard library does not have.
#![allow(unsafe_code)]

use std::ffi::{OsStr, OsString};
use std::os::{fd::AsRawFd, unix::fs::MetadataExt};
use std::{env, error::Error, fs, io, io::Read, process::ExitCode};

fn main() -> ExitCode {
    let arguments: Vec<OsString> = env::args_os().skip(1).collect();
    let [map, distance, out] = &arguments[..] else {
        return usage();
    };
    let Some(distance) = distance.to_str().and_then(read_distance) else {
        return usage();
    };
    match stroke(map, distance, out) {
        Ok(()) => ExitCode::SUCCESS,
        Err(error) => {
            eprintln!("stroke: {error}");
            ExitCode::FAILURE
        }
    }
}

fn usage() -> ExitCode {
    eprintln!("usage: stroke MAP DISTANCE OUT, with a DISTANCE of 0 to 4294967295");
    ExitCode::from(2)
}

/// Digits alone, and no more than a distance can be.
fn read_distance(text: &str) -> Option<u32> {
    text.parse().ok().filter(|_| !text.starts_with('+'))
}

fn stroke(map: &OsStr, distance: u32, out: &OsStr) -> Result<(), Box<dyn Error>> {
    let mut source = fs::File::open(map).map_err(|error| named(map, error))?;
    let now = source.metadata()?;
    if let Ok(before) = fs::metadata(out) {
        if !before.is_file() || (before.dev(), before.ino()) == (now.dev(), now.ino()) {
            return Err(named(out, "is the map itself, or no regular file").into());
        }
    }
    let mut file = Vec::new();
    source.read_to_end(&mut file)?;
    let summary = pciv::check(&file)?;
    let pciv::Summary { n, k, len, .. } = summary;
    let mean = mean_distance(&summary);
    println!("{n} slots, {k} in overflow, {len} bytes, mean {mean:.1} cm");

    let mut mask = vec![0; pciv::mask_len(n)];
    pciv::near_mask(&file, distance, &mut mask)?;
    let selected = pciv::set_bits(n, &mask)?;
    println!("{selected} slots within {distance} cm");

    let is_selected = |&slot: &u64| mask[slot as usize / 64] >> (slot % 64) & 1 == 1;
    let slots: Vec<u64> = (0..n).filter(is_selected).skip(39).step_by(40).collect();

    let copy = [out, OsStr::new(".tmp")].join(OsStr::new(""));
    let mut options = fs::File::options();
    options.read(true).write(true).create_new(true);
    let target = options.open(&copy).map_err(|error| named(&copy, error))?;
    let painted = paint(&target, n, &file, &slots).and_then(|edited| {
        fs::rename(&copy, out)?;
        Ok(edited)
    });
    if painted.is_err() {
        let _ = fs::remove_file(&copy);
    }
    let pciv::Edited { summary, moved } = painted?;
    let pciv::Summary { k, len, .. } = summary;
    let (edits, mean) = (slots.len(), mean_distance(&summary));
    println!(
        "{edits} edits: {k} in overflow, {len} bytes, mean {mean:.1} cm, {moved} entries moved"
    );
    Ok(())
}

/// The mean distance in cm, 0 of a map without slots.
fn mean_distance(summary: &pciv::Summary) -> f64 {
    match summary.n {
        0 => 0.0,
        n => summary.sum as f64 / n as f64,
    }
}

fn named(file: &OsStr, what: impl std::fmt::Display) -> String {
    format!("{}: {what}", file.display())
}

/// Copies the map of `n` slots to a file, and edits it there. Answers what all edits have done.
fn paint(
    target: &fs::File,
    n: u64,
    file: &[u8],
    slots: &[u64],
) -> Result<pciv::Edited, Box<dyn Error>> {
    let mut mapping = Mapping::new(target, pciv::longest_file(n))?;
    let buffer = mapping.bytes();
    buffer[..file.len()].copy_from_slice(file);
    let mut answers = vec![pciv::EditAnswer::default(); slots.len()];
    pciv::edit_list(buffer, slots, &vec![400; slots.len()], &mut answers)?;
    let (mut summary, mut moved) = (pciv::check(file)?, 0);
    for answer in &answers {
        let edited = answer.result()?;
        summary = edited.summary;
        moved += edited.moved;
    }
    drop(mapping);
    target.set_len(summary.len)?;
    target.sync_all()?;
    Ok(pciv::Edited { summary, moved })
}

/// The front of a file as memory, written back to it.
struct Mapping {
    start: *mut u8,
    len: usize,
}

extern "C" {
    fn posix_fallocate(fd: i32, offset: i64, len: i64) -> i32;
    fn mmap(at: *mut u8, len: usize, access: i32, kind: i32, fd: i32, offset: i64) -> *mut u8;
    fn munmap(start: *mut u8, len: usize) -> i32;
}

impl Mapping {
    fn new(file: &fs::File, len: usize) -> io::Result<Mapping> {
        const READ_WRITE: i32 = 3;
        const SHARED: i32 = 1;
        let fd = file.as_raw_fd();
        // The file gets its bytes, and a mapping that stays until it is dropped.
        let error = unsafe { posix_fallocate(fd, 0, len as i64) };
        if error != 0 {
            return Err(io::Error::from_raw_os_error(error));
        }
        let at = std::ptr::null_mut();
        let start = unsafe { mmap(at, len, READ_WRITE, SHARED, fd, 0) };
        match start as isize {
            -1 => Err(io::Error::last_os_error()),
            _ => Ok(Mapping { start, len }),
        }
    }

    /// Nobody else may change the file meanwhile.
    fn bytes(&mut self) -> &mut [u8] {
        unsafe { std::slice::from_raw_parts_mut(self.start, self.len) }
    }
}

impl Drop for Mapping {
    fn drop(&mut self) {
        unsafe { munmap(self.start, self.len) };
    }
}
