//! The calls of a table.

use crate::counterpart::Flat;
use crate::flat;
use crate::scene::{Map, Scene, FRAMES, LIST_LEN};
use crate::table::{Entrants, Race, Table};
use crate::timing::{contestant, keep};
use pciv::{Correction, EditAnswer, Summary};
use reference::Comparison;
use std::hint::black_box;

/// What starts the names of the calls that tell how fast the machine is.
pub const CONTROL: &str = "control, ";

/// One pass over all calls on the maps of a scene.
pub fn pass(table: &mut Table, scene: &Scene) {
    if let Some((python, number)) = &table.python {
        python.choose(number);
    }
    if table.entrants == Entrants::Library {
        controls(table, &scene.a);
    }
    reading(table, &scene.a);
    lookups(table, scene);
    writing(table, &scene.a);
    repairs(table, scene);
    arithmetic(table, scene);
    masks(table, scene);
    masked(table, scene);
    figures(table, scene);
    edits(table, scene);
    bundles(table, scene);
}

/// What has nothing to do with the library: a memcpy of the file, and a loop of this program.
fn controls(table: &mut Table, map: &Map) {
    let from = &map.file[..];
    let mut to = vec![0; from.len()];
    let nothing = || contestant(|| ());
    let calls = [
        (
            "memcpy",
            contestant(move || black_box(&mut to[..]).copy_from_slice(black_box(from))),
        ),
        (
            "flat Rust sum",
            contestant(|| keep(flat::sum(black_box(&map.list)))),
        ),
    ];
    for (name, library) in calls {
        table.run(
            &format!("{CONTROL}{name}"),
            Race {
                library,
                independent: nothing(),
                files: &[],
                flat: Flat::Missing,
                sse2: None,
                traffic: None,
            },
        );
    }
}

/// Check, scan, sum, readings, and the report where it takes a file of this length.
fn reading(table: &mut Table, map: &Map) {
    let (file, list) = (&map.file[..], &map.list[..]);
    let files = &[file][..];
    let n = list.len();
    let (mut ours, mut theirs) = (vec![0; n], vec![0; n]);
    let len = file.len();
    let copied = 2 * len;
    table.row(
        "check",
        copied,
        files,
        || pciv::check(file),
        || reference::check(file),
        Flat::Missing,
    );
    table.row(
        "primary",
        copied,
        files,
        || Ok(pciv::primary(file).len()),
        || Ok::<_, reference::Refusal>(reference::primary(file).len()),
        Flat::Missing,
    );
    table.row(
        "scan",
        len + 4 * n,
        files,
        || pciv::scan(file, black_box(&mut ours)),
        || reference::scan(file, black_box(&mut theirs)),
        Flat::Distances(&mut |out| flat::scan(list, out)),
    );
    table.row(
        "sum",
        copied,
        files,
        || pciv::sum(file),
        || reference::sum(file),
        Flat::Number(&mut || flat::sum(list)),
    );
    table.row(
        "readings",
        copied,
        files,
        || pciv::readings(file),
        || reference::readings(file),
        Flat::Number(&mut || flat::readings(list)),
    );
    if len <= reference::MAX_INPUT {
        let [mut ours, mut theirs] = [[0; 256]; 2];
        table.row(
            "report",
            copied,
            files,
            || pciv::report(file, black_box(&mut ours)),
            || reference::report(file, black_box(&mut theirs)),
            Flat::Missing,
        );
    }
}

/// One overflow slot, and a list of overflow slots: distances and numbers of entries, on flat arrays
/// distances alone.
fn lookups(table: &mut Table, scene: &Scene) {
    let (file, list, slots) = (&scene.a.file[..], &scene.a.list[..], &scene.asked[..]);
    let lists = || (vec![0; slots.len()], vec![0; slots.len()]);
    let (mut ours, mut theirs) = (lists(), lists());
    table.run(
        "lookup",
        Race {
            library: contestant(|| keep(pciv::lookup(file, slots[0]))),
            independent: contestant(|| keep(reference::lookup(file, slots[0]))),
            files: &[file],
            flat: Flat::Number(&mut || flat::lookup(black_box(list), black_box(slots[0]))),
            sse2: None,
            traffic: None,
        },
    );
    table.run(
        "lookup_list of 16,000",
        Race {
            library: contestant(|| {
                let (distances, entries) = black_box(&mut ours);
                keep(pciv::lookup_list(file, slots, distances, entries))
            }),
            independent: contestant(|| {
                let (distances, entries) = black_box(&mut theirs);
                keep(reference::lookup_list(file, slots, distances, entries))
            }),
            files: &[file],
            flat: Flat::Distances(&mut |out| flat::lookup_list(list, black_box(slots), out)),
            sse2: None,
            traffic: None,
        },
    );
}

/// Write, close and close_entries, all to the same file; on flat arrays, to an array.
fn writing(table: &mut Table, map: &Map) {
    let (list, primary) = (&map.list[..], map.primary());
    let (slots, distances) = (&map.slots[..], &map.distances[..]);
    let our_entries = map.entries(|slot, distance| pciv::Entry { slot, distance });
    let their_entries = map.entries(|slot, distance| reference::Entry { slot, distance });
    let (n, k, len) = (list.len(), slots.len(), map.file.len());
    let (mut ours, mut theirs) = (vec![0; len], vec![0; len]);
    table.row(
        "write",
        4 * n + len,
        &[],
        || pciv::write(list, black_box(&mut ours)),
        || reference::write(list, black_box(&mut theirs)),
        Flat::Distances(&mut |out| flat::scan(list, out)),
    );
    let longest = reference::file_len(n as u64, n as u64) as usize;
    let (mut our_longest, mut their_longest) = (vec![0; longest], vec![0; longest]);
    table.row(
        "write, longest buffer",
        4 * n + len,
        &[],
        || pciv::write(list, black_box(&mut our_longest)),
        || reference::write(list, black_box(&mut their_longest)),
        Flat::Missing,
    );
    table.row(
        "close",
        n + 12 * k + len,
        &[],
        || pciv::close(primary, slots, distances, black_box(&mut ours)),
        || reference::close(primary, slots, distances, black_box(&mut theirs)),
        Flat::Distances(&mut |out| {
            let entries = slots.iter().copied().zip(distances.iter().copied());
            flat::close(primary, entries, out);
        }),
    );
    table.row(
        "close_entries",
        n + 16 * k + len,
        &[],
        || pciv::close_entries(primary, &our_entries, black_box(&mut ours)),
        || reference::close_entries(primary, &their_entries, black_box(&mut theirs)),
        Flat::Distances(&mut |out| {
            let entries = our_entries.iter().map(|entry| (entry.slot, entry.distance));
            flat::close(primary, entries, out);
        }),
    );
}

/// Repair of a sound file, beside the checks of it, and of one that has lost an entry of a hundred.
fn repairs(table: &mut Table, scene: &Scene) {
    let sound = &scene.a.file[..];
    repair(table, "repair", scene, sound, &[sound]);
    repair(table, "repair, 1 % dropped", scene, &scene.spoiled(), &[]);
}

fn repair(table: &mut Table, call: &str, scene: &Scene, file: &[u8], checked: &[&[u8]]) {
    let (n, k) = (scene.a.list.len() as u64, scene.a.slots.len() as u64);
    let mut numbers = vec![0; reference::CORRECTION_LEN * (n + k + 7) as usize];
    let mut out = vec![0; file.len()];
    let needed =
        reference::repair(file, n, k, &mut out, &mut numbers).expect("as long as its entries");
    let (len, lines) = (needed.summary.len as usize, needed.lines as usize);
    let (mut our_out, mut their_out) = (vec![0; len], vec![0; len]);
    let mut ours = vec![Correction::default(); lines];
    let mut theirs = vec![0; reference::CORRECTION_LEN * lines];
    table.row(
        call,
        file.len() + len,
        checked,
        || pciv::repair(file, n, k, black_box(&mut our_out), black_box(&mut ours)),
        || {
            reference::repair(
                file,
                n,
                k,
                black_box(&mut their_out),
                black_box(&mut theirs),
            )
        },
        Flat::Missing,
    );
}

/// What combines two files into a third, in the library and in the reference, and two arrays.
type Ours = fn(&[u8], &[u8], &mut [u8]) -> Result<Summary, pciv::Refusal>;
type Theirs = fn(&[u8], &[u8], &mut [u8]) -> Result<reference::Summary, reference::Refusal>;
type Arrays = fn(&[u32], &[u32], &mut [u32]);

/// Minimum, maximum, sum, difference, shift and signed difference.
fn arithmetic(table: &mut Table, scene: &Scene) {
    let (a, b, small) = (&scene.a, &scene.b, &scene.small);
    let minimum: (Ours, Theirs, Arrays) = (pciv::minimum, reference::minimum, flat::minimum);
    combine(table, "minimum", [a, b], minimum);
    let maximum: (Ours, Theirs, Arrays) = (pciv::maximum, reference::maximum, flat::maximum);
    combine(table, "maximum", [a, b], maximum);
    let sum: (Ours, Theirs, Arrays) = (pciv::sum_maps, reference::sum_maps, flat::sum_maps);
    combine(table, "sum_maps, few to overflow", [a, small], sum);
    combine(table, "sum_maps, half to overflow", [a, b], sum);
    combine(
        table,
        "difference",
        [a, b],
        (pciv::difference, reference::difference, flat::difference),
    );
    shift(table, a, -50);
    shift(table, a, 10);
    let n = a.list.len();
    let (mut ours, mut theirs) = (vec![0; n], vec![0; n]);
    table.row(
        "signed_difference",
        a.file.len() + b.file.len() + 8 * n,
        &[&a.file, &b.file],
        || pciv::signed_difference(&a.file, &b.file, black_box(&mut ours)),
        || reference::signed_difference(&a.file, &b.file, black_box(&mut theirs)),
        Flat::Signed(&mut |out| flat::signed_difference(&a.list, &b.list, out)),
    );
}

fn combine(
    table: &mut Table,
    call: &str,
    [a, b]: [&Map; 2],
    (ours, theirs, arrays): (Ours, Theirs, Arrays),
) {
    let len = result_len(|out| theirs(&a.file, &b.file, out));
    let (mut our_out, mut their_out) = (vec![0; len], vec![0; len]);
    table.row(
        call,
        a.file.len() + b.file.len() + len,
        &[&a.file, &b.file],
        || ours(&a.file, &b.file, black_box(&mut our_out)),
        || theirs(&a.file, &b.file, black_box(&mut their_out)),
        Flat::Distances(&mut |out| arrays(&a.list, &b.list, out)),
    );
}

fn shift(table: &mut Table, map: &Map, by: i32) {
    let (file, list) = (&map.file[..], &map.list[..]);
    let len = result_len(|out| reference::shift(file, by, out));
    let (mut ours, mut theirs) = (vec![0; len], vec![0; len]);
    table.row(
        &format!("shift by {by}"),
        file.len() + len,
        &[file],
        || pciv::shift(file, by, black_box(&mut ours)),
        || reference::shift(file, by, black_box(&mut theirs)),
        Flat::Distances(&mut |out| flat::shift(list, by, out)),
    );
}

/// Masks of a map, where the bytes decide and where the overflow entries do; masks of masks.
fn masks(table: &mut Table, scene: &Scene) {
    let (file, list) = (&scene.a.file[..], &scene.a.list[..]);
    let n = list.len();
    let words = reference::mask_len(n);
    let (mut out, mut their_out) = (vec![0; words], vec![0; words]);
    type Ours = fn(&[u8], u32, &mut [u64]) -> Result<usize, pciv::Refusal>;
    type Theirs = fn(&[u8], u32, &mut [u64]) -> Result<u64, reference::Refusal>;
    type Arrays = fn(&[u32], u32, &mut [u64]);
    let below: (Ours, Theirs, Arrays) = (
        pciv::mask_below,
        |file, t, out| reference::threshold(file, Comparison::Below, t, out),
        |list, t, out| flat::mask(list, out, |x| x < t),
    );
    let at_most: (Ours, Theirs, Arrays) = (
        pciv::mask_at_most,
        |file, t, out| reference::threshold(file, Comparison::AtMost, t, out),
        |list, t, out| flat::mask(list, out, |x| x <= t),
    );
    let above: (Ours, Theirs, Arrays) = (
        pciv::mask_above,
        |file, t, out| reference::threshold(file, Comparison::Above, t, out),
        |list, t, out| flat::mask(list, out, |x| x > t),
    );
    let at_least: (Ours, Theirs, Arrays) = (
        pciv::mask_at_least,
        |file, t, out| reference::threshold(file, Comparison::AtLeast, t, out),
        |list, t, out| flat::mask(list, out, |x| x >= t),
    );
    let near: (Ours, Theirs, Arrays) = (pciv::near_mask, reference::near_mask, flat::near_mask);
    let routines = [
        ("mask_below", 200, below),
        ("mask_below", 300, below),
        ("mask_at_most", 200, at_most),
        ("mask_above", 200, above),
        ("mask_at_least", 200, at_least),
        ("near_mask", 200, near),
        ("near_mask", 300, near),
    ];
    for (name, t, (ours, theirs, arrays)) in routines {
        table.row(
            &format!("{name} {t}"),
            file.len() + 8 * words,
            &[file],
            || ours(file, t, black_box(&mut out)),
            || theirs(file, t, black_box(&mut their_out)),
            Flat::Words(&mut |out| arrays(list, t, out)),
        );
    }
    let (a, b) = (&scene.mask[..], &scene.other_mask[..]);
    let slots = n as u64;
    table.row(
        "mask_and",
        24 * words,
        &[],
        || pciv::mask_and(slots, a, b, black_box(&mut out)),
        || reference::mask_and(n, a, b, black_box(&mut their_out)),
        Flat::Words(&mut |out| flat::mask_and(a, b, out)),
    );
    table.row(
        "mask_or",
        24 * words,
        &[],
        || pciv::mask_or(slots, a, b, black_box(&mut out)),
        || reference::mask_or(n, a, b, black_box(&mut their_out)),
        Flat::Words(&mut |out| flat::mask_or(a, b, out)),
    );
    table.row(
        "mask_xor",
        24 * words,
        &[],
        || pciv::mask_xor(slots, a, b, black_box(&mut out)),
        || reference::mask_xor(n, a, b, black_box(&mut their_out)),
        Flat::Words(&mut |out| flat::mask_xor(a, b, out)),
    );
    table.row(
        "mask_not",
        16 * words,
        &[],
        || pciv::mask_not(slots, a, black_box(&mut out)),
        || reference::mask_not(n, a, black_box(&mut their_out)),
        Flat::Words(&mut |out| flat::mask_not(n, a, out)),
    );
    table.run(
        "set_bits",
        Race {
            library: contestant(|| keep(pciv::set_bits(slots, a))),
            independent: contestant(|| keep(reference::set_bits(n, a))),
            files: &[],
            flat: Flat::Number(&mut || flat::set_bits(black_box(a))),
            sse2: Some(contestant(|| keep(flat::set_bits_by_hand(black_box(a))))),
            traffic: Some(16 * words),
        },
    );
}

/// Files from masks of each kind.
fn masked(table: &mut Table, scene: &Scene) {
    let (file, list) = (&scene.a.file[..], &scene.a.list[..]);
    let n = list.len();
    let buffers = |len| (vec![0; len], vec![0; len]);
    for (kind, mask) in scene.masks() {
        let len = result_len(|out| reference::map_of_mask(n, mask, out));
        let (mut ours, mut theirs) = buffers(len);
        table.row(
            &format!("map_of_mask, {kind}"),
            n / 8 + len,
            &[],
            || pciv::map_of_mask(n as u64, mask, black_box(&mut ours)),
            || reference::map_of_mask(n, mask, black_box(&mut theirs)),
            Flat::Distances(&mut |out| flat::map_of_mask(mask, out)),
        );
        let len = result_len(|out| reference::keep_masked(file, mask, out));
        let (mut ours, mut theirs) = buffers(len);
        table.row(
            &format!("keep_masked, {kind}"),
            file.len() + n / 8 + len,
            &[file],
            || pciv::keep_masked(file, mask, black_box(&mut ours)),
            || reference::keep_masked(file, mask, black_box(&mut theirs)),
            Flat::Distances(&mut |out| flat::keep_masked(list, mask, out)),
        );
        let len = result_len(|out| reference::increment_masked(file, mask, out));
        let (mut ours, mut theirs) = buffers(len);
        table.row(
            &format!("increment_masked, {kind}"),
            file.len() + n / 8 + len,
            &[file],
            || pciv::increment_masked(file, mask, black_box(&mut ours)),
            || reference::increment_masked(file, mask, black_box(&mut theirs)),
            Flat::Distances(&mut |out| flat::increment_masked(list, mask, out)),
        );
    }
}

/// Bray-Curtis, and Jaccard at a threshold below and above 255.
fn figures(table: &mut Table, scene: &Scene) {
    let (a, b) = (&scene.a, &scene.b);
    let files = &[&a.file[..], &b.file[..]][..];
    let copied = 2 * (a.file.len() + b.file.len());
    table.row(
        "bray_curtis",
        copied,
        files,
        || pciv::bray_curtis(&a.file, &b.file),
        || reference::bray_curtis(&a.file, &b.file),
        Flat::Figure(&mut || flat::bray_curtis(&a.list, &b.list)),
    );
    for t in [200, 300] {
        table.row(
            &format!("jaccard at {t}"),
            copied,
            files,
            || pciv::jaccard(&a.file, &b.file, t),
            || reference::jaccard(&a.file, &b.file, t),
            Flat::Figure(&mut || flat::jaccard(&a.list, &b.list, t)),
        );
    }
}

/// One edit with its check, to one distance and back: inline, in overflow, into and out of
/// overflow. Then lists of edits.
fn edits(table: &mut Table, scene: &Scene) {
    let (inline, overflow) = (scene.inline_slot(), scene.overflow_slot());
    edit(table, scene, "edit, inline", inline, [7, 9]);
    edit(table, scene, "edit, in overflow", overflow, [700, 900]);
    edit(table, scene, "edit, into and out", inline, [7, 900]);
    edit_list(table, scene, "inline", &[inline], [7, 9]);
    edit_list(table, scene, "in overflow", &scene.asked, [700, 900]);
    edit_list(table, scene, "into and out", &[inline], [7, 900]);
}

fn edit(table: &mut Table, scene: &Scene, call: &str, slot: u64, distances: [u32; 2]) {
    let [mut ours, mut theirs] = [0; 2].map(|_| scene.edit_buffer());
    let mut list = scene.a.list.clone();
    let [mut our_turn, mut their_turn, mut flat_turn] = [0; 3];
    let next = |turn: &mut usize| {
        *turn ^= 1;
        distances[*turn]
    };
    table.row(
        call,
        2 * scene.a.file.len(),
        &[&scene.a.file],
        || pciv::edit(&mut ours, slot, next(&mut our_turn)),
        || reference::edit(&mut theirs, slot, next(&mut their_turn)),
        Flat::Change(&mut || {
            black_box(&mut list)[black_box(slot) as usize] = next(&mut flat_turn);
        }),
    );
}

fn edit_list(table: &mut Table, scene: &Scene, what: &str, slots: &[u64], distances: [u32; 2]) {
    let call = &format!("edit_list, 1,000 {what}");
    let slots: Vec<u64> = slots.iter().copied().cycle().take(LIST_LEN).collect();
    let distances: Vec<u32> = distances.into_iter().cycle().take(LIST_LEN).collect();
    let [mut ours, mut theirs] = [0; 2].map(|_| scene.edit_buffer());
    let mut list = scene.a.list.clone();
    let mut answers = vec![EditAnswer::default(); LIST_LEN];
    let mut their_answers = vec![0; reference::ANSWER_LEN * LIST_LEN];
    table.run(
        call,
        Race {
            library: contestant(|| {
                keep(pciv::edit_list(&mut ours, &slots, &distances, &mut answers))
            }),
            independent: contestant(|| {
                keep(reference::edit_list(
                    &mut theirs,
                    &slots,
                    &distances,
                    &mut their_answers,
                ))
            }),
            files: &[&scene.a.file],
            flat: Flat::Change(&mut || {
                flat::edit_list(black_box(&mut list), &slots, &distances);
            }),
            sse2: None,
            traffic: None,
        },
    );
}

/// A bundle of eight frames: its counts, the row of a slot, the nearest distances, and how it is written.
fn bundles(table: &mut Table, scene: &Scene) {
    let frames = scene.frames();
    let files = frames.map(|map| &map.file[..]);
    let lists = frames.map(|map| &map.list[..]);
    let bundle = &scene.bundle()[..];
    let (slot, n, len) = (scene.overflow_slot(), scene.a.list.len(), bundle.len());
    table.row(
        "bundle_read",
        2 * len,
        &files,
        || pciv::bundle::read(bundle),
        || reference::bundle::read(bundle),
        Flat::Missing,
    );
    table.row(
        "bundle_row",
        2 * len,
        &files,
        || pciv::bundle::row(bundle, slot),
        || reference::bundle::row(bundle, slot),
        Flat::Missing,
    );
    let (mut ours, mut theirs) = (vec![0; n], vec![0; n]);
    table.row(
        "bundle_nearest",
        len + 4 * n,
        &files,
        || pciv::bundle::nearest(bundle, black_box(&mut ours)),
        || reference::bundle::nearest(bundle, black_box(&mut theirs)),
        Flat::Distances(&mut |out| flat::nearest(lists, out)),
    );
    let (mut ours, mut theirs) = (vec![0; len], vec![0; len]);
    table.row(
        "bundle_write",
        2 * len,
        &files,
        || pciv::bundle::write(&files, black_box(&mut ours)),
        || reference::bundle::write(&files, FRAMES as u64, black_box(&mut theirs)),
        Flat::Missing,
    );
}

/// The length of a file that the reference makes.
fn result_len(
    call: impl FnOnce(&mut [u8]) -> Result<reference::Summary, reference::Refusal>,
) -> usize {
    let longest = reference::file_len(reference::MAX_SLOTS, reference::MAX_SLOTS);
    let summary = call(&mut vec![0; longest as usize]).expect("sound files");
    summary.len as usize
}
