//! Cases about disparity frames: tables of device constants, and maps of frames by these and by other
//! tables.

use crate::call::{file_capacities, summary_of, told, Answer, Call, Guarded};
use crate::judge::Judge;
use crate::read_only::ReadOnly;
use crate::run::{Run, Subject};
use crate::tables::{constant, filled, met, with_overflow, Table, CONSTANTS, TABLES};
use compare::lists::{self, Spread, SPREADS, STEP_BORDERS};
use compare::rng::Rng;
use pciv::{raw, DisparityTable, Refusal, Summary};
use reference::{DISPARITIES, MAX_SLOTS};

/// All groups of such cases.
pub fn run_all(run: &mut Run) {
    constants(run);
    telling_sizes(run);
    any_frames(run);
    each_disparity(run);
    overflow_counts(run);
    largest_maps(run);
    too_many_disparities(run);
}

/// Device constants whose tables are filled one after another, in the same memory.
struct Constants(Vec<u32>);

impl Subject for Constants {
    fn describe(&self) -> String {
        format!("tables of {:?}", self.0)
    }

    fn compare(&self, judge: &mut Judge, _: &mut Rng) {
        let mut table = Guarded::dirty(DISPARITIES);
        for &constant in &self.0 {
            compare_fill(judge, constant, &mut table);
        }
    }
}

/// As C has it, over what the table holds, and as Rust has it.
fn compare_fill(judge: &mut Judge, constant: u32, table: &mut Guarded<u32>) {
    let (answer, wanted) = reference::fill_table(constant);
    let call = Call::new("fill_table", format!(" of {constant}"));
    judge.value(&call, answer, |(), refusal| {
        let table = table.contents_mut().try_into().expect("256 distances");
        raw::fill_table(constant, table, refusal)
    });
    judge.same_guarded(&call, "table", &Guarded::with(&wanted), table);
    judge.buffer(
        &Call::new("fill_table", format!(" of {constant} from Rust")),
        DISPARITIES,
        |table: &mut [u32]| answer.map(|()| table.copy_from_slice(&wanted)),
        |table, done, refusal| {
            let filled = DisparityTable::new(constant);
            let copied = filled.map(|filled| table.copy_from_slice(filled.distances()));
            told(copied, done, refusal)
        },
    );
}

/// Each constant at a border before each; small ones; others.
fn constants(run: &mut Run) {
    for (number, first) in CONSTANTS.into_iter().enumerate() {
        run.case("constants at borders", number, |_| {
            Constants(CONSTANTS.map(|next| [first, next]).concat())
        });
    }
    for number in 0..20 {
        run.case("small constants", number, |_| {
            let start = 100 * number as u32;
            Constants((start..start + 100).collect())
        });
    }
    for number in 0..200 {
        run.case("constants", number, |rng| {
            Constants((0..20).map(|_| constant(rng)).collect())
        });
    }
}

/// A frame and the table that makes a map of it.
struct Frame {
    what: String,
    frame: Vec<u8>,
    table: Table,
}

/// Up to this many disparities a frame is tried in every capacity from Rust too.
const FEW_SLOTS: usize = 100_000;

impl Subject for Frame {
    fn describe(&self) -> String {
        format!("{}, {} disparities", self.what, self.frame.len())
    }

    fn compare(&self, judge: &mut Judge, rng: &mut Rng) {
        let Frame { frame, table, .. } = self;
        let answer = reference::map_of_frame(frame, table, judge.scratch());
        let longest = pciv::longest_file(frame.len() as u64);
        let mut capacities = file_capacities(rng, &answer);
        capacities.extend([longest - 1, longest, longest + 1 + rng.below(20)]);
        let mut lent = Lent {
            frame: ReadOnly::new(rng, frame, 1),
            table: ReadOnly::new(rng, table, 300),
        };
        for (number, &capacity) in capacities.iter().enumerate() {
            lent.map_of_frame(judge, capacity);
            if number == 0 || frame.len() <= FEW_SLOTS {
                lent.map_from_rust(judge, capacity);
            }
        }
        if let Ok(summary) = answer {
            lent.compare_result(judge, summary_of(summary));
            for capacity in capacities {
                let met = met(frame, table, summary.len as usize, capacity);
                judge.frames.extend(met);
            }
        }
    }
}

/// A frame and a table that the library only reads.
struct Lent {
    frame: ReadOnly<u8>,
    table: ReadOnly<u32>,
}

fn table_of(distances: &[u32]) -> &Table {
    distances.try_into().expect("256 distances")
}

impl Lent {
    fn by_reference(&self, out: &mut [u8]) -> Answer<reference::Summary> {
        reference::map_of_frame(self.frame.original(), table_of(self.table.original()), out)
    }

    fn by_library(&self, out: &mut [u8], summary: &mut Summary, refusal: &mut Refusal) -> u64 {
        let table = table_of(self.table.contents());
        raw::map_of_frame(self.frame.contents(), table, out, summary, refusal)
    }

    /// As C has it.
    fn map_of_frame(&mut self, judge: &mut Judge, capacity: usize) {
        let call = Call::with_capacity("map_of_frame", capacity);
        judge.file(
            &call,
            capacity,
            |out| self.by_reference(out),
            |out, summary, refusal| self.by_library(out, summary, refusal),
        );
        self.settle(judge, &call);
    }

    /// As Rust has it.
    fn map_from_rust(&mut self, judge: &mut Judge, capacity: usize) {
        let call = Call::new("map_of_frame", format!(" from Rust, capacity {capacity}"));
        let table = DisparityTable::from(*table_of(self.table.original()));
        judge.file(
            &call,
            capacity,
            |out| self.by_reference(out),
            |out, summary, refusal| {
                let answer = pciv::map_of_frame(self.frame.contents(), &table, out);
                told(answer, summary, refusal)
            },
        );
        judge.same_buffer(&call, self.table.original(), table.distances());
        self.settle(judge, &call);
    }

    /// Holds the map to the list that frame and table give, which the reference does not make: its summary,
    /// what check and scan say of its file, and what write makes of the list.
    fn compare_result(&mut self, judge: &mut Judge, summary: Summary) {
        let table = self.table.original();
        let frame = self.frame.original().iter();
        let list: Vec<u32> = frame.map(|&d| table[usize::from(d)]).collect();
        let (n, k) = (list.len(), list.iter().filter(|&&x| x >= 255).count());
        let counts = [n as u64, k as u64, lists::sum(&list)];
        let told = [summary.n, summary.k, summary.sum];
        judge.same(&"n, k and sum of the list", counts, told);

        let len = summary.len as usize;
        let mut file = Guarded::dirty(len);
        let call = Call::new("map_of_frame", " to be read");
        judge.value(&call, Ok(summary), |summary, refusal| {
            self.by_library(file.contents_mut(), summary, refusal)
        });
        let file = file.contents();
        let call = Call::new("check", " of the map of the frame");
        judge.value(&call, Ok(summary), |summary, refusal| {
            raw::check(file, summary, refusal)
        });
        judge.buffer(
            &Call::new("scan", " of the map of the frame"),
            n,
            |out| {
                out.copy_from_slice(&list);
                Ok(n as u64)
            },
            |out, count, refusal| raw::scan(file, out, count, refusal),
        );
        judge.buffer(
            &Call::new("write", " of the distances of the frame"),
            len,
            |out| {
                out.copy_from_slice(file);
                Ok(summary)
            },
            |out, summary, refusal| raw::write(&list, out, summary, refusal),
        );
    }

    fn settle(&mut self, judge: &mut Judge, call: &Call) {
        self.frame.settle(judge, call, "the frame");
        self.table.settle(judge, call, "the table");
    }
}

/// Makes a frame of so many disparities.
type Make = fn(&mut Rng, usize) -> Vec<u8>;

/// Frames in words, and how they are made.
const FRAMES: [(&str, Make); 5] = [
    ("one disparity", |rng, n| vec![rng.byte(); n]),
    ("all disparities", all_disparities),
    ("any disparities", Rng::bytes),
    ("an image", image),
    ("few disparities that are not 0", |rng, n| {
        let any = |rng: &mut Rng| if rng.below(20) == 0 { rng.byte() } else { 0 };
        (0..n).map(|_| any(rng)).collect()
    }),
];

/// In any 256 slots, one after another, all disparities.
fn all_disparities(rng: &mut Rng, n: usize) -> Vec<u8> {
    let (start, step) = (rng.byte(), rng.byte() | 1);
    let at = |slot: usize| start.wrapping_add(step.wrapping_mul(slot as u8));
    (0..n).map(at).collect()
}

/// Runs of a disparity, each next to the one before; some of 0, some of any.
fn image(rng: &mut Rng, n: usize) -> Vec<u8> {
    let mut frame = Vec::with_capacity(n);
    let mut disparity = rng.byte();
    while frame.len() < n {
        let run = (1 + rng.below(90)).min(n - frame.len());
        match rng.below(8) {
            0 => frame.extend(vec![0; run]),
            1 => disparity = rng.byte(),
            _ => {
                disparity = disparity.wrapping_add(rng.pick(&[0, 1, 2, 254, 255]));
                frame.extend(vec![disparity; run]);
            }
        }
    }
    frame
}

/// A frame of `n` disparities, and the table, of these kinds.
fn frame(rng: &mut Rng, n: usize, frame: usize, table: usize) -> Frame {
    let ((frame, disparities), (table, distances)) = (FRAMES[frame], TABLES[table]);
    Frame {
        what: format!("{frame}, {table}"),
        frame: disparities(rng, n),
        table: distances(rng),
    }
}

/// Sizes next to those in which a program may work block by block, and to that of a table.
const SIZES: [usize; 15] = [
    0, 1, 2, 63, 64, 65, 191, 192, 193, 255, 256, 257, 4_095, 4_096, 4_097,
];

/// Each kind of frame by each kind of table, in each of these sizes.
fn telling_sizes(run: &mut Run) {
    let mut number = 0;
    for n in SIZES {
        for table in 0..TABLES.len() {
            for of in 0..FRAMES.len() {
                run.case("frame", number, |rng| frame(rng, n, of, table));
                number += 1;
            }
        }
    }
}

/// Any kind of frame by any kind of table.
fn any_frames(run: &mut Run) {
    for number in 0..2_000 {
        run.case("any frame", number, |rng| {
            let (n, of) = (lists::size(rng), rng.below(FRAMES.len()));
            let table = rng.below(TABLES.len());
            frame(rng, n, of, table)
        });
    }
}

/// Each disparity alone in overflow, and alone inline; all up to it in overflow, and all from it on.
fn each_disparity(run: &mut Run) {
    type IsInOverflow = fn(usize, usize) -> bool;
    let kinds: [(&str, IsInOverflow); 4] = [
        ("alone in overflow", |other, one| other == one),
        ("alone inline", |other, one| other != one),
        ("and all before it in overflow", |other, one| other <= one),
        ("and all behind it in overflow", |other, one| other >= one),
    ];
    for one in 0..DISPARITIES {
        for (inner, (kind, is_in_overflow)) in kinds.into_iter().enumerate() {
            run.case("each disparity", 4 * one + inner, |rng| {
                let n = DISPARITIES + rng.below(100);
                Frame {
                    what: format!("{one} {kind}"),
                    frame: all_disparities(rng, n),
                    table: with_overflow(rng, |other| is_in_overflow(other, one)),
                }
            });
        }
    }
}

/// Maps with numbers of overflow entries where the index changes.
fn overflow_counts(run: &mut Run) {
    let mut number = 0;
    for k in STEP_BORDERS {
        for spread in SPREADS {
            for _ in 0..8 {
                run.case("frame, overflow count", number, |rng| {
                    let others = rng.pick(&[0, 1, 63, 64, 1_000, 3_000]);
                    with_count(rng, k + others, k, spread)
                });
                number += 1;
            }
        }
    }
}

/// A frame of `n` disparities, exactly `k` of which are in overflow.
fn with_count(rng: &mut Rng, n: usize, k: usize, spread: Spread) -> Frame {
    let (kind, make) = rng.pick(&TABLES);
    let table = make(rng);
    let is_in_overflow = |&disparity: &u8| table[usize::from(disparity)] >= 255;
    let (in_overflow, inline): (Vec<u8>, Vec<u8>) = (0..=255).partition(is_in_overflow);
    if in_overflow.is_empty() || inline.is_empty() {
        return with_count(rng, n, k, spread);
    }
    let [in_overflow, inline] =
        [in_overflow, inline].map(|some| move |rng: &mut Rng| u32::from(rng.pick(&some)));
    let frame = lists::placed(rng, n, k, spread, in_overflow, inline);
    Frame {
        what: format!("{k} in overflow ({spread:?}), {kind}"),
        frame: frame.into_iter().map(|disparity| disparity as u8).collect(),
        table,
    }
}

/// The largest maps: none, few, most of the slots in overflow, and all at the largest distance.
fn largest_maps(run: &mut Run) {
    let tables = [
        filled(254),
        filled(765),
        filled(65_025),
        [u32::MAX; DISPARITIES],
    ];
    for (number, table) in tables.into_iter().enumerate() {
        run.case("frame of the largest map", number, |rng| Frame {
            what: format!("{} at disparity 1", table[1]),
            frame: rng.bytes(MAX_SLOTS as usize),
            table,
        });
    }
}

/// Frames with more disparities than a map has slots.
fn too_many_disparities(run: &mut Run) {
    let most = MAX_SLOTS as usize;
    for (number, n) in [most + 1, most + 64].into_iter().enumerate() {
        run.case("too many disparities", number, |rng| {
            frame(rng, n, 2, number)
        });
    }
}
