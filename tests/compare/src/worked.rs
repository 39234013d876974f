//! The outcomes that `docs/FORMAT.md` gives, on the library: its worked examples, its table of
//! lengths, and the entry fewer that needs more bytes. Answers and small files are written down
//! here; the reference makes input, and the bytes of large files, alone.

use crate::call::{Answer, Call, Dirty, Guarded};
use crate::files::encode;
use crate::judge::Judge;
use crate::run::{Run, Subject};
use compare::lists::{self, SPREADS};
use compare::rng::Rng;
use pciv::{raw, Edited, Refusal, Summary, ANSWER_LEN, CORRECTION_LEN};

/// All groups of such cases.
pub fn run_all(run: &mut Run) {
    worked_examples(run);
    lengths(run);
    an_entry_fewer(run);
}

const EMPTY: &str = "
    50 43 49 56 00 00 00 00   00 00 00 00 00 00 00 00
    00 00 00 00 00 00 00 00   00 00 00 00 00 00 00 00
    00 00 00 00 00 00 00 00";

/// 0, 254, 255, 300.
const A: &str = "
    50 43 49 56 00 00 00 00   04 00 00 00 00 00 00 00
    02 00 00 00 00 00 00 00   00 00 00 00 00 00 00 00
    00 00 00 00 00 00 00 00   00 FE FF FF
    02 00 00 00 00 00 00 00   FF 00 00 00
    03 00 00 00 00 00 00 00   2C 01 00 00";

/// 1, 1, 1, 4294967295.
const B: &str = "
    50 43 49 56 00 00 00 00   04 00 00 00 00 00 00 00
    01 00 00 00 00 00 00 00   00 00 00 00 00 00 00 00
    00 00 00 00 00 00 00 00   01 01 01 FF
    03 00 00 00 00 00 00 00   FF FF FF FF";

/// 1, 1, 1, 1.
const ONES: &str = "
    50 43 49 56 00 00 00 00   04 00 00 00 00 00 00 00
    00 00 00 00 00 00 00 00   00 00 00 00 00 00 00 00
    00 00 00 00 00 00 00 00   01 01 01 01";

/// 0, 1, 1, 300.
const MINIMUM: &str = "
    50 43 49 56 00 00 00 00   04 00 00 00 00 00 00 00
    01 00 00 00 00 00 00 00   00 00 00 00 00 00 00 00
    00 00 00 00 00 00 00 00   00 01 01 FF
    03 00 00 00 00 00 00 00   2C 01 00 00";

/// 1, 254, 255, 4294967295.
const MAXIMUM: &str = "
    50 43 49 56 00 00 00 00   04 00 00 00 00 00 00 00
    02 00 00 00 00 00 00 00   00 00 00 00 00 00 00 00
    00 00 00 00 00 00 00 00   01 FE FF FF
    02 00 00 00 00 00 00 00   FF 00 00 00
    03 00 00 00 00 00 00 00   FF FF FF FF";

/// 1, 255, 256, 301.
const A_PLUS_ONES: &str = "
    50 43 49 56 00 00 00 00   04 00 00 00 00 00 00 00
    03 00 00 00 00 00 00 00   00 00 00 00 00 00 00 00
    00 00 00 00 00 00 00 00   01 FF FF FF
    01 00 00 00 00 00 00 00   FF 00 00 00
    02 00 00 00 00 00 00 00   00 01 00 00
    03 00 00 00 00 00 00 00   2D 01 00 00";

/// 0, 253, 254, 0.
const A_LESS_B: &str = "
    50 43 49 56 00 00 00 00   04 00 00 00 00 00 00 00
    00 00 00 00 00 00 00 00   00 00 00 00 00 00 00 00
    00 00 00 00 00 00 00 00   00 FD FE 00";

/// 1, 0, 0, 4294966995.
const B_LESS_A: &str = "
    50 43 49 56 00 00 00 00   04 00 00 00 00 00 00 00
    01 00 00 00 00 00 00 00   00 00 00 00 00 00 00 00
    00 00 00 00 00 00 00 00   01 00 00 FF
    03 00 00 00 00 00 00 00   D3 FE FF FF";

/// 0, 1, 1, 1.
const A_BY_LESS_300: &str = "
    50 43 49 56 00 00 00 00   04 00 00 00 00 00 00 00
    00 00 00 00 00 00 00 00   00 00 00 00 00 00 00 00
    00 00 00 00 00 00 00 00   00 01 01 01";

/// 0, 255, 256, 301.
const A_BY_1: &str = "
    50 43 49 56 00 00 00 00   04 00 00 00 00 00 00 00
    03 00 00 00 00 00 00 00   00 00 00 00 00 00 00 00
    00 00 00 00 00 00 00 00   00 FF FF FF
    01 00 00 00 00 00 00 00   FF 00 00 00
    02 00 00 00 00 00 00 00   00 01 00 00
    03 00 00 00 00 00 00 00   2D 01 00 00";

/// 0, 554, 555, 600.
const A_BY_300: &str = "
    50 43 49 56 00 00 00 00   04 00 00 00 00 00 00 00
    03 00 00 00 00 00 00 00   00 00 00 00 00 00 00 00
    00 00 00 00 00 00 00 00   00 FF FF FF
    01 00 00 00 00 00 00 00   2A 02 00 00
    02 00 00 00 00 00 00 00   2B 02 00 00
    03 00 00 00 00 00 00 00   58 02 00 00";

/// 0, 254, 254, 300, then the twelve zeros that the edit leaves.
const A_SLOT_2_AT_254: &str = "
    50 43 49 56 00 00 00 00   04 00 00 00 00 00 00 00
    01 00 00 00 00 00 00 00   00 00 00 00 00 00 00 00
    00 00 00 00 00 00 00 00   00 FE FE FF
    03 00 00 00 00 00 00 00   2C 01 00 00
    00 00 00 00 00 00 00 00   00 00 00 00";

/// 0, 255, 255, 300.
const A_SLOT_1_AT_255: &str = "
    50 43 49 56 00 00 00 00   04 00 00 00 00 00 00 00
    03 00 00 00 00 00 00 00   00 00 00 00 00 00 00 00
    00 00 00 00 00 00 00 00   00 FF FF FF
    01 00 00 00 00 00 00 00   FF 00 00 00
    02 00 00 00 00 00 00 00   FF 00 00 00
    03 00 00 00 00 00 00 00   2C 01 00 00";

/// 0, 254, 255, 7, then the twelve zeros that the edit leaves.
const A_SLOT_3_AT_7: &str = "
    50 43 49 56 00 00 00 00   04 00 00 00 00 00 00 00
    01 00 00 00 00 00 00 00   00 00 00 00 00 00 00 00
    00 00 00 00 00 00 00 00   00 FE FF 07
    02 00 00 00 00 00 00 00   FF 00 00 00
    00 00 00 00 00 00 00 00   00 00 00 00";

/// 0, 254, 255, 400.
const A_SLOT_3_AT_400: &str = "
    50 43 49 56 00 00 00 00   04 00 00 00 00 00 00 00
    02 00 00 00 00 00 00 00   00 00 00 00 00 00 00 00
    00 00 00 00 00 00 00 00   00 FE FF FF
    02 00 00 00 00 00 00 00   FF 00 00 00
    03 00 00 00 00 00 00 00   90 01 00 00";

/// A with byte 0 at 7 and byte 32 at 9.
const A_SPOILED: &str = "
    07 43 49 56 00 00 00 00   04 00 00 00 00 00 00 00
    02 00 00 00 00 00 00 00   00 00 00 00 00 00 00 00
    09 00 00 00 00 00 00 00   00 FE FF FF
    02 00 00 00 00 00 00 00   FF 00 00 00
    03 00 00 00 00 00 00 00   2C 01 00 00";

/// A with its two overflow entries swapped.
const A_SWAPPED: &str = "
    50 43 49 56 00 00 00 00   04 00 00 00 00 00 00 00
    02 00 00 00 00 00 00 00   00 00 00 00 00 00 00 00
    00 00 00 00 00 00 00 00   00 FE FF FF
    03 00 00 00 00 00 00 00   2C 01 00 00
    02 00 00 00 00 00 00 00   FF 00 00 00";

/// A with slot 9, which is none of its four, in its first overflow entry.
const A_OUTSIDE: &str = "
    50 43 49 56 00 00 00 00   04 00 00 00 00 00 00 00
    02 00 00 00 00 00 00 00   00 00 00 00 00 00 00 00
    00 00 00 00 00 00 00 00   00 FE FF FF
    09 00 00 00 00 00 00 00   FF 00 00 00
    03 00 00 00 00 00 00 00   2C 01 00 00";

/// 0, 254, 254, 300.
const A_WITHOUT_255: &str = "
    50 43 49 56 00 00 00 00   04 00 00 00 00 00 00 00
    01 00 00 00 00 00 00 00   00 00 00 00 00 00 00 00
    00 00 00 00 00 00 00 00   00 FE FE FF
    03 00 00 00 00 00 00 00   2C 01 00 00";

/// 0, 254, 255, 254.
const A_WITHOUT_300: &str = "
    50 43 49 56 00 00 00 00   04 00 00 00 00 00 00 00
    01 00 00 00 00 00 00 00   00 00 00 00 00 00 00 00
    00 00 00 00 00 00 00 00   00 FE FF FE
    02 00 00 00 00 00 00 00   FF 00 00 00";

/// A and B in a bundle: a header of 4 slots and 2 frames, and the frames, each behind its length and kind.
const BUNDLE: &str = "
    08 00 00 00 00 00         04 00 00 00   02 00
    46 00 00 00 01 00
    50 43 49 56 00 00 00 00   04 00 00 00 00 00 00 00
    02 00 00 00 00 00 00 00   00 00 00 00 00 00 00 00
    00 00 00 00 00 00 00 00   00 FE FF FF
    02 00 00 00 00 00 00 00   FF 00 00 00
    03 00 00 00 00 00 00 00   2C 01 00 00
    3A 00 00 00 01 00
    50 43 49 56 00 00 00 00   04 00 00 00 00 00 00 00
    01 00 00 00 00 00 00 00   00 00 00 00 00 00 00 00
    00 00 00 00 00 00 00 00   01 01 01 FF
    03 00 00 00 00 00 00 00   FF FF FF FF";

/// The frame of the worked examples.
const FRAME: [u8; 5] = [0, 1, 2, 3, 255];

/// 0, 510, 255, 170, 2.
const FRAME_BY_510: &str = "
    50 43 49 56 00 00 00 00   05 00 00 00 00 00 00 00
    02 00 00 00 00 00 00 00   00 00 00 00 00 00 00 00
    00 00 00 00 00 00 00 00   00 FF FF AA 02
    01 00 00 00 00 00 00 00   FE 01 00 00
    02 00 00 00 00 00 00 00   FF 00 00 00";

/// 0, 0, 0, 0, 0.
const FRAME_BY_ZEROS: &str = "
    50 43 49 56 00 00 00 00   05 00 00 00 00 00 00 00
    00 00 00 00 00 00 00 00   00 00 00 00 00 00 00 00
    00 00 00 00 00 00 00 00   00 00 00 00 00";

/// 300, 0, 300.
const ENDS_IN_OVERFLOW: &str = "
    50 43 49 56 00 00 00 00   03 00 00 00 00 00 00 00
    02 00 00 00 00 00 00 00   00 00 00 00 00 00 00 00
    00 00 00 00 00 00 00 00   FF 00 FF
    00 00 00 00 00 00 00 00   2C 01 00 00
    02 00 00 00 00 00 00 00   2C 01 00 00";

/// 300, 255, 300.
const ALL_IN_OVERFLOW: &str = "
    50 43 49 56 00 00 00 00   03 00 00 00 00 00 00 00
    03 00 00 00 00 00 00 00   00 00 00 00 00 00 00 00
    00 00 00 00 00 00 00 00   FF FF FF
    00 00 00 00 00 00 00 00   2C 01 00 00
    01 00 00 00 00 00 00 00   FF 00 00 00
    02 00 00 00 00 00 00 00   2C 01 00 00";

fn bytes(hexadecimal: &str) -> Vec<u8> {
    let digits = hexadecimal.split_whitespace();
    digits
        .map(|byte| u8::from_str_radix(byte, 16).expect("two digits"))
        .collect()
}

/// A buffer of so many bytes: these, then dirty ones.
fn buffer(hexadecimal: &str, len: usize) -> Vec<u8> {
    let mut buffer = bytes(hexadecimal);
    buffer.extend((buffer.len()..len).map(u8::dirty));
    buffer
}

/// A row of the worked examples: its case in the document's words, and its calls.
#[derive(Clone, Copy)]
struct Row {
    case: &'static str,
    calls: fn(&mut Judge),
}

const fn row(case: &'static str, calls: fn(&mut Judge)) -> Row {
    Row { case, calls }
}

const ROWS: [Row; 44] = [
    row("empty map", empty_map),
    row("primary array of A", primary_of_a),
    row("overflow entries of A", entries_of_a),
    row("minimum of A and B", |judge| {
        combines(
            judge,
            "minimum",
            raw::minimum,
            (A, B),
            of_four(1, 56, 302),
            MINIMUM,
        )
    }),
    row("maximum of A and B", |judge| {
        combines(
            judge,
            "maximum",
            raw::maximum,
            (A, B),
            of_four(2, 68, 4_294_967_805),
            MAXIMUM,
        )
    }),
    row("sum of A and B", sum_of_a_and_b),
    row("A + (1, 1, 1, 1)", |judge| {
        combines(
            judge,
            "sum_maps",
            raw::sum_maps,
            (A, ONES),
            of_four(3, 80, 813),
            A_PLUS_ONES,
        )
    }),
    row("difference A - B", |judge| {
        combines(
            judge,
            "difference",
            raw::difference,
            (A, B),
            of_four(0, 44, 507),
            A_LESS_B,
        )
    }),
    row("difference B - A", |judge| {
        combines(
            judge,
            "difference",
            raw::difference,
            (B, A),
            of_four(1, 56, 4_294_966_996),
            B_LESS_A,
        )
    }),
    row("mask of A, at most 254", |judge| {
        selects(
            judge,
            "mask_at_most",
            raw::mask_at_most,
            (&bytes(A), 254),
            &[3],
        )
    }),
    row("mask of A, at least 255", mask_at_least_255),
    row("edit of A, slot 2 to 254", |judge| {
        edits(
            judge,
            &bytes(A),
            (2, 254),
            edited(of_four(1, 56, 808), 1),
            &bytes(A_SLOT_2_AT_254),
        )
    }),
    row(
        "sums of the empty map, of A, of A with slot 2 edited to 254",
        sums,
    ),
    row(
        "edit of A, slot 1 to 255, in a buffer of 79 / 80 bytes",
        edit_into_overflow,
    ),
    row("Bray-Curtis of (3) and (1)", bray_curtis),
    row("n = 0, 64, 65", mask_words),
    row("report on A", |judge| {
        let text = b"slots 4\nfar 2\nstep 0\nindex 0\nsum 809\nreadings 3\n";
        reports(judge, &bytes(A), text)
    }),
    row("report on no bytes at all", |judge| {
        reports(judge, &[], b"refused 1 map 1 place 0\n")
    }),
    row("shift of A by -300", |judge| {
        shifts_a(judge, -300, of_four(0, 44, 3), A_BY_LESS_300)
    }),
    row("shift of A by 1", |judge| {
        shifts_a(judge, 1, of_four(3, 80, 812), A_BY_1)
    }),
    row("shift of A by 300", |judge| {
        shifts_a(judge, 300, of_four(3, 80, 1_709), A_BY_300)
    }),
    row("near mask of A at 0 / 254 / 255", |judge| {
        for (t, mask) in [(0, 0), (254, 2), (255, 6)] {
            selects(judge, "near_mask", raw::near_mask, (&bytes(A), t), &[mask])
        }
    }),
    row("lookup of A at slots 3, 0, 3, 2", lookups_of_a),
    row(
        "overflow entries that edits of A move: slot 2 to 254; 1 to 255 in 80 / 79 bytes; 3 to 7; 3 to 400",
        entries_moved_in_a,
    ),
    row(
        "overflow entries that an edit of (300, 0, 300) moves: slot 1 to 255",
        |judge| {
            let summary = summary([3, 3, 0, 0, 79], 855);
            edits(
                judge,
                &buffer(ENDS_IN_OVERFLOW, 79),
                (1, 255),
                edited(summary, 1),
                &bytes(ALL_IN_OVERFLOW),
            )
        },
    ),
    row("repair of A, n = 4, k = 2", |judge| {
        repairs(judge, (A, 4, 2), of_four(2, 68, 809), A, &[])
    }),
    row(
        "repair of A with byte 0 at 7 and byte 32 at 9, n = 4, k = 2",
        |judge| {
            let lines = [[1, 0, 0x5649_4307, 0x5649_4350], [1, 32, 9, 0]];
            repairs(judge, (A_SPOILED, 4, 2), of_four(2, 68, 809), A, &lines)
        },
    ),
    row(
        "repair of A with its two entries swapped, n = 4, k = 2",
        |judge| {
            let lines = [[1, 16, 2, 1], [2, 1, 2, 0], [3, 2, 255, 254]];
            repairs(judge, (A_SWAPPED, 4, 2), of_four(1, 56, 808), A_WITHOUT_255, &lines)
        },
    ),
    row("repair of A with byte 44 at 9, n = 4, k = 2", |judge| {
        let lines = [[1, 16, 2, 1], [2, 0, 9, 0], [3, 2, 255, 254]];
        repairs(judge, (A_OUTSIDE, 4, 2), of_four(1, 56, 808), A_WITHOUT_255, &lines)
    }),
    row("repair of A, n = 4, k = 1", |judge| {
        let lines = [[1, 16, 2, 1], [3, 3, 255, 254], [4, 0, 12, 0]];
        repairs(judge, (A, 4, 1), of_four(1, 56, 763), A_WITHOUT_300, &lines)
    }),
    row("repair of the empty map, n = 0, k = 0", |judge| {
        let summary = summary([0, 0, 0, 0, 40], 0);
        repairs(judge, (EMPTY, 0, 0), summary, EMPTY, &[])
    }),
    row("bundle of A and B", bundle_of_a_and_b),
    row("its row at slot 3 / 4", rows_of_bundle),
    row("its nearest distances", nearest_of_bundle),
    row("its first 13 bytes, as a bundle", |judge| {
        reads(judge, &bytes(BUNDLE)[..13], refused(14, 0, 1))
    }),
    row("no bytes at all, as a bundle", |judge| {
        reads(judge, &[], refused(14, 0, 0))
    }),
    row("disparity table of F = 1, at 0, 1, 2, 255", |judge| {
        fills(judge, 1, &[(0, 0), (1, 1), (2, 1), (255, 1)])
    }),
    row(
        "disparity table of F = 254, at 0, 1, 2, 127, 128, 255",
        |judge| {
            let entries = [(0, 0), (1, 254), (2, 127), (127, 2), (128, 1), (255, 1)];
            fills(judge, 254, &entries)
        },
    ),
    row("disparity table of F = 255, at 0, 1, 2, 254, 255", |judge| {
        let entries = [(0, 0), (1, 255), (2, 127), (254, 1), (255, 1)];
        fills(judge, 255, &entries)
    }),
    row("disparity table of F = 4294967295, at 0, 1, 2, 255", |judge| {
        let entries = [(0, 0), (1, 4_294_967_295), (2, 2_147_483_647), (255, 16_843_009)];
        fills(judge, 4_294_967_295, &entries)
    }),
    row("disparity table of F = 0", table_of_zero),
    row(
        "map of the frame 0, 1, 2, 3, 255 by the table of F = 510",
        |judge| {
            let summary = summary([5, 2, 0, 0, 69], 937);
            maps(judge, &table_of_510(), summary, FRAME_BY_510)
        },
    ),
    row("the same in a buffer of 68 / 69 bytes", frame_in_short_buffer),
    row("map of that frame by 256 zeros", |judge| {
        let summary = summary([5, 0, 0, 0, 45], 0);
        maps(judge, &[0; 256], summary, FRAME_BY_ZEROS)
    }),
];

fn worked_examples(run: &mut Run) {
    for (number, row) in ROWS.into_iter().enumerate() {
        run.case("row of the worked examples", number, |_| row);
    }
}

impl Subject for Row {
    fn describe(&self) -> String {
        self.case.into()
    }

    fn compare(&self, judge: &mut Judge, _: &mut Rng) {
        (self.calls)(judge);
    }
}

/// A summary: its counts in the order of a row of "Derived counts", and the sum.
const fn summary([n, k, step, m, len]: [u64; 5], sum: u64) -> Summary {
    Summary {
        n,
        k,
        m,
        step,
        len,
        sum,
    }
}

/// The summary of a map of four slots.
const fn of_four(k: u64, len: u64, sum: u64) -> Summary {
    summary([4, k, 0, 0, len], sum)
}

fn edited(summary: Summary, moved: u64) -> Answer<Edited> {
    Ok(Edited { summary, moved })
}

fn refused<T>(number: u64, map: u64, place: u64) -> Answer<T> {
    Err(reference::Refusal { number, map, place })
}

fn empty_map(judge: &mut Judge) {
    let summary = summary([0, 0, 0, 0, 40], 0);
    writes(judge, "write", summary, EMPTY, |out, summary, refusal| {
        raw::write(&[], out, summary, refusal)
    });
    checks(judge, &bytes(EMPTY), summary);
}

fn primary_of_a(judge: &mut Judge) {
    let list = [0, 254, 255, 300];
    writes(
        judge,
        "write",
        of_four(2, 68, 809),
        A,
        |out, summary, refusal| raw::write(&list, out, summary, refusal),
    );
    let file = bytes(A);
    checks(judge, &file, of_four(2, 68, 809));
    let primary: &[u8] = &[0x00, 0xFE, 0xFF, 0xFF];
    judge.same_buffer(&"primary", primary, pciv::primary(&file));
}

fn lookups_of_a(judge: &mut Judge) {
    let file = bytes(A);
    judge.buffers(
        &Call::new("lookup_list", " of slots 3, 0, 3, 2"),
        (5, 6),
        |distances, entries| {
            distances[..4].copy_from_slice(&[300, 0, 300, 255]);
            entries[..4].copy_from_slice(&[1, 2, 1, 0]);
            Ok(4)
        },
        |distances, entries, count, refusal| {
            raw::lookup_list(&file, &[3, 0, 3, 2], distances, entries, count, refusal)
        },
    );
}

fn entries_of_a(judge: &mut Judge) {
    let file = bytes(A);
    for (slot, found) in [(0, (0, 2)), (1, (254, 2)), (2, (255, 0)), (3, (300, 1))] {
        let call = Call::new("lookup", format!(" of slot {slot}"));
        judge.value(&call, Ok(found), |(distance, entry), refusal| {
            raw::lookup(&file, slot, distance, entry, refusal)
        });
    }
    let (primary, slots, distances) = ([0x00, 0xFE, 0xFF, 0xFF], [2, 3], [255, 300]);
    writes(
        judge,
        "close",
        of_four(2, 68, 809),
        A,
        |out, summary, refusal| raw::close(&primary, &slots, &distances, out, summary, refusal),
    );
}

fn sum_of_a_and_b(judge: &mut Judge) {
    let (a, b) = (bytes(A), bytes(B));
    for capacity in [0, 100] {
        judge.buffer(
            &Call::with_capacity("sum_maps", capacity),
            capacity,
            |_| refused(11, 0, 3),
            |out, summary, refusal| raw::sum_maps(&a, &b, out, summary, refusal),
        );
    }
}

fn mask_at_least_255(judge: &mut Judge) {
    selects(
        judge,
        "mask_at_least",
        raw::mask_at_least,
        (&bytes(A), 255),
        &[12],
    );
    judge.value(&Call::new("set_bits", ""), Ok(2), |count, refusal| {
        raw::set_bits(4, &[12], count, refusal)
    });
}

fn edit_into_overflow(judge: &mut Judge) {
    let [short, enough] = [79, 80].map(|len| buffer(A, len));
    edits(judge, &short, (1, 255), refused(12, 0, 0), &short);
    edits(
        judge,
        &enough,
        (1, 255),
        edited(of_four(3, 80, 810), 2),
        &bytes(A_SLOT_1_AT_255),
    );
}

fn entries_moved_in_a(judge: &mut Judge) {
    let accepted = [
        ((2, 254), edited(of_four(1, 56, 808), 1), A_SLOT_2_AT_254),
        ((1, 255), edited(of_four(3, 80, 810), 2), A_SLOT_1_AT_255),
        ((3, 7), edited(of_four(1, 56, 516), 0), A_SLOT_3_AT_7),
        ((3, 400), edited(of_four(2, 68, 909), 0), A_SLOT_3_AT_400),
    ];
    for (edit, answer, after) in accepted {
        edits(judge, &buffer(A, 80), edit, answer, &buffer(after, 80));
    }
    let short = buffer(A, 79);
    edits(judge, &short, (1, 255), refused(12, 0, 0), &short);
}

fn bray_curtis(judge: &mut Judge) {
    let [three, one] = [3, 1].map(|distance| encode(&[distance]));
    let call = Call::new("bray_curtis", "");
    judge.value(&call, Ok(0.5f64.to_bits()), |bits, refusal| {
        let mut figure = 7.0;
        let number = raw::bray_curtis(&three, &one, &mut figure, refusal);
        *bits = figure.to_bits();
        number
    });
}

fn mask_words(judge: &mut Judge) {
    judge.same(&"mask_len", [0, 1, 2], [0, 64, 65].map(pciv::mask_len));
    let masks: [(usize, &[u64]); 3] = [(0, &[]), (64, &[u64::MAX]), (65, &[u64::MAX, 1])];
    for (n, mask) in masks {
        let file = encode(&vec![7; n]);
        selects(judge, "mask_at_least", raw::mask_at_least, (&file, 7), mask);
    }
}

/// A call that writes this file, to a buffer that is exactly long enough and to a longer one.
fn writes(
    judge: &mut Judge,
    routine: &'static str,
    summary: Summary,
    file: &str,
    library: impl Fn(&mut [u8], &mut Summary, &mut Refusal) -> u64,
) {
    let file = bytes(file);
    for capacity in [file.len(), file.len() + 9] {
        judge.buffer(
            &Call::with_capacity(routine, capacity),
            capacity,
            |out| {
                out[..file.len()].copy_from_slice(&file);
                Ok(summary)
            },
            &library,
        );
    }
}

fn combines(
    judge: &mut Judge,
    routine: &'static str,
    library: fn(&[u8], &[u8], &mut [u8], &mut Summary, &mut Refusal) -> u64,
    (a, b): (&str, &str),
    summary: Summary,
    file: &str,
) {
    let (a, b) = (bytes(a), bytes(b));
    writes(judge, routine, summary, file, |out, summary, refusal| {
        library(&a, &b, out, summary, refusal)
    });
}

fn shifts_a(judge: &mut Judge, by: i32, summary: Summary, file: &str) {
    let a = bytes(A);
    writes(judge, "shift", summary, file, |out, summary, refusal| {
        raw::shift(&a, by, out, summary, refusal)
    });
}

fn sums(judge: &mut Judge) {
    checks(judge, &bytes(EMPTY), summary([0, 0, 0, 0, 40], 0));
    checks(judge, &bytes(A), of_four(2, 68, 809));
    let after = bytes(A_SLOT_2_AT_254);
    let answer = edited(of_four(1, 56, 808), 1);
    edits(judge, &bytes(A), (2, 254), answer, &after);
    checks(judge, &after[..56], of_four(1, 56, 808));
}

fn checks(judge: &mut Judge, file: &[u8], summary: Summary) {
    judge.value(&Call::new("check", ""), Ok(summary), |out, refusal| {
        raw::check(file, out, refusal)
    });
}

/// A mask of a file at a threshold.
fn selects(
    judge: &mut Judge,
    routine: &'static str,
    library: fn(&[u8], u32, &mut [u64], &mut u64, &mut Refusal) -> u64,
    (file, t): (&[u8], u32),
    mask: &[u64],
) {
    for capacity in [mask.len(), mask.len() + 2] {
        judge.buffer(
            &Call::with_capacity(routine, capacity),
            capacity,
            |out| {
                out[..mask.len()].copy_from_slice(mask);
                Ok(mask.len() as u64)
            },
            |out, count, refusal| library(file, t, out, count, refusal),
        );
    }
}

fn reports(judge: &mut Judge, input: &[u8], text: &[u8]) {
    judge.buffer(
        &Call::new("report", ""),
        160,
        |out| {
            out[..text.len()].copy_from_slice(text);
            Ok(text.len() as u64)
        },
        |out, count, refusal| raw::report(input, out, count, refusal),
    );
}

/// A repair by counts: the file that it gives, and its lines, to exact buffers and to longer ones; and
/// refusal 12 where either is too short.
fn repairs(
    judge: &mut Judge,
    (file, n, k): (&str, u64, u64),
    summary: Summary,
    repaired: &str,
    lines: &[[u64; CORRECTION_LEN]],
) {
    let (file, repaired, numbers) = (bytes(file), bytes(repaired), lines.as_flattened());
    let (len, count) = (repaired.len(), numbers.len());
    let mut capacities = vec![(len, count), (len + 9, count + 5), (len - 1, count)];
    capacities.extend(count.checked_sub(1).map(|short| (len, short)));
    for (capacity, more) in capacities {
        judge.buffers(
            &Call::new("repair", format!(", capacities {capacity} and {more}")),
            (capacity, more),
            |out, corrections| {
                if capacity < len || more < count {
                    return refused(12, 0, 0);
                }
                out[..len].copy_from_slice(&repaired);
                corrections[..count].copy_from_slice(numbers);
                Ok((summary, lines.len() as u64))
            },
            |out, corrections, (summary, count), refusal| {
                raw::repair(&file, n, k, out, corrections, summary, count, refusal)
            },
        );
    }
    checks(judge, &repaired, summary);
}

/// The bundle is written to an exact buffer, a longer one and one that is a byte short, whatever the other
/// six frames hold; then it is read.
fn bundle_of_a_and_b(judge: &mut Judge) {
    let (a, b, bundle) = (bytes(A), bytes(B), bytes(BUNDLE));
    let len = bundle.len();
    for others in [&[][..], &a[..40], &b[..]] {
        for capacity in [len, len + 9, len - 1] {
            judge.buffer(
                &Call::with_capacity("bundle_write", capacity),
                capacity,
                |out| {
                    if capacity < len {
                        return refused(12, 0, 0);
                    }
                    out[..len].copy_from_slice(&bundle);
                    Ok(148)
                },
                |out, written, refusal| {
                    let frames = [&a, &b, others, others, others, others, others, others];
                    raw::bundle_write(&frames, 2, out, written, refusal)
                },
            );
        }
    }
    reads(judge, &bundle, Ok((4, 2)));
}

/// A bundle is read: its slots and its frames.
fn reads(judge: &mut Judge, bundle: &[u8], answer: Answer<(u64, u64)>) {
    let call = Call::new("bundle_read", "");
    judge.value(&call, answer, |(slots, frames), refusal| {
        raw::bundle_read(bundle, slots, frames, refusal)
    });
}

fn rows_of_bundle(judge: &mut Judge) {
    let bundle = bytes(BUNDLE);
    let row = [300, 4_294_967_295, 0, 0, 0, 0, 0, 0];
    for (slot, answer) in [(3, Ok(row)), (4, refused(9, 0, 0))] {
        let call = Call::new("bundle_row", format!(" of slot {slot}"));
        judge.value(&call, answer, |row, refusal| {
            raw::bundle_row(&bundle, slot, row, refusal)
        });
    }
}

fn nearest_of_bundle(judge: &mut Judge) {
    let bundle = bytes(BUNDLE);
    for capacity in [4, 6, 3] {
        judge.buffer(
            &Call::with_capacity("bundle_nearest", capacity),
            capacity,
            |out| {
                if capacity < 4 {
                    return refused(12, 0, 0);
                }
                out[..4].copy_from_slice(&[1, 1, 1, 300]);
                Ok(4)
            },
            |out, count, refusal| raw::bundle_nearest(&bundle, out, count, refusal),
        );
    }
}

/// A disparity table is filled, and has these distances at these disparities.
fn fills(judge: &mut Judge, constant: u32, entries: &[(usize, u32)]) {
    let call = Call::new("fill_table", format!(" of {constant}"));
    let mut table = [7; 256];
    judge.value(&call, Ok(()), |(), refusal| {
        raw::fill_table(constant, &mut table, refusal)
    });
    for &(disparity, distance) in entries {
        let entry = format_args!("{call} at {disparity}");
        judge.same(&entry, distance, table[disparity]);
    }
}

fn table_of_zero(judge: &mut Judge) {
    judge.buffer(
        &Call::new("fill_table", " of 0"),
        256,
        |table: &mut [u32]| {
            table.fill(0);
            refused(19, 0, 0)
        },
        |table, (), refusal| {
            let table = table.try_into().expect("256 distances");
            raw::fill_table(0, table, refusal)
        },
    );
}

/// The library's disparity table of 510.
fn table_of_510() -> [u32; 256] {
    let mut table = [7; 256];
    raw::fill_table(510, &mut table, &mut Refusal::default());
    table
}

/// The frame becomes this file by a table.
fn maps(judge: &mut Judge, table: &[u32; 256], summary: Summary, file: &str) {
    writes(
        judge,
        "map_of_frame",
        summary,
        file,
        |out, summary, refusal| raw::map_of_frame(&FRAME, table, out, summary, refusal),
    );
    checks(judge, &bytes(file), summary);
}

fn frame_in_short_buffer(judge: &mut Judge) {
    let (table, file) = (table_of_510(), bytes(FRAME_BY_510));
    for capacity in [68, 69] {
        judge.buffer(
            &Call::with_capacity("map_of_frame", capacity),
            capacity,
            |out| {
                if capacity < 69 {
                    return refused(12, 0, 0);
                }
                out.copy_from_slice(&file);
                Ok(summary([5, 2, 0, 0, 69], 937))
            },
            |out, summary, refusal| raw::map_of_frame(&FRAME, &table, out, summary, refusal),
        );
    }
}

/// An edit of the file at the front of a buffer, by itself and as a list of one: its answer, and
/// what the buffer holds after it.
fn edits(
    judge: &mut Judge,
    buffer: &[u8],
    (slot, distance): (u64, u32),
    answer: Answer<Edited>,
    after: &[u8],
) {
    let with = format!(" of slot {slot} to {distance} in {} bytes", buffer.len());
    let wanted = Guarded::with(after);

    let call = Call::new("edit", with.clone());
    let mut got = Guarded::with(buffer);
    judge.value(&call, answer, |Edited { summary, moved }, refusal| {
        let buffer = got.contents_mut();
        raw::edit(buffer, slot, distance, summary, moved, refusal)
    });
    judge.same_guarded(&call, "buffer", &wanted, &got);

    let call = Call::new("edit_list", with);
    let wanted_answers = Guarded::with(&match answer {
        Ok(Edited { summary, moved }) => {
            let Summary {
                n,
                k,
                m,
                step,
                len,
                sum,
            } = summary;
            [0, 0, 0, n, k, m, step, len, sum, moved]
        }
        Err(reference::Refusal { number, map, place }) => [number, map, place, 0, 0, 0, 0, 0, 0, 0],
    });
    let (mut got, mut answers) = (Guarded::with(buffer), Guarded::dirty(ANSWER_LEN));
    judge.value(&call, Ok(1), |count, refusal| {
        let (buffer, answers) = (got.contents_mut(), answers.contents_mut());
        raw::edit_list(buffer, &[slot], &[distance], answers, count, refusal)
    });
    judge.same_guarded(&call, "buffer", &wanted, &got);
    judge.same_guarded(&call, "answers", &wanted_answers, &answers);
}

/// The table of "Derived counts": n, k, step, m and L.
const LENGTHS: [[u64; 5]; 5] = [
    [5_000, 2_048, 0, 0, 29_616],
    [5_000, 2_049, 2, 1_025, 46_028],
    [5_000, 4_096, 2, 2_048, 86_960],
    [5_000, 4_097, 3, 1_366, 76_060],
    [1_048_576, 1_048_576, 512, 2_048, 13_664_296],
];

/// A list, and the summary of its file.
struct Length {
    list: Vec<u32>,
    summary: Summary,
}

fn lengths(run: &mut Run) {
    for (number, counts) in LENGTHS.into_iter().enumerate() {
        for (inner, spread) in SPREADS.into_iter().enumerate() {
            run.case("row of the lengths", 3 * number + inner, |rng| {
                let [n, k, ..] = counts.map(|count| count as usize);
                let list = lists::with_overflow(rng, n, k, spread);
                let summary = summary(counts, lists::sum(&list));
                Length { list, summary }
            });
        }
    }
}

impl Subject for Length {
    fn describe(&self) -> String {
        format!("{:?}", self.summary)
    }

    /// The list is written, to a buffer that is a byte short and to an exact one; its file is
    /// checked and scanned.
    fn compare(&self, judge: &mut Judge, _: &mut Rng) {
        let Length { list, summary } = self;
        let len = summary.len as usize;
        judge.buffer(
            &Call::with_capacity("write", len - 1),
            len - 1,
            |_| refused(12, 0, 0),
            |out, summary, refusal| raw::write(list, out, summary, refusal),
        );
        let call = Call::with_capacity("write", len);
        let mut file = Guarded::dirty(len);
        judge.value(&call, Ok(*summary), |summary, refusal| {
            raw::write(list, file.contents_mut(), summary, refusal)
        });
        judge.same_guarded(&call, "file", &Guarded::with(&encode(list)), &file);
        checks(judge, file.contents(), *summary);
        judge.buffer(
            &Call::new("scan", ""),
            list.len(),
            |out| {
                out.copy_from_slice(list);
                Ok(summary.n)
            },
            |out, count, refusal| raw::scan(file.contents(), out, count, refusal),
        );
    }
}

/// A list of 5,000 slots, 4,097 of them in overflow, and one of these, with so many behind it.
struct EntryFewer {
    list: Vec<u32>,
    slot: usize,
    behind: u64,
}

fn an_entry_fewer(run: &mut Run) {
    for (number, spread) in SPREADS.into_iter().enumerate() {
        for (inner, behind) in [4_096, 4_095, 2_048, 1, 0].into_iter().enumerate() {
            run.case("an entry fewer, a longer file", 5 * number + inner, |rng| {
                let list = lists::with_overflow(rng, 5_000, 4_097, spread);
                let mut slots = (0..5_000).filter(|&slot| list[slot] >= 255);
                let slot = slots.nth_back(behind).expect("4,097 slots in overflow");
                EntryFewer {
                    list,
                    slot,
                    behind: behind as u64,
                }
            });
        }
    }
}

impl Subject for EntryFewer {
    fn describe(&self) -> String {
        format!("slot {} out of overflow and into it", self.slot)
    }

    /// 86,959 bytes are too few to go from 4,097 entries to 4,096, and 86,960 are enough. From
    /// 4,096 to 4,097 the file becomes shorter, and the bytes up to the old length become 0. Both
    /// ways the entries behind that of the slot move.
    fn compare(&self, judge: &mut Judge, _: &mut Rng) {
        let mut list = self.list.clone();
        let (slot, distance) = (self.slot as u64, list[self.slot]);
        let with_4097 = encode(&list);
        let summary_4097 = summary(LENGTHS[3], lists::sum(&list));
        list[self.slot] = 254;
        let with_4096 = encode(&list);
        let summary_4096 = summary(LENGTHS[2], lists::sum(&list));

        let mut buffer = with_4097.clone();
        buffer.extend((76_060..86_959).map(u8::dirty));
        edits(judge, &buffer, (slot, 254), refused(12, 0, 0), &buffer);
        buffer.push(u8::dirty(86_959));
        edits(
            judge,
            &buffer,
            (slot, 254),
            edited(summary_4096, self.behind),
            &with_4096,
        );

        let mut after = with_4097;
        after.resize(86_960, 0);
        edits(
            judge,
            &with_4096,
            (slot, distance),
            edited(summary_4097, self.behind),
            &after,
        );
    }
}

#[cfg(test)]
mod tests {
    use super::*;

    const DOCUMENT: &str = include_str!("../../../docs/FORMAT.md");

    /// The rows of the only table in a section, cell by cell.
    fn table(section: &str) -> Vec<Vec<&'static str>> {
        let mut lines = DOCUMENT.lines();
        lines
            .find(|line| line.strip_prefix("## ") == Some(section))
            .expect("the section");
        let rows = lines
            .take_while(|line| !line.starts_with("## "))
            .filter_map(|line| line.strip_prefix("| "));
        rows.skip(1).map(|row| row.split(" | ").collect()).collect()
    }

    #[test]
    fn every_worked_example_is_run() {
        let document: Vec<&str> = table("Worked examples").iter().map(|row| row[0]).collect();
        assert_eq!(document, ROWS.map(|row| row.case));
    }

    #[test]
    fn every_row_of_the_lengths_is_run() {
        let number = |cell: &&str| -> u64 {
            let digits = cell.replace([',', ' ', '|'], "");
            digits.parse().expect("a number")
        };
        let document: Vec<Vec<u64>> = table("Derived counts")
            .iter()
            .map(|row| row.iter().map(number).collect())
            .collect();
        assert_eq!(document, LENGTHS);
    }
}
