//! The routines and their loops.

use crate::{words::Kernel, Routine};

const COUNT: Kernel = Kernel::blocks("count of bytes", "pcmpeqb psubb|paddb|psadbw load16 !byte");
const SUM: Kernel = Kernel::blocks("sum of bytes", "paddw|psadbw load8 !pcmpeqb !byte");
const COPY: Kernel = Kernel::new("copy", "load16 store16 !byte");
const WIDEN: Kernel = Kernel::new(
    "bytes to distances",
    "punpcklbw|punpckhbw|pmovzxbw|pmovzxbd store16 !byte",
);

// Which slots are in overflow, where the primary bytes stand in the buffer.
const SLOTS: Kernel = Kernel::new(
    "search for slots in overflow",
    "pcmpeqb|pminub|pmaxub pmovmskb|por load16 !byte",
);

const COUNT_LARGE: Kernel = Kernel::new(
    "count of distances in overflow",
    "pcmpgtd|pcmpeqd|pcmpeqb psubd|paddd|psubb|paddb|psadbw load16",
);
const NARROW: Kernel = Kernel::new("distances to bytes", "packuswb load16 !byte");

// Where repair has set a byte, the two primary arrays differ.
const OTHER: Kernel = Kernel::new(
    "search for bytes that differ",
    "pcmpeqb|pxor por|pand|pandn|pmovmskb load16 !store16 !byte",
);

const MINIMUM: Kernel = Kernel::new("smaller bytes", "pminub load16 store16 !byte");
const MAXIMUM: Kernel = Kernel::new("larger bytes", "pmaxub load16 store16 !byte");
const ADD: Kernel = Kernel::new("bytes added", "paddusb load16 store16 !byte");
const SUBTRACT: Kernel = Kernel::new("bytes subtracted", "psubusb load16 store16 !byte");
// A shift keeps bytes of 0, and lowers the others to 1 at the least.
const RAISE: Kernel = Kernel::new(
    "bytes raised but for 0",
    "paddusb pcmpeqb pand|pandn load16 store16 !byte",
);
const LOWER: Kernel = Kernel::new(
    "bytes lowered but for 0",
    "psubusb pminub|pcmpeqb pmaxub load16 store16 !byte",
);
// Also for the maximum: slots in overflow in both maps, which the entries of both count twice.
const COUNT_MINIMUM: Kernel = Kernel::blocks(
    "count of smaller bytes in overflow",
    "pminub pcmpeqb psubb|paddb|psadbw|por|pmovmskb load16 !byte",
);
const COUNT_SUMS: Kernel = Kernel::blocks(
    "count of sums in overflow",
    "paddusb pcmpeqb psubb|paddb|psadbw|por|pmovmskb load16 !byte",
);

// Differences of bytes in 16 bits, then in 64.
const DIFFERENCES: Kernel = Kernel::new(
    "differences of bytes",
    "punpcklbw|punpckhbw|pmovzxbw psubw|paddw load8 !byte",
);
const WIDEN_DIFFERENCES: Kernel = Kernel::new(
    "differences widened",
    "punpckldq|punpckhdq|punpcklwd|punpckhwd|pshufd|pmovzxdq|pmovzxwq|pmovsxwq psubq|paddq store16",
);

// The test of the near mask, which takes 1 off each byte first, is in the same loop beside the other
// one, behind a branch.
const FLAGS: Kernel = Kernel::new(
    "bytes to mask words",
    "pcmpeqb|pcmpgtb|pminub|pmaxub por|pmovmskb load16 !byte",
);
const AND: Kernel = Kernel::new("words", "pand|andps|andpd load16 store16");
const OR: Kernel = Kernel::new("words", "por|orps|orpd load16 store16");
const XOR: Kernel = Kernel::new("words", "pxor|xorps|xorpd load16 store16");
const NOT: Kernel = Kernel::new(
    "words",
    "pxor|xorps|xorpd|pandn|andnps|andnpd load16 store16",
);
const BITS: Kernel = Kernel::new(
    "count of bits",
    "popcnt|psrlw|psrld|psrlq|pshufb popcnt|pand|andps popcnt|paddb|paddq|psadbw popcnt|load16",
);

// Eight bytes at once through a table.
const SPREAD: Kernel = Kernel::new("mask words to bytes", "store8 !byte");
const KEEP: Kernel = Kernel::new(
    "bytes kept",
    "pand|pandn|andps|andnps|pminub|pmullw load16 store16 !byte",
);
const INCREMENT: Kernel = Kernel::new("bytes raised", "paddusb|paddb load16 store16 !byte");

const BRAY_CURTIS: Kernel = Kernel::blocks(
    "sums of smaller and larger bytes",
    "pminub pmaxub paddw|psadbw load8 !pcmpeqb !byte",
);
const JACCARD: Kernel = Kernel::blocks(
    "counts of smaller and larger bytes",
    "pminub pmaxub pcmpeqb psubb|paddb|psadbw load16 !byte",
);

// The bytes of a frame, less 1 so that 0 loses, beside a block on the stack, which is then raised again.
const NEARER: Kernel = Kernel::new("smaller bytes but for 0", "pminub psubb|paddb load16 !byte");
const RAISE_BLOCK: Kernel = Kernel::new(
    "block to distances",
    "psubb|paddb pcmpeqb|pcmpeqd punpcklbw|punpckhbw|pmovzxbw|pmovzxbd store16 !byte",
);

/// The exported routines and the loops that each has to have. Loops over overflow entries are not
/// among them: these are worked on one by one.
pub const ROUTINES: &[Routine] = &[
    ("pciv_check", &[COUNT, SUM]),
    ("pciv_primary_span", &[COUNT]),
    ("pciv_lookup", &[COUNT]),
    ("pciv_lookup_list", &[COUNT]),
    ("pciv_scan", &[COUNT, WIDEN]),
    ("pciv_sum", &[COUNT, SUM]),
    ("pciv_readings", &[COUNT]),
    ("pciv_write", &[COUNT_LARGE, NARROW, SLOTS, SUM]),
    ("pciv_close", &[COUNT, COPY, SUM]),
    ("pciv_close_entries", &[COUNT, COPY, SUM]),
    ("pciv_repair", &[COUNT, COPY, MINIMUM, OTHER, SUM]),
    ("pciv_minimum", &[COUNT, COUNT_MINIMUM, MINIMUM, SUM]),
    ("pciv_maximum", &[COUNT, COUNT_MINIMUM, MAXIMUM, SUM]),
    ("pciv_sum_maps", &[COUNT, COUNT_SUMS, ADD, SLOTS, SUM]),
    ("pciv_difference", &[COUNT, SUBTRACT, SUM]),
    ("pciv_shift", &[COUNT, RAISE, LOWER, SLOTS, SUM]),
    (
        "pciv_signed_difference",
        &[COUNT, DIFFERENCES, WIDEN_DIFFERENCES],
    ),
    ("pciv_mask_below", &[COUNT, FLAGS]),
    ("pciv_mask_at_most", &[COUNT, FLAGS]),
    ("pciv_mask_above", &[COUNT, FLAGS]),
    ("pciv_mask_at_least", &[COUNT, FLAGS]),
    ("pciv_near_mask", &[COUNT, FLAGS]),
    ("pciv_mask_and", &[AND]),
    ("pciv_mask_or", &[OR]),
    ("pciv_mask_xor", &[XOR]),
    ("pciv_mask_not", &[NOT]),
    ("pciv_set_bits", &[BITS]),
    ("pciv_map_of_mask", &[SPREAD, BITS]),
    ("pciv_keep_masked", &[COUNT, KEEP, SUM]),
    ("pciv_increment_masked", &[COUNT, INCREMENT, SLOTS, SUM]),
    ("pciv_bray_curtis", &[COUNT, BRAY_CURTIS]),
    ("pciv_jaccard", &[COUNT, JACCARD]),
    ("pciv_edit", &[COUNT, COPY, SUM]),
    ("pciv_edit_list", &[COUNT, COPY, SUM]),
    ("pciv_bundle_read", &[COUNT]),
    ("pciv_bundle_row", &[COUNT]),
    ("pciv_bundle_nearest", &[COUNT, NEARER, RAISE_BLOCK]),
    ("pciv_bundle_write", &[COUNT, COPY]),
    ("pciv_fill_table", &[]),
    ("pciv_map_of_frame", &[COUNT]),
    ("pciv_report", &[COUNT, SUM]),
];
