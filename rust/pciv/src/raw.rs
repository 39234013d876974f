//! The functions of `include/pciv.h` over slices, one to one.
//!
//! Each answers the refusal's number and writes its outcome to the places passed to it, as the
//! header says: `refusal`, `moved` of an edit and a table that is filled, always; every other place only
//! when the call is done. The functions of the crate's root are the convenient form.

#![allow(unsafe_code)]

use crate::bundle::MAX_FRAMES;
use crate::{Correction, EditAnswer, Entry, Refusal, Summary, ANSWER_LEN, CORRECTION_LEN};
use std::mem::offset_of;
use std::slice;

mod c {
    use crate::{Entry, Refusal, Summary};

    /// A slice as C has it.
    #[repr(C)]
    pub struct Part {
        pub bytes: *const u8,
        pub len: usize,
    }

    extern "C" {
        pub fn pciv_check(
            file: *const u8,
            file_len: usize,
            summary: *mut Summary,
            refusal: *mut Refusal,
        ) -> u64;
        pub fn pciv_primary_span(file: *const u8, file_len: usize, span: *mut [u64; 2]) -> u64;
        pub fn pciv_lookup(
            file: *const u8,
            file_len: usize,
            slot: u64,
            distance: *mut u32,
            entry: *mut u64,
            refusal: *mut Refusal,
        ) -> u64;
        pub fn pciv_lookup_list(
            file: *const u8,
            file_len: usize,
            slots: *const u64,
            slots_len: usize,
            distances: *mut u32,
            distances_len: usize,
            entries: *mut u64,
            entries_len: usize,
            count: *mut u64,
            refusal: *mut Refusal,
        ) -> u64;
        pub fn pciv_scan(
            file: *const u8,
            file_len: usize,
            distances: *mut u32,
            distances_len: usize,
            count: *mut u64,
            refusal: *mut Refusal,
        ) -> u64;
        pub fn pciv_sum(
            file: *const u8,
            file_len: usize,
            total: *mut u64,
            refusal: *mut Refusal,
        ) -> u64;
        pub fn pciv_readings(
            file: *const u8,
            file_len: usize,
            count: *mut u64,
            refusal: *mut Refusal,
        ) -> u64;
        pub fn pciv_write(
            distances: *const u32,
            distances_len: usize,
            out: *mut u8,
            out_len: usize,
            summary: *mut Summary,
            refusal: *mut Refusal,
        ) -> u64;
        pub fn pciv_close(
            primary: *const u8,
            primary_len: usize,
            slots: *const u64,
            slots_len: usize,
            distances: *const u32,
            distances_len: usize,
            out: *mut u8,
            out_len: usize,
            summary: *mut Summary,
            refusal: *mut Refusal,
        ) -> u64;
        pub fn pciv_close_entries(
            primary: *const u8,
            primary_len: usize,
            entries: *const Entry,
            entries_len: usize,
            out: *mut u8,
            out_len: usize,
            summary: *mut Summary,
            refusal: *mut Refusal,
        ) -> u64;
        pub fn pciv_shift(
            file: *const u8,
            file_len: usize,
            by: i32,
            out: *mut u8,
            out_len: usize,
            summary: *mut Summary,
            refusal: *mut Refusal,
        ) -> u64;
        pub fn pciv_signed_difference(
            a: *const u8,
            a_len: usize,
            b: *const u8,
            b_len: usize,
            out: *mut i64,
            out_len: usize,
            count: *mut u64,
            refusal: *mut Refusal,
        ) -> u64;
        pub fn pciv_mask_not(
            n: u64,
            mask: *const u64,
            mask_len: usize,
            out: *mut u64,
            out_len: usize,
            count: *mut u64,
            refusal: *mut Refusal,
        ) -> u64;
        pub fn pciv_set_bits(
            n: u64,
            mask: *const u64,
            mask_len: usize,
            count: *mut u64,
            refusal: *mut Refusal,
        ) -> u64;
        pub fn pciv_map_of_mask(
            n: u64,
            mask: *const u64,
            mask_len: usize,
            out: *mut u8,
            out_len: usize,
            summary: *mut Summary,
            refusal: *mut Refusal,
        ) -> u64;
        pub fn pciv_bray_curtis(
            a: *const u8,
            a_len: usize,
            b: *const u8,
            b_len: usize,
            figure: *mut f64,
            refusal: *mut Refusal,
        ) -> u64;
        pub fn pciv_jaccard(
            a: *const u8,
            a_len: usize,
            b: *const u8,
            b_len: usize,
            t: u32,
            figure: *mut f64,
            refusal: *mut Refusal,
        ) -> u64;
        pub fn pciv_edit(
            buffer: *mut u8,
            buffer_len: usize,
            slot: u64,
            distance: u32,
            summary: *mut Summary,
            moved: *mut u64,
            refusal: *mut Refusal,
        ) -> u64;
        pub fn pciv_edit_list(
            buffer: *mut u8,
            buffer_len: usize,
            slots: *const u64,
            slots_len: usize,
            distances: *const u32,
            distances_len: usize,
            answers: *mut u64,
            answers_len: usize,
            count: *mut u64,
            refusal: *mut Refusal,
        ) -> u64;
        pub fn pciv_repair(
            file: *const u8,
            file_len: usize,
            n: u64,
            k: u64,
            out: *mut u8,
            out_len: usize,
            corrections: *mut u64,
            corrections_len: usize,
            summary: *mut Summary,
            count: *mut u64,
            refusal: *mut Refusal,
        ) -> u64;
        pub fn pciv_bundle_read(
            bundle: *const u8,
            bundle_len: usize,
            slots: *mut u64,
            frames: *mut u64,
            refusal: *mut Refusal,
        ) -> u64;
        pub fn pciv_bundle_row(
            bundle: *const u8,
            bundle_len: usize,
            slot: u64,
            row: *mut [u32; 8],
            refusal: *mut Refusal,
        ) -> u64;
        pub fn pciv_bundle_nearest(
            bundle: *const u8,
            bundle_len: usize,
            distances: *mut u32,
            distances_len: usize,
            count: *mut u64,
            refusal: *mut Refusal,
        ) -> u64;
        pub fn pciv_bundle_write(
            frames: *const [Part; 8],
            count: usize,
            out: *mut u8,
            out_len: usize,
            written: *mut u64,
            refusal: *mut Refusal,
        ) -> u64;
        pub fn pciv_fill_table(constant: u32, table: *mut [u32; 256], refusal: *mut Refusal)
            -> u64;
        pub fn pciv_map_of_frame(
            frame: *const u8,
            frame_len: usize,
            table: *const [u32; 256],
            out: *mut u8,
            out_len: usize,
            summary: *mut Summary,
            refusal: *mut Refusal,
        ) -> u64;
        pub fn pciv_report(
            input: *const u8,
            input_len: usize,
            text: *mut u8,
            text_len: usize,
            count: *mut u64,
            refusal: *mut Refusal,
        ) -> u64;
    }

    /// The calls that combine two files into a third.
    macro_rules! combining_calls {
        ($($name:ident)*) => {
            extern "C" {
                $(pub fn $name(
                    a: *const u8,
                    a_len: usize,
                    b: *const u8,
                    b_len: usize,
                    out: *mut u8,
                    out_len: usize,
                    summary: *mut Summary,
                    refusal: *mut Refusal,
                ) -> u64;)*
            }
        };
    }

    combining_calls!(pciv_minimum pciv_maximum pciv_sum_maps pciv_difference);

    /// The calls that make a mask of a file.
    macro_rules! selecting_calls {
        ($($name:ident)*) => {
            extern "C" {
                $(pub fn $name(
                    file: *const u8,
                    file_len: usize,
                    t: u32,
                    out: *mut u64,
                    out_len: usize,
                    count: *mut u64,
                    refusal: *mut Refusal,
                ) -> u64;)*
            }
        };
    }

    selecting_calls!(pciv_mask_below pciv_mask_at_most pciv_mask_above pciv_mask_at_least);
    selecting_calls!(pciv_near_mask);

    /// The calls that combine two masks into a third.
    macro_rules! mask_calls {
        ($($name:ident)*) => {
            extern "C" {
                $(pub fn $name(
                    n: u64,
                    a: *const u64,
                    a_len: usize,
                    b: *const u64,
                    b_len: usize,
                    out: *mut u64,
                    out_len: usize,
                    count: *mut u64,
                    refusal: *mut Refusal,
                ) -> u64;)*
            }
        };
    }

    mask_calls!(pciv_mask_and pciv_mask_or pciv_mask_xor);

    /// The calls that make a file of a file and a mask.
    macro_rules! masked_calls {
        ($($name:ident)*) => {
            extern "C" {
                $(pub fn $name(
                    file: *const u8,
                    file_len: usize,
                    mask: *const u64,
                    mask_len: usize,
                    out: *mut u8,
                    out_len: usize,
                    summary: *mut Summary,
                    refusal: *mut Refusal,
                ) -> u64;)*
            }
        };
    }

    masked_calls!(pciv_keep_masked pciv_increment_masked);
}

// Every call below is sound for the same reason: references and slices give non-null, aligned
// pointers that are valid for their lengths, `&mut` ones overlap no other, the library keeps none
// of them past the call and writes only numbers, and `Summary`, `Refusal`, `Entry` and `Part` are laid
// out as in the header.
const _: () = {
    assert!(size_of::<Summary>() == 6 * size_of::<u64>());
    assert!(size_of::<Refusal>() == 3 * size_of::<u64>());
    assert!(size_of::<Entry>() == 16 && offset_of!(Entry, distance) == 8);
    assert!(size_of::<c::Part>() == 16 && offset_of!(c::Part, len) == 8);
};

/// `pciv_check`.
pub fn check(file: &[u8], summary: &mut Summary, refusal: &mut Refusal) -> u64 {
    unsafe { c::pciv_check(file.as_ptr(), file.len(), summary, refusal) }
}

/// `pciv_primary_span`.
pub fn primary_span(file: &[u8], span: &mut [u64; 2]) -> u64 {
    unsafe { c::pciv_primary_span(file.as_ptr(), file.len(), span) }
}

/// `pciv_lookup`.
pub fn lookup(
    file: &[u8],
    slot: u64,
    distance: &mut u32,
    entry: &mut u64,
    refusal: &mut Refusal,
) -> u64 {
    unsafe { c::pciv_lookup(file.as_ptr(), file.len(), slot, distance, entry, refusal) }
}

/// `pciv_lookup_list`.
pub fn lookup_list(
    file: &[u8],
    slots: &[u64],
    distances: &mut [u32],
    entries: &mut [u64],
    count: &mut u64,
    refusal: &mut Refusal,
) -> u64 {
    unsafe {
        c::pciv_lookup_list(
            file.as_ptr(),
            file.len(),
            slots.as_ptr(),
            slots.len(),
            distances.as_mut_ptr(),
            distances.len(),
            entries.as_mut_ptr(),
            entries.len(),
            count,
            refusal,
        )
    }
}

/// `pciv_scan`.
pub fn scan(file: &[u8], distances: &mut [u32], count: &mut u64, refusal: &mut Refusal) -> u64 {
    unsafe {
        c::pciv_scan(
            file.as_ptr(),
            file.len(),
            distances.as_mut_ptr(),
            distances.len(),
            count,
            refusal,
        )
    }
}

/// `pciv_sum`.
pub fn sum(file: &[u8], total: &mut u64, refusal: &mut Refusal) -> u64 {
    unsafe { c::pciv_sum(file.as_ptr(), file.len(), total, refusal) }
}

/// `pciv_readings`.
pub fn readings(file: &[u8], count: &mut u64, refusal: &mut Refusal) -> u64 {
    unsafe { c::pciv_readings(file.as_ptr(), file.len(), count, refusal) }
}

/// `pciv_write`.
pub fn write(
    distances: &[u32],
    out: &mut [u8],
    summary: &mut Summary,
    refusal: &mut Refusal,
) -> u64 {
    unsafe {
        c::pciv_write(
            distances.as_ptr(),
            distances.len(),
            out.as_mut_ptr(),
            out.len(),
            summary,
            refusal,
        )
    }
}

/// `pciv_close`.
pub fn close(
    primary: &[u8],
    slots: &[u64],
    distances: &[u32],
    out: &mut [u8],
    summary: &mut Summary,
    refusal: &mut Refusal,
) -> u64 {
    unsafe {
        c::pciv_close(
            primary.as_ptr(),
            primary.len(),
            slots.as_ptr(),
            slots.len(),
            distances.as_ptr(),
            distances.len(),
            out.as_mut_ptr(),
            out.len(),
            summary,
            refusal,
        )
    }
}

/// `pciv_close_entries`.
pub fn close_entries(
    primary: &[u8],
    entries: &[Entry],
    out: &mut [u8],
    summary: &mut Summary,
    refusal: &mut Refusal,
) -> u64 {
    unsafe {
        c::pciv_close_entries(
            primary.as_ptr(),
            primary.len(),
            entries.as_ptr(),
            entries.len(),
            out.as_mut_ptr(),
            out.len(),
            summary,
            refusal,
        )
    }
}

/// The calls that combine two files into a third, over slices.
macro_rules! combining_functions {
    ($($name:ident: $call:ident,)*) => {
        $(
            #[doc = concat!("`", stringify!($call), "`.")]
            pub fn $name(
                a: &[u8],
                b: &[u8],
                out: &mut [u8],
                summary: &mut Summary,
                refusal: &mut Refusal,
            ) -> u64 {
                unsafe {
                    c::$call(
                        a.as_ptr(),
                        a.len(),
                        b.as_ptr(),
                        b.len(),
                        out.as_mut_ptr(),
                        out.len(),
                        summary,
                        refusal,
                    )
                }
            }
        )*
    };
}

combining_functions! {
    minimum: pciv_minimum,
    maximum: pciv_maximum,
    sum_maps: pciv_sum_maps,
    difference: pciv_difference,
}

/// `pciv_shift`.
pub fn shift(
    file: &[u8],
    by: i32,
    out: &mut [u8],
    summary: &mut Summary,
    refusal: &mut Refusal,
) -> u64 {
    unsafe {
        c::pciv_shift(
            file.as_ptr(),
            file.len(),
            by,
            out.as_mut_ptr(),
            out.len(),
            summary,
            refusal,
        )
    }
}

/// `pciv_signed_difference`.
pub fn signed_difference(
    a: &[u8],
    b: &[u8],
    out: &mut [i64],
    count: &mut u64,
    refusal: &mut Refusal,
) -> u64 {
    unsafe {
        c::pciv_signed_difference(
            a.as_ptr(),
            a.len(),
            b.as_ptr(),
            b.len(),
            out.as_mut_ptr(),
            out.len(),
            count,
            refusal,
        )
    }
}

/// The calls that make a mask of a file, over slices.
macro_rules! selecting_functions {
    ($($name:ident: $call:ident,)*) => {
        $(
            #[doc = concat!("`", stringify!($call), "`.")]
            pub fn $name(
                file: &[u8],
                t: u32,
                out: &mut [u64],
                count: &mut u64,
                refusal: &mut Refusal,
            ) -> u64 {
                unsafe {
                    c::$call(
                        file.as_ptr(),
                        file.len(),
                        t,
                        out.as_mut_ptr(),
                        out.len(),
                        count,
                        refusal,
                    )
                }
            }
        )*
    };
}

selecting_functions! {
    mask_below: pciv_mask_below,
    mask_at_most: pciv_mask_at_most,
    mask_above: pciv_mask_above,
    mask_at_least: pciv_mask_at_least,
    near_mask: pciv_near_mask,
}

/// The calls that combine two masks into a third, over slices.
macro_rules! mask_functions {
    ($($name:ident: $call:ident,)*) => {
        $(
            #[doc = concat!("`", stringify!($call), "`.")]
            pub fn $name(
                n: u64,
                a: &[u64],
                b: &[u64],
                out: &mut [u64],
                count: &mut u64,
                refusal: &mut Refusal,
            ) -> u64 {
                unsafe {
                    c::$call(
                        n,
                        a.as_ptr(),
                        a.len(),
                        b.as_ptr(),
                        b.len(),
                        out.as_mut_ptr(),
                        out.len(),
                        count,
                        refusal,
                    )
                }
            }
        )*
    };
}

mask_functions! {
    mask_and: pciv_mask_and,
    mask_or: pciv_mask_or,
    mask_xor: pciv_mask_xor,
}

/// `pciv_mask_not`.
pub fn mask_not(
    n: u64,
    mask: &[u64],
    out: &mut [u64],
    count: &mut u64,
    refusal: &mut Refusal,
) -> u64 {
    unsafe {
        c::pciv_mask_not(
            n,
            mask.as_ptr(),
            mask.len(),
            out.as_mut_ptr(),
            out.len(),
            count,
            refusal,
        )
    }
}

/// `pciv_set_bits`.
pub fn set_bits(n: u64, mask: &[u64], count: &mut u64, refusal: &mut Refusal) -> u64 {
    unsafe { c::pciv_set_bits(n, mask.as_ptr(), mask.len(), count, refusal) }
}

/// `pciv_map_of_mask`.
pub fn map_of_mask(
    n: u64,
    mask: &[u64],
    out: &mut [u8],
    summary: &mut Summary,
    refusal: &mut Refusal,
) -> u64 {
    unsafe {
        c::pciv_map_of_mask(
            n,
            mask.as_ptr(),
            mask.len(),
            out.as_mut_ptr(),
            out.len(),
            summary,
            refusal,
        )
    }
}

/// The calls that make a file of a file and a mask, over slices.
macro_rules! masked_functions {
    ($($name:ident: $call:ident,)*) => {
        $(
            #[doc = concat!("`", stringify!($call), "`.")]
            pub fn $name(
                file: &[u8],
                mask: &[u64],
                out: &mut [u8],
                summary: &mut Summary,
                refusal: &mut Refusal,
            ) -> u64 {
                unsafe {
                    c::$call(
                        file.as_ptr(),
                        file.len(),
                        mask.as_ptr(),
                        mask.len(),
                        out.as_mut_ptr(),
                        out.len(),
                        summary,
                        refusal,
                    )
                }
            }
        )*
    };
}

masked_functions! {
    keep_masked: pciv_keep_masked,
    increment_masked: pciv_increment_masked,
}

/// `pciv_bray_curtis`.
pub fn bray_curtis(a: &[u8], b: &[u8], figure: &mut f64, refusal: &mut Refusal) -> u64 {
    unsafe { c::pciv_bray_curtis(a.as_ptr(), a.len(), b.as_ptr(), b.len(), figure, refusal) }
}

/// `pciv_jaccard`.
pub fn jaccard(a: &[u8], b: &[u8], t: u32, figure: &mut f64, refusal: &mut Refusal) -> u64 {
    unsafe { c::pciv_jaccard(a.as_ptr(), a.len(), b.as_ptr(), b.len(), t, figure, refusal) }
}

/// `pciv_edit`.
pub fn edit(
    buffer: &mut [u8],
    slot: u64,
    distance: u32,
    summary: &mut Summary,
    moved: &mut u64,
    refusal: &mut Refusal,
) -> u64 {
    unsafe {
        c::pciv_edit(
            buffer.as_mut_ptr(),
            buffer.len(),
            slot,
            distance,
            summary,
            moved,
            refusal,
        )
    }
}

/// `pciv_edit_list`.
pub fn edit_list(
    buffer: &mut [u8],
    slots: &[u64],
    distances: &[u32],
    answers: &mut [u64],
    count: &mut u64,
    refusal: &mut Refusal,
) -> u64 {
    unsafe {
        c::pciv_edit_list(
            buffer.as_mut_ptr(),
            buffer.len(),
            slots.as_ptr(),
            slots.len(),
            distances.as_ptr(),
            distances.len(),
            answers.as_mut_ptr(),
            answers.len(),
            count,
            refusal,
        )
    }
}

/// Answers to edits as the numbers that they consist of.
pub fn answer_numbers(answers: &mut [EditAnswer]) -> &mut [u64] {
    const { assert!(size_of::<EditAnswer>() == ANSWER_LEN * size_of::<u64>()) };
    let len = ANSWER_LEN * answers.len();
    // An EditAnswer consists of that many u64, without gaps, and any of them may be any number.
    unsafe { slice::from_raw_parts_mut(answers.as_mut_ptr().cast(), len) }
}

/// `pciv_repair`.
#[allow(clippy::too_many_arguments)]
pub fn repair(
    file: &[u8],
    n: u64,
    k: u64,
    out: &mut [u8],
    corrections: &mut [u64],
    summary: &mut Summary,
    count: &mut u64,
    refusal: &mut Refusal,
) -> u64 {
    unsafe {
        c::pciv_repair(
            file.as_ptr(),
            file.len(),
            n,
            k,
            out.as_mut_ptr(),
            out.len(),
            corrections.as_mut_ptr(),
            corrections.len(),
            summary,
            count,
            refusal,
        )
    }
}

/// Corrections as the numbers that they consist of.
pub fn correction_numbers(corrections: &mut [Correction]) -> &mut [u64] {
    const { assert!(size_of::<Correction>() == CORRECTION_LEN * size_of::<u64>()) };
    let len = CORRECTION_LEN * corrections.len();
    // A Correction consists of that many u64, without gaps, and any of them may be any number.
    unsafe { slice::from_raw_parts_mut(corrections.as_mut_ptr().cast(), len) }
}

/// `pciv_bundle_read`.
pub fn bundle_read(bundle: &[u8], slots: &mut u64, frames: &mut u64, refusal: &mut Refusal) -> u64 {
    unsafe { c::pciv_bundle_read(bundle.as_ptr(), bundle.len(), slots, frames, refusal) }
}

/// `pciv_bundle_row`.
pub fn bundle_row(
    bundle: &[u8],
    slot: u64,
    row: &mut [u32; MAX_FRAMES],
    refusal: &mut Refusal,
) -> u64 {
    unsafe { c::pciv_bundle_row(bundle.as_ptr(), bundle.len(), slot, row, refusal) }
}

/// `pciv_bundle_nearest`.
pub fn bundle_nearest(
    bundle: &[u8],
    distances: &mut [u32],
    count: &mut u64,
    refusal: &mut Refusal,
) -> u64 {
    unsafe {
        c::pciv_bundle_nearest(
            bundle.as_ptr(),
            bundle.len(),
            distances.as_mut_ptr(),
            distances.len(),
            count,
            refusal,
        )
    }
}

/// `pciv_bundle_write`.
pub fn bundle_write(
    frames: &[&[u8]; MAX_FRAMES],
    count: usize,
    out: &mut [u8],
    written: &mut u64,
    refusal: &mut Refusal,
) -> u64 {
    let parts = frames.map(|frame| c::Part {
        bytes: frame.as_ptr(),
        len: frame.len(),
    });
    unsafe { c::pciv_bundle_write(&parts, count, out.as_mut_ptr(), out.len(), written, refusal) }
}

/// `pciv_fill_table`. The table is always written, with zeros after a refusal.
pub fn fill_table(constant: u32, table: &mut [u32; 256], refusal: &mut Refusal) -> u64 {
    unsafe { c::pciv_fill_table(constant, table, refusal) }
}

/// `pciv_map_of_frame`.
pub fn map_of_frame(
    frame: &[u8],
    table: &[u32; 256],
    out: &mut [u8],
    summary: &mut Summary,
    refusal: &mut Refusal,
) -> u64 {
    unsafe {
        c::pciv_map_of_frame(
            frame.as_ptr(),
            frame.len(),
            table,
            out.as_mut_ptr(),
            out.len(),
            summary,
            refusal,
        )
    }
}

/// `pciv_report`.
pub fn report(input: &[u8], text: &mut [u8], count: &mut u64, refusal: &mut Refusal) -> u64 {
    unsafe {
        c::pciv_report(
            input.as_ptr(),
            input.len(),
            text.as_mut_ptr(),
            text.len(),
            count,
            refusal,
        )
    }
}
