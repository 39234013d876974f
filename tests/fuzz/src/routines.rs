//! The routines, and how an input chooses one.

use crate::call::Bench;
use crate::input::Input;
use crate::{bundles, disparity, masks, one, parts, repairs, two};

/// A routine and the comparison of one call of it.
pub struct Routine {
    /// Its name in C, without `pciv_`.
    pub name: &'static str,
    pub(crate) compare: fn(&mut Bench, &mut Input),
}

/// Each routine of the C interface. The place of one is part of what an input means: further ones
/// come behind the others.
pub const ROUTINES: [Routine; 41] = [
    routine("check", one::check),
    routine("primary_span", one::primary_span),
    routine("lookup", one::lookup),
    routine("lookup_list", one::lookup_list),
    routine("scan", one::scan),
    routine("sum", one::sum),
    routine("readings", one::readings),
    routine("write", parts::write),
    routine("close", parts::close),
    routine("close_entries", parts::close_entries),
    routine("minimum", two::minimum),
    routine("maximum", two::maximum),
    routine("sum_maps", two::sum_maps),
    routine("difference", two::difference),
    routine("shift", one::shift),
    routine("signed_difference", two::signed_difference),
    routine("mask_below", one::mask_below),
    routine("mask_at_most", one::mask_at_most),
    routine("mask_above", one::mask_above),
    routine("mask_at_least", one::mask_at_least),
    routine("near_mask", one::near_mask),
    routine("mask_and", masks::and),
    routine("mask_or", masks::or),
    routine("mask_xor", masks::xor),
    routine("mask_not", masks::not),
    routine("set_bits", masks::set_bits),
    routine("map_of_mask", masks::map_of_mask),
    routine("keep_masked", one::keep_masked),
    routine("increment_masked", one::increment_masked),
    routine("bray_curtis", two::bray_curtis),
    routine("jaccard", two::jaccard),
    routine("edit", one::edit),
    routine("edit_list", one::edit_list),
    routine("report", one::report),
    routine("repair", repairs::repair),
    routine("bundle_read", bundles::read),
    routine("bundle_row", bundles::row),
    routine("bundle_nearest", bundles::nearest),
    routine("bundle_write", bundles::write),
    routine("fill_table", disparity::fill_table),
    routine("map_of_frame", disparity::map_of_frame),
];

const fn routine(name: &'static str, compare: fn(&mut Bench, &mut Input)) -> Routine {
    Routine { name, compare }
}

/// The place in the table of the routine that an input begins with.
pub fn choose(input: &mut Input) -> usize {
    usize::from(input.byte()) % ROUTINES.len()
}

/// The name of the routine that an input calls.
pub fn routine_of(bytes: &[u8]) -> &'static str {
    ROUTINES[choose(&mut Input::new(bytes))].name
}
