//! How the cost of each routine grows with the map: picoseconds a slot, by size, share and layout of
//! the slots in overflow.

use crate::scene::Spread;
use crate::table::{Table, Who};
use crate::{GROWTH_SIZES, SHARES};
use std::fmt::Write;

/// A table of tab-separated values: a line for each call on whole maps, layout and share, with a
/// column for each size.
pub fn tsv(tables: &[&Table]) -> String {
    let mut text = String::from("call\tlayout\toverflow");
    for who in ["library", "flat_rust"] {
        for size in GROWTH_SIZES {
            let _ = write!(text, "\t{who}_{}", size.slots());
        }
    }
    text.push('\n');
    let longest = tables.iter().max_by_key(|table| table.rows.len());
    let rows = longest.iter().flat_map(|table| &table.rows);
    for row in rows.filter(|row| row.is_whole()) {
        for (spread, layout) in [
            (Spread::Scattered, "scattered"),
            (Spread::Clustered, "clustered"),
        ] {
            for share in SHARES {
                let cell = |who, size| {
                    let is_meant = |table: &&&Table| {
                        (table.size, table.share, table.spread) == (size, share, spread)
                    };
                    let found = tables.iter().find(is_meant)?.find(&row.call)?;
                    found.ps_a_slot(who).map(|cost| format!("{cost:.1}"))
                };
                let _ = write!(text, "{}\t{layout}\t{}", row.call, share as f64 / 10.0);
                for who in [Who::Library, Who::FlatRust] {
                    for size in GROWTH_SIZES {
                        let _ = write!(text, "\t{}", cell(who, size).unwrap_or_default());
                    }
                }
                text.push('\n');
            }
        }
    }
    text
}
