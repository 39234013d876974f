//! Compares the verified library with the outcomes that `docs/FORMAT.md` gives, and with the
//! independent implementation: every routine on random lists, on files and parts damaged in every
//! field, on pairs of files, on masks, on runs of edits, on files to repair, on bundles, on disparity
//! frames, and on random bytes.
//!
//! `PCIV_SEED` sets the seed of the run, `PCIV_CASE` picks the one case with that seed.

mod bundles;
mod call;
mod corrections;
mod damage;
mod disparity;
mod edits;
mod files;
mod judge;
mod masks;
mod met;
mod moves;
mod origins;
mod pairs;
mod parts;
mod read_only;
mod records;
mod repairs;
mod routines;
mod run;
mod shifts;
mod sums;
mod tables;
mod trial;
mod worked;
mod writing;

use run::Run;
use std::process;

fn main() {
    let mut run = Run::from_environment();
    worked::run_all(&mut run);
    files::run_all(&mut run);
    origins::run_all(&mut run);
    writing::run_all(&mut run);
    pairs::run_all(&mut run);
    shifts::run_all(&mut run);
    masks::run_all(&mut run);
    edits::run_all(&mut run);
    repairs::run_all(&mut run);
    bundles::run_all(&mut run);
    disparity::run_all(&mut run);
    process::exit(run.conclude());
}
