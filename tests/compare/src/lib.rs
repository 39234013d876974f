//! Random lists of distances, for the comparison and the bench.

pub mod lists;
pub mod rng;
