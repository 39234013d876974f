//! Contestants on flat arrays, by what they give.

use crate::timing::{contestant, keep, Contestant};
use std::hint::black_box;

/// A call on flat arrays.
pub enum Flat<'a> {
    /// Distances, to the front of a list.
    Distances(&'a mut dyn FnMut(&mut [u32])),
    /// Signed differences.
    Signed(&'a mut dyn FnMut(&mut [i64])),
    /// Words of a mask.
    Words(&'a mut dyn FnMut(&mut [u64])),
    /// A whole number.
    Number(&'a mut dyn FnMut() -> u64),
    /// A figure.
    Figure(&'a mut dyn FnMut() -> f64),
    /// A change of an array of its own.
    Change(&'a mut dyn FnMut()),
    /// Flat arrays have no such routine.
    Missing,
}

impl Flat<'_> {
    /// The contestant, with a list of its own for `n` results.
    pub fn contestant(&mut self, n: usize) -> Option<Contestant<'_>> {
        match self {
            Flat::Distances(call) => {
                let mut out = vec![0; n];
                Some(contestant(move || call(black_box(&mut out))))
            }
            Flat::Signed(call) => {
                let mut out = vec![0; n];
                Some(contestant(move || call(black_box(&mut out))))
            }
            Flat::Words(call) => {
                let mut out = vec![0; n / 64];
                Some(contestant(move || call(black_box(&mut out))))
            }
            Flat::Number(call) => Some(contestant(|| keep(call()))),
            Flat::Figure(call) => Some(contestant(|| keep(call()))),
            Flat::Change(call) => Some(contestant(call)),
            Flat::Missing => None,
        }
    }

    /// A number that the result determines: the sum of its elements, each times its position from 1
    /// on, modulo 2^64; the bits of a figure.
    pub fn digest(&mut self, n: usize) -> Option<u64> {
        match self {
            Flat::Distances(call) => {
                let mut out = vec![0; n];
                call(&mut out);
                Some(weighted(out.into_iter().map(u64::from)))
            }
            Flat::Signed(call) => {
                let mut out = vec![0; n];
                call(&mut out);
                Some(weighted(out.into_iter().map(|x| x as u64)))
            }
            Flat::Words(call) => {
                let mut out = vec![0; n / 64];
                call(&mut out);
                Some(weighted(out.into_iter()))
            }
            Flat::Number(call) => Some(call()),
            Flat::Figure(call) => Some(call().to_bits()),
            Flat::Change(_) | Flat::Missing => None,
        }
    }
}

fn weighted(numbers: impl Iterator<Item = u64>) -> u64 {
    let terms = (1u64..)
        .zip(numbers)
        .map(|(place, x)| place.wrapping_mul(x));
    terms.fold(0, u64::wrapping_add)
}
