//! One call of the library beside one of the reference: the number answered, the refusal, the
//! result and every element of the buffers.

use crate::judge::Judge;
use compare::rng::Rng;
use pciv::{Correction, Edited, Located, Origin, Refusal, Repaired, Summary};
use std::fmt::{self, Debug, Display};
use std::ops::Range;

/// Elements after a buffer's end that must survive every call; there are some before it too.
const GUARD: usize = 4;

/// The routine called and what tells this call from others.
pub struct Call {
    pub routine: &'static str,
    with: String,
}

impl Call {
    pub fn new(routine: &'static str, with: impl Into<String>) -> Call {
        Call {
            routine,
            with: with.into(),
        }
    }

    pub fn with_capacity(routine: &'static str, capacity: usize) -> Call {
        Call::new(routine, format!(", capacity {capacity}"))
    }
}

impl Display for Call {
    fn fmt(&self, f: &mut fmt::Formatter) -> fmt::Result {
        write!(f, "{}{}", self.routine, self.with)
    }
}

/// What stands in results and buffers before a call; no two neighbours are the same.
pub trait Dirty: PartialEq + Debug + Sized {
    fn dirty(i: usize) -> Self;

    /// What a refused call leaves of a result: what stood there.
    fn refused() -> Self {
        Self::dirty(0)
    }
}

impl Dirty for u8 {
    fn dirty(i: usize) -> u8 {
        0xA5 ^ i as u8
    }
}

impl Dirty for u32 {
    fn dirty(i: usize) -> u32 {
        0xA5A5_3C3C ^ i as u32
    }
}

impl Dirty for u64 {
    fn dirty(i: usize) -> u64 {
        0xA5A5_5A5A_C3C3_3C3C ^ i as u64
    }
}

impl Dirty for i64 {
    fn dirty(i: usize) -> i64 {
        u64::dirty(i) as i64
    }
}

impl Dirty for Summary {
    fn dirty(i: usize) -> Summary {
        Summary {
            n: u64::dirty(i),
            k: u64::dirty(i + 1),
            m: u64::dirty(i + 2),
            step: u64::dirty(i + 3),
            len: u64::dirty(i + 4),
            sum: u64::dirty(i + 5),
        }
    }
}

/// A call without a result beside its buffers.
impl Dirty for () {
    fn dirty(_: usize) {}
}

/// The slots and the frames of a bundle.
impl Dirty for (u64, u64) {
    fn dirty(i: usize) -> (u64, u64) {
        (u64::dirty(i), u64::dirty(i + 1))
    }
}

/// A distance in each of eight frames.
impl Dirty for [u32; 8] {
    fn dirty(i: usize) -> [u32; 8] {
        [0, 1, 2, 3, 4, 5, 6, 7].map(|j| u32::dirty(i + j))
    }
}

/// A distance and the number of its entry.
impl Dirty for (u32, u64) {
    fn dirty(i: usize) -> (u32, u64) {
        (u32::dirty(i), u64::dirty(i + 1))
    }
}

impl Dirty for Located {
    fn dirty(i: usize) -> Located {
        let (distance, entry) = Dirty::dirty(i);
        Located {
            distance,
            origin: Origin::Overflow(entry),
        }
    }
}

/// Of an edit the number of entries moved is always written.
impl Dirty for Edited {
    fn dirty(i: usize) -> Edited {
        let (summary, moved) = (Summary::dirty(i), u64::dirty(i + 6));
        Edited { summary, moved }
    }

    fn refused() -> Edited {
        let moved = 0;
        Edited {
            moved,
            ..Edited::dirty(0)
        }
    }
}

/// The summary of a repair and the number of its lines.
impl Dirty for (Summary, u64) {
    fn dirty(i: usize) -> (Summary, u64) {
        (Summary::dirty(i), u64::dirty(i + 6))
    }
}

impl Dirty for Repaired {
    fn dirty(i: usize) -> Repaired {
        let (summary, lines) = Dirty::dirty(i);
        let lines: u64 = lines;
        Repaired {
            summary,
            lines: lines as usize,
        }
    }
}

impl Dirty for Correction {
    fn dirty(i: usize) -> Correction {
        let [kind, place, before, after] = [0, 1, 2, 3].map(|j| u64::dirty(4 * i + j));
        Correction {
            kind,
            place,
            before,
            after,
        }
    }
}

/// An answer of the reference, or one that is written down.
pub type Answer<T> = Result<T, reference::Refusal>;

/// The reference's summary in the library's type.
pub fn summary_of(summary: reference::Summary) -> Summary {
    let reference::Summary {
        n,
        k,
        m,
        step,
        len,
        sum,
    } = summary;
    Summary {
        n,
        k,
        m,
        step,
        len,
        sum,
    }
}

/// What an edit of the reference has done in the library's type.
pub fn edited_of(edited: reference::Edited) -> Edited {
    let (summary, moved) = (summary_of(edited.summary), edited.moved);
    Edited { summary, moved }
}

/// The reference's distance with its origin in the library's type.
pub fn located_of(located: reference::Located) -> Located {
    Located {
        distance: located.distance,
        origin: match located.origin {
            reference::Origin::Inline => Origin::Inline,
            reference::Origin::Overflow(entry) => Origin::Overflow(entry),
        },
    }
}

/// A result of the Rust interface, told as C is told it.
pub fn told<T>(result: Result<T, Refusal>, value: &mut T, refusal: &mut Refusal) -> u64 {
    *refusal = Refusal::default();
    match result {
        Ok(done) => *value = done,
        Err(refused) => *refusal = refused,
    }
    refusal.number
}

/// Capacities for a result of `len` elements: exact, generous, one short, none.
pub fn capacities(rng: &mut Rng, len: usize) -> Vec<usize> {
    let mut capacities = vec![len, len + 1 + rng.below(20)];
    if len > 0 {
        capacities.extend([len - 1, 0]);
    }
    capacities
}

/// All pairs of these, for two results of `len` elements each.
pub fn capacity_pairs(rng: &mut Rng, len: usize) -> Vec<(usize, usize)> {
    let (capacities, more) = (capacities(rng, len), capacities(rng, len));
    let pairs = |&capacity: &usize| more.iter().map(move |&other| (capacity, other));
    capacities.iter().flat_map(pairs).collect()
}

/// Capacities for a result that is a file; none and some where the call is refused in any.
pub fn file_capacities(rng: &mut Rng, answer: &Answer<reference::Summary>) -> Vec<usize> {
    match answer {
        Ok(summary) => capacities(rng, summary.len as usize),
        Err(_) => vec![0, rng.pick(&[39, 41, 100, 3_000])],
    }
}

/// What a call leaves behind: the number answered, the refusal written and the result.
#[derive(Debug, PartialEq)]
struct Outcome<T> {
    number: u64,
    refusal: Refusal,
    result: T,
}

/// The outcome that an answer asks for.
fn expected<T: Dirty>(answer: Answer<T>) -> Outcome<T> {
    match answer {
        Ok(result) => Outcome {
            number: 0,
            refusal: Refusal::default(),
            result,
        },
        Err(reference::Refusal { number, map, place }) => Outcome {
            number,
            refusal: Refusal { number, map, place },
            result: T::refused(),
        },
    }
}

/// The outcome of a call of the library.
fn observed<T: Dirty>(call: impl FnOnce(&mut T, &mut Refusal) -> u64) -> Outcome<T> {
    let mut result = T::dirty(0);
    let mut refusal = Refusal {
        number: u64::dirty(1),
        map: u64::dirty(2),
        place: u64::dirty(3),
    };
    let number = call(&mut result, &mut refusal);
    Outcome {
        number,
        refusal,
        result,
    }
}

impl Judge {
    /// Compares a call with the reference's answer. Answers the library's result where the call has
    /// to be done.
    pub fn value<T: Dirty>(
        &mut self,
        call: &Call,
        answer: Answer<T>,
        library: impl FnOnce(&mut T, &mut Refusal) -> u64,
    ) -> Option<T> {
        self.calls += 1;
        let (expected, observed) = (expected(answer), observed(library));
        let Refusal { number, map, .. } = expected.refusal;
        self.outcomes.insert((call.routine, number, map));
        self.same(call, &expected, &observed);
        (number == 0).then_some(observed.result)
    }

    /// Compares a call that writes a file to a buffer of `capacity` bytes.
    pub fn file(
        &mut self,
        call: &Call,
        capacity: usize,
        reference: impl FnOnce(&mut [u8]) -> Answer<reference::Summary>,
        library: impl FnOnce(&mut [u8], &mut Summary, &mut Refusal) -> u64,
    ) {
        let mut done = None;
        let reference = |out: &mut [u8]| {
            let answer = reference(out).map(summary_of);
            done = answer.ok();
            answer
        };
        self.buffer(call, capacity, reference, library);
        if let Some(summary) = done {
            self.sum(call.routine, &summary);
        }
    }

    /// Compares a call that writes to a buffer of `capacity` elements.
    pub fn buffer<E: Dirty + Clone, T: Dirty>(
        &mut self,
        call: &Call,
        capacity: usize,
        reference: impl FnOnce(&mut [E]) -> Answer<T>,
        library: impl FnOnce(&mut [E], &mut T, &mut Refusal) -> u64,
    ) {
        self.buffers(
            call,
            (capacity, 0),
            |out, _: &mut [u8]| reference(out),
            |out, _, result, refusal| library(out, result, refusal),
        );
    }

    /// Compares a call that writes to two buffers. Answers what the library left there where the call
    /// has to be done.
    pub fn buffers<E: Dirty + Clone, F: Dirty + Clone, T: Dirty>(
        &mut self,
        call: &Call,
        (capacity, more): (usize, usize),
        reference: impl FnOnce(&mut [E], &mut [F]) -> Answer<T>,
        library: impl FnOnce(&mut [E], &mut [F], &mut T, &mut Refusal) -> u64,
    ) -> Option<(Guarded<E>, Guarded<F>)> {
        let mut wanted = (Guarded::dirty(capacity), Guarded::dirty(more));
        let mut got = wanted.clone();
        let answer = reference(wanted.0.contents_mut(), wanted.1.contents_mut());
        let done = self.value(call, answer, |result, refusal| {
            library(got.0.contents_mut(), got.1.contents_mut(), result, refusal)
        });
        self.same_guarded(call, "buffer", &wanted.0, &got.0);
        self.same_guarded(call, "second buffer", &wanted.1, &got.1);
        done.map(|_| got)
    }

    /// Compares what a call left in a buffer and around it.
    pub fn same_guarded<E: Dirty>(
        &mut self,
        call: &Call,
        what: &str,
        wanted: &Guarded<E>,
        got: &Guarded<E>,
    ) {
        let (wanted_before, wanted) = wanted.memory.split_at(wanted.range.start);
        let (got_before, got) = got.memory.split_at(got.range.start);
        self.same_buffer(&format_args!("{call}: {what}"), wanted, got);
        let before = format_args!("{call}: before the {what}");
        self.same_buffer(&before, wanted_before, got_before);
    }
}

/// A buffer to write to, between elements that must survive every call.
#[derive(Clone)]
pub struct Guarded<E> {
    memory: Vec<E>,
    range: Range<usize>,
}

impl<E: Dirty + Clone> Guarded<E> {
    /// A buffer of dirty elements.
    pub fn dirty(capacity: usize) -> Guarded<E> {
        // Buffers of different capacities start at different alignments.
        let start = 1 + capacity % 16;
        let range = start..start + capacity;
        Guarded {
            memory: (0..range.end + GUARD).map(E::dirty).collect(),
            range,
        }
    }

    /// A buffer that holds these elements.
    pub fn with(contents: &[E]) -> Guarded<E> {
        let mut guarded = Guarded::dirty(contents.len());
        guarded.contents_mut().clone_from_slice(contents);
        guarded
    }

    /// What a call gets.
    pub fn contents_mut(&mut self) -> &mut [E] {
        &mut self.memory[self.range.clone()]
    }

    /// What it holds.
    pub fn contents(&self) -> &[E] {
        &self.memory[self.range.clone()]
    }
}
