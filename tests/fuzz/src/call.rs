//! One call of the library beside one of the reference: the number answered, the refusal, the
//! result, and every element of the caller's memory.

use crate::entry;
use crate::fence::{Fenced, Plain};
use crate::input::Input;
use crate::routines::ROUTINES;
use pciv::{Edited, Refusal, Summary};
use std::env;
use std::fmt::Debug;

/// An answer of the reference.
pub type Answer<T> = Result<T, reference::Refusal>;

/// Memory for each list that a call gets, in bytes.
const MEMORY: usize = 5 << 20;

/// Elements beside a buffer, on the side without a forbidden page, that must survive every call.
const MARGIN: usize = 8;

/// What stands in results and buffers before a call.
pub trait Dirty: PartialEq + Debug + Copy {
    fn dirty(i: usize) -> Self;

    /// What a refused call leaves of a result: what stood there.
    fn refused() -> Self {
        Self::dirty(0)
    }
}

impl Dirty for u8 {
    fn dirty(i: usize) -> u8 {
        0xA5 ^ i as u8
    }
}

impl Dirty for u32 {
    fn dirty(i: usize) -> u32 {
        0xA5A5_3C3C ^ i as u32
    }
}

impl Dirty for u64 {
    fn dirty(i: usize) -> u64 {
        0xA5A5_5A5A_C3C3_3C3C ^ i as u64
    }
}

impl Dirty for i64 {
    fn dirty(i: usize) -> i64 {
        u64::dirty(i) as i64
    }
}

impl Dirty for Summary {
    fn dirty(i: usize) -> Summary {
        let [n, k, m, step, len, sum] = [0, 1, 2, 3, 4, 5].map(|j| u64::dirty(i + j));
        Summary {
            n,
            k,
            m,
            step,
            len,
            sum,
        }
    }
}

/// A call without a result beside its buffers.
impl Dirty for () {
    fn dirty(_: usize) {}
}

/// The slots and the frames of a bundle.
impl Dirty for (u64, u64) {
    fn dirty(i: usize) -> (u64, u64) {
        (u64::dirty(i), u64::dirty(i + 1))
    }
}

/// A distance in each of eight frames.
impl Dirty for [u32; 8] {
    fn dirty(i: usize) -> [u32; 8] {
        [0, 1, 2, 3, 4, 5, 6, 7].map(|j| u32::dirty(i + j))
    }
}

/// A distance and the number of its entry.
impl Dirty for (u32, u64) {
    fn dirty(i: usize) -> (u32, u64) {
        (u32::dirty(i), u64::dirty(i + 1))
    }
}

/// Of an edit the number of entries moved is always written.
impl Dirty for Edited {
    fn dirty(i: usize) -> Edited {
        let (summary, moved) = (Summary::dirty(i), u64::dirty(i + 6));
        Edited { summary, moved }
    }

    fn refused() -> Edited {
        let moved = 0;
        Edited {
            moved,
            ..Edited::dirty(0)
        }
    }
}

/// The summary of a repair and the number of its lines.
impl Dirty for (Summary, u64) {
    fn dirty(i: usize) -> (Summary, u64) {
        (Summary::dirty(i), u64::dirty(i + 6))
    }
}

/// So many dirty elements.
pub fn dirty<E: Dirty>(len: usize) -> Vec<E> {
    (0..len).map(E::dirty).collect()
}

/// No elements, for a call that has fewer lists.
pub const NONE: &[u8] = &[];

/// Three lists that a call reads.
pub type Read<'a, A, B, C> = (&'a [A], &'a [B], &'a [C]);

/// Two lists that a call writes.
pub type Written<'a, E, F> = (&'a mut [E], &'a mut [F]);

/// The memory of all calls, and what is to be known of the present one.
pub struct Bench {
    read: [Fenced; 3],
    written: [Fenced; 2],
    scratch: Vec<u8>,
    routine: usize,
    /// Which end of its memory each list is at, a bit for each.
    ends: u8,
    /// Routines of which only the reference is called.
    skipped: Vec<String>,
}

impl Bench {
    /// `PCIV_FUZZ_SKIP` names routines of which the library's are not called, with spaces between.
    pub fn from_environment() -> Bench {
        let skipped = env::var("PCIV_FUZZ_SKIP").unwrap_or_default();
        Bench {
            read: [(); 3].map(|()| Fenced::new(MEMORY)),
            written: [(); 2].map(|()| Fenced::new(MEMORY)),
            scratch: vec![0; 256 << 10],
            routine: 0,
            ends: 0,
            skipped: skipped.split_whitespace().map(String::from).collect(),
        }
    }

    pub fn begin(&mut self, routine: usize, ends: u8) {
        self.routine = routine;
        self.ends = ends;
    }

    /// Compares a call that reads up to three lists and writes up to two; answers what it left in the
    /// first of them.
    pub fn call<A: Plain, B: Plain, C: Plain, E: Plain + Dirty, F: Plain + Dirty, T: Dirty>(
        &mut self,
        read: Read<A, B, C>,
        (out, more): (&[E], &[F]),
        theirs: impl FnOnce(Read<A, B, C>, Written<E, F>) -> Answer<T>,
        ours: impl FnOnce(Read<A, B, C>, Written<E, F>, &mut T, &mut Refusal) -> u64,
    ) -> Vec<E> {
        let name = ROUTINES[self.routine].name;
        let (mut wanted, mut wanted_more) = (out.to_vec(), more.to_vec());
        let answer = theirs(read, (&mut wanted, &mut wanted_more));
        let (number, map) = answer
            .as_ref()
            .map_or_else(|r| (r.number, r.map), |_| (0, 0));
        entry::count(self.routine, number, map);
        if self.skipped.iter().any(|skipped| skipped == name) {
            return wanted;
        }

        let end = |bit: u8| self.ends >> bit & 1 == 1;
        let [a, b, c] = &mut self.read;
        let placed = (
            &*a.place(read.0, end(0)),
            &*b.place(read.1, end(1)),
            &*c.place(read.2, end(2)),
        );
        let [got, got_more] = &mut self.written;
        let mut got = Buffer::place(got, out, end(3));
        let mut got_more = Buffer::place(got_more, more, end(4));
        let mut cells = Cells::dirty();
        let written = (got.inner(), got_more.inner());
        let number = ours(placed, written, &mut cells.result, &mut cells.refusal);
        assert_eq!((number, cells), Cells::wanted(answer), "{name}: answer");
        got.compare(name, "buffer", &wanted);
        got_more.compare(name, "second buffer", &wanted_more);
        compare(name, "first list read", read.0, placed.0);
        compare(name, "second list read", read.1, placed.1);
        compare(name, "third list read", read.2, placed.2);
        wanted
    }

    /// Compares a call that reads a list and writes nothing but its result.
    pub fn value<A: Plain, T: Dirty>(
        &mut self,
        read: &[A],
        theirs: impl FnOnce(&[A]) -> Answer<T>,
        ours: impl FnOnce(&[A], &mut T, &mut Refusal) -> u64,
    ) {
        self.call(
            (read, NONE, NONE),
            (NONE, NONE),
            |(read, ..), _| theirs(read),
            |(read, ..), _, result, refusal| ours(read, result, refusal),
        );
    }

    /// Compares a call that reads a list and writes one of `capacity` elements.
    pub fn list<A: Plain, E: Plain + Dirty>(
        &mut self,
        read: &[A],
        capacity: usize,
        theirs: impl FnOnce(&[A], &mut [E]) -> Answer<u64>,
        ours: impl FnOnce(&[A], &mut [E], &mut u64, &mut Refusal) -> u64,
    ) {
        self.lists(
            (read, NONE),
            capacity,
            |read, _, out| theirs(read, out),
            |read, _, out, count, refusal| ours(read, out, count, refusal),
        );
    }

    /// Compares a call that reads two lists and writes one of `capacity` elements.
    pub fn lists<A: Plain, B: Plain, E: Plain + Dirty>(
        &mut self,
        (a, b): (&[A], &[B]),
        capacity: usize,
        theirs: impl FnOnce(&[A], &[B], &mut [E]) -> Answer<u64>,
        ours: impl FnOnce(&[A], &[B], &mut [E], &mut u64, &mut Refusal) -> u64,
    ) {
        self.call(
            (a, b, NONE),
            (&dirty(capacity), NONE),
            |(a, b, _), (out, _)| theirs(a, b, out),
            |(a, b, _), (out, _), count, refusal| ours(a, b, out, count, refusal),
        );
    }

    /// Compares a call that reads two lists and writes a file; the input chooses the capacity.
    pub fn file<A: Plain, B: Plain>(
        &mut self,
        (a, b): (&[A], &[B]),
        input: &mut Input,
        theirs: impl Fn(&[A], &[B], &mut [u8]) -> Answer<reference::Summary>,
        ours: impl FnOnce(&[A], &[B], &mut [u8], &mut Summary, &mut Refusal) -> u64,
    ) {
        self.file_of_three(
            (a, b, NONE),
            input,
            |(a, b, _), out| theirs(a, b, out),
            |(a, b, _), out, summary, refusal| ours(a, b, out, summary, refusal),
        );
    }

    /// The same with three lists.
    pub fn file_of_three<A: Plain, B: Plain, C: Plain>(
        &mut self,
        read: Read<A, B, C>,
        input: &mut Input,
        theirs: impl Fn(Read<A, B, C>, &mut [u8]) -> Answer<reference::Summary>,
        ours: impl FnOnce(Read<A, B, C>, &mut [u8], &mut Summary, &mut Refusal) -> u64,
    ) {
        let needed = theirs(read, &mut self.scratch).map_or(100, |summary| summary.len as usize);
        let capacity = input.capacity(needed);
        self.call(
            read,
            (&dirty(capacity), NONE),
            |read, (out, _)| theirs(read, out).map(summary_of),
            |read, (out, _), summary, refusal| ours(read, out, summary, refusal),
        );
    }
}

/// The reference's summary in the library's type.
pub fn summary_of(summary: reference::Summary) -> Summary {
    let reference::Summary {
        n,
        k,
        m,
        step,
        len,
        sum,
    } = summary;
    Summary {
        n,
        k,
        m,
        step,
        len,
        sum,
    }
}

/// What an edit of the reference has done in the library's type.
pub fn edited_of(edited: reference::Edited) -> Edited {
    let (summary, moved) = (summary_of(edited.summary), edited.moved);
    Edited { summary, moved }
}

/// What a call writes beside lists, between numbers that must survive it.
#[derive(Debug, PartialEq)]
#[repr(C)]
struct Cells<T> {
    before: [u64; 4],
    result: T,
    between: [u64; 4],
    refusal: Refusal,
    behind: [u64; 4],
}

impl<T: Dirty> Cells<T> {
    fn dirty() -> Cells<T> {
        let [number, map, place] = [1, 2, 3].map(u64::dirty);
        Cells {
            before: [u64::dirty(4); 4],
            result: T::dirty(0),
            between: [u64::dirty(5); 4],
            refusal: Refusal { number, map, place },
            behind: [u64::dirty(6); 4],
        }
    }

    /// The number answered and the cells that the reference's answer asks for.
    fn wanted(answer: Answer<T>) -> (u64, Cells<T>) {
        let (result, refusal) = match answer {
            Ok(result) => (result, Refusal::default()),
            Err(reference::Refusal { number, map, place }) => {
                (T::refused(), Refusal { number, map, place })
            }
        };
        let cells = Cells {
            result,
            refusal,
            ..Cells::dirty()
        };
        (refusal.number, cells)
    }
}

/// A list to write to, next to a forbidden page, with a margin on the other side.
struct Buffer<'a, E> {
    all: &'a mut [E],
    start: usize,
    len: usize,
}

impl<'a, E: Plain + Dirty> Buffer<'a, E> {
    fn place(memory: &'a mut Fenced, contents: &[E], behind: bool) -> Buffer<'a, E> {
        let margin = dirty::<E>(MARGIN);
        let (all, start) = match behind {
            true => ([&margin, contents].concat(), MARGIN),
            false => ([contents, &margin].concat(), 0),
        };
        Buffer {
            all: memory.place(&all, behind),
            start,
            len: contents.len(),
        }
    }

    fn inner(&mut self) -> &mut [E] {
        &mut self.all[self.start..self.start + self.len]
    }

    fn compare(&mut self, name: &str, what: &str, wanted: &[E]) {
        compare(name, what, wanted, self.inner());
        let end = self.start + self.len;
        let margin = [&self.all[..self.start], &self.all[end..]].concat();
        compare(
            name,
            &format!("margin of the {what}"),
            &dirty::<E>(MARGIN),
            &margin,
        );
    }
}

/// Panics with the first place where two lists differ.
fn compare<E: PartialEq + Debug>(name: &str, what: &str, wanted: &[E], got: &[E]) {
    if wanted != got {
        let mut pairs = wanted.iter().zip(got);
        let at = pairs.position(|(wanted, got)| wanted != got);
        let at = at.unwrap_or(wanted.len().min(got.len()));
        let (wanted, got) = (wanted.get(at), got.get(at));
        panic!("{name}: {what}: element {at}: expected {wanted:?}, got {got:?}");
    }
}
