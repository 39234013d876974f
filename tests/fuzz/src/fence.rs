//! Memory between two pages that nobody may touch.

#![allow(unsafe_code)]

use pciv::Entry;
use std::ffi::{c_int, c_void};
use std::{ptr, slice};

extern "C" {
    fn mmap(
        at: *mut c_void,
        len: usize,
        access: c_int,
        kind: c_int,
        file: c_int,
        from: i64,
    ) -> *mut c_void;
    fn mprotect(at: *mut c_void, len: usize, access: c_int) -> c_int;
}

const PAGE: usize = 4096;
const ACCESS_NONE: c_int = 0;
const ACCESS_READ_WRITE: c_int = 1 | 2;
const PRIVATE_ANONYMOUS: c_int = 2 | 0x20;

/// Elements that may have any bytes, and that lie well at any multiple of their size.
pub trait Plain: Copy + PartialEq + std::fmt::Debug {}

impl Plain for u8 {}
impl Plain for u32 {}
impl Plain for u64 {}
impl Plain for i64 {}
impl Plain for Entry {}

/// Memory of some pages, a forbidden page before it and one behind it. It is kept to the end of the
/// program.
pub struct Fenced {
    start: *mut u8,
    len: usize,
}

impl Fenced {
    /// Memory for at least `len` bytes.
    pub fn new(len: usize) -> Fenced {
        let len = len.next_multiple_of(PAGE);
        // New memory that overlaps nothing; the middle of it gets access.
        let start = unsafe {
            let all = mmap(
                ptr::null_mut(),
                len + 2 * PAGE,
                ACCESS_NONE,
                PRIVATE_ANONYMOUS,
                -1,
                0,
            );
            assert!(all as isize != -1, "no memory");
            let start = all.byte_add(PAGE);
            assert_eq!(mprotect(start, len, ACCESS_READ_WRITE), 0);
            start.cast()
        };
        Fenced { start, len }
    }

    /// A copy of some elements next to a forbidden page: the one behind them, or the one before.
    pub fn place<T: Plain>(&mut self, elements: &[T], behind: bool) -> &mut [T] {
        let len = size_of_val(elements);
        assert!(len <= self.len, "{len} bytes are too many");
        let offset = if behind { self.len - len } else { 0 };
        // In bounds, and aligned: pages are, and the length of elements is a multiple of their size.
        unsafe {
            let first: *mut T = self.start.add(offset).cast();
            assert!(first.is_aligned());
            ptr::copy_nonoverlapping(elements.as_ptr(), first, elements.len());
            slice::from_raw_parts_mut(first, elements.len())
        }
    }
}
