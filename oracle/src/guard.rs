//! Buffers between two guard pages: a read or write past the lent slice on the guarded side stops
//! the program, one on the other side changes a pattern that is looked at after the call.

use std::ffi::c_void;

extern "C" {
    fn mmap(
        address: *mut c_void,
        length: usize,
        protection: i32,
        flags: i32,
        file: i32,
        offset: i64,
    ) -> *mut c_void;
    fn mprotect(address: *mut c_void, length: usize, protection: i32) -> i32;
}

const PAGE: usize = 4_096;
const NONE: i32 = 0;
const READ_AND_WRITE: i32 = 3;
const PRIVATE_AND_ANONYMOUS: i32 = 0x22;

/// What stands around a slice.
const PATTERN: u8 = 0xc5;

/// How many bytes of the pattern are looked at.
const MARGIN: usize = 64;

/// A buffer that holds one slice at a time.
pub struct Guarded {
    base: *mut u8,
    capacity: usize,
    start: usize,
    length: usize,
}

impl Guarded {
    /// A buffer for slices of at most so many bytes.
    pub fn new(most: usize) -> Self {
        let capacity = (most.div_ceil(PAGE) + 1) * PAGE;
        // SAFETY: a new mapping of its own; its first and last page become inaccessible.
        let base = unsafe {
            let whole = mmap(
                std::ptr::null_mut(),
                capacity + 2 * PAGE,
                READ_AND_WRITE,
                PRIVATE_AND_ANONYMOUS,
                -1,
                0,
            );
            assert!(whole as isize != -1, "mmap failed");
            let base = whole.cast::<u8>().add(PAGE);
            assert_eq!(mprotect(whole, PAGE, NONE), 0);
            assert_eq!(mprotect(base.add(capacity).cast(), PAGE, NONE), 0);
            base
        };
        Self {
            base,
            capacity,
            start: 0,
            length: 0,
        }
    }

    fn all(&mut self) -> &mut [u8] {
        // SAFETY: the mapping between the guard pages, lent with the buffer.
        unsafe { std::slice::from_raw_parts_mut(self.base, self.capacity) }
    }

    fn margin(&self) -> std::ops::Range<usize> {
        if self.start == 0 {
            self.length..self.length + MARGIN
        } else {
            self.start - MARGIN..self.start
        }
    }

    /// Holds a copy of the bytes, against the page after them or against the page before.
    pub fn hold(&mut self, bytes: &[u8], at_end: bool) {
        assert!(bytes.len() + MARGIN <= self.capacity);
        self.length = bytes.len();
        self.start = if at_end {
            self.capacity - bytes.len()
        } else {
            0
        };
        let (start, end) = (self.start, self.start + self.length);
        let margin = self.margin();
        let all = self.all();
        all[margin].fill(PATTERN);
        all[start..end].copy_from_slice(bytes);
    }

    /// The bytes held.
    pub fn slice(&mut self) -> &mut [u8] {
        let (start, end) = (self.start, self.start + self.length);
        &mut self.all()[start..end]
    }

    /// Whether a byte beside the slice was written.
    pub fn strayed(&mut self) -> bool {
        let margin = self.margin();
        self.all()[margin].iter().any(|byte| *byte != PATTERN)
    }
}
