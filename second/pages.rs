//! Pages for lent buffers, asked of the system: open ones between two that cannot be accessed.

use crate::lent::{Lent, PAGE};

/// The most that one buffer can take.
const SPACE: usize = 4 << 20;

const NONE: i32 = 0;
const READ: i32 = 1;
const READ_WRITE: i32 = 3;
/// Private to this process and from no file.
const PRIVATE_ANONYMOUS: i32 = 0x22;

extern "C" {
    fn mmap(at: *mut u8, length: usize, rights: i32, kind: i32, file: i32, offset: i64) -> *mut u8;
    fn mprotect(at: *mut u8, length: usize, rights: i32) -> i32;
}

pub struct Pages {
    /// The first byte that can be opened; the page before it never is.
    first: *mut u8,
    /// How many bytes are open, from the first on.
    open: usize,
}

impl Pages {
    pub fn new() -> Pages {
        let length = PAGE + SPACE + PAGE;
        // SAFETY: new pages anywhere; nothing that is there is touched.
        let start = unsafe { mmap(std::ptr::null_mut(), length, NONE, PRIVATE_ANONYMOUS, -1, 0) };
        assert!(start as isize != -1, "no pages");
        Pages { first: start.wrapping_add(PAGE), open: 0 }
    }

    fn protect(&self, from: usize, length: usize, rights: i32) {
        if length > 0 {
            // SAFETY: within the pages that `new` took, by what `lay` asserts of a buffer's length.
            let done = unsafe { mprotect(self.first.wrapping_add(from), length, rights) };
            assert_eq!(done, 0, "the rights of a page cannot be set");
        }
    }

    /// Lays the buffer out. Answers where its content begins.
    pub fn lay(&mut self, lent: &Lent) -> *mut u8 {
        let length = lent.whole.len();
        assert!(length % PAGE == 0 && length <= SPACE, "a buffer of {length} bytes");
        if self.open != length {
            self.protect(0, length, READ_WRITE);
            self.protect(length, SPACE - length, NONE);
            self.open = length;
        }
        // SAFETY: `length` bytes are there, and so many were just opened here for writing; the two are apart.
        unsafe { std::ptr::copy_nonoverlapping(lent.whole.as_ptr(), self.first, length) };
        if lent.locked {
            self.protect(0, length, READ);
        }
        self.first.wrapping_add(lent.start)
    }

    /// Takes back what lies there after the call.
    pub fn take_back(&mut self, lent: &mut Lent) {
        if lent.locked {
            self.protect(0, self.open, READ_WRITE);
        }
        // SAFETY: `open` is the length of the buffer that was laid out here, and these bytes can be read; the two are apart.
        unsafe { std::ptr::copy_nonoverlapping(self.first, lent.whole.as_mut_ptr(), self.open) };
    }
}
