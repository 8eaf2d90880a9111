//! Buffers beside memory that nobody may touch: a call that reads or writes a byte too many is ended by the system.
//!
//! Such memory costs nothing, so a buffer can also say that it is as long as no text ever is, with its first bytes alone
//! there to be read.

use std::ffi::c_void;
use std::ptr::null_mut;

const PAGE: usize = 4096;

const NO_ACCESS: i32 = 0;
const READ: i32 = 1;
const READ_AND_WRITE: i32 = 3;
/// Private, of no file, and nothing set aside for it.
const MAPPED: i32 = 0x2 | 0x20 | 0x4000;

extern "C" {
    fn mmap(at: *mut c_void, len: usize, access: i32, flags: i32, file: i32, offset: i64) -> *mut c_void;
    fn mprotect(at: *mut c_void, len: usize, access: i32) -> i32;
    fn munmap(at: *mut c_void, len: usize) -> i32;
}

/// Where the memory that nobody may touch is: just before the bytes, or just behind them.
#[derive(Clone, Copy, Debug, PartialEq)]
pub enum Fence {
    Before,
    Behind,
}

pub const FENCES: [Fence; 2] = [Fence::Before, Fence::Behind];

/// Bytes in pages of their own, between others that nobody may touch.
pub struct Fenced {
    all: *mut u8,
    all_len: usize,
    pages_len: usize,
    start: usize,
    len: usize,
    said: usize,
}

impl Fenced {
    pub fn new(bytes: &[u8], fence: Fence) -> Fenced {
        Fenced::said_to_be(bytes.len(), bytes, fence)
    }

    /// The bytes are the beginning of a buffer that is said to be so long.
    pub fn said_to_be(said: usize, bytes: &[u8], fence: Fence) -> Fenced {
        let pages_len = bytes.len().div_ceil(PAGE).max(1) * PAGE;
        let all_len = PAGE + pages_len + said.max(PAGE);
        let start = match fence {
            Fence::Before => PAGE,
            Fence::Behind => PAGE + pages_len - bytes.len(),
        };
        // Safety: new memory, and the bytes fit into the pages that may be written.
        let all = unsafe {
            let all = mmap(null_mut(), all_len, NO_ACCESS, MAPPED, -1, 0);
            assert_ne!(all as isize, -1, "no {all_len} bytes of address space");
            assert_eq!(mprotect(all.add(PAGE), pages_len, READ_AND_WRITE), 0);
            all.cast::<u8>().add(start).copy_from(bytes.as_ptr(), bytes.len());
            all.cast()
        };
        Fenced { all, all_len, pages_len, start, len: bytes.len(), said }
    }

    pub fn read_only(self) -> Fenced {
        self.with_access(READ)
    }

    pub fn untouchable(self) -> Fenced {
        self.with_access(NO_ACCESS)
    }

    fn with_access(self, access: i32) -> Fenced {
        // Safety: pages of this buffer alone.
        assert_eq!(unsafe { mprotect(self.all.add(PAGE).cast(), self.pages_len, access) }, 0);
        self
    }

    /// Pointer and length, as the C call wants them.
    pub fn parts(&mut self) -> (*mut u8, usize) {
        (self.all.wrapping_add(self.start), self.said)
    }

    /// The bytes as they are now. They have to be readable.
    pub fn bytes(&self) -> &[u8] {
        // Safety: they were written when the buffer was made.
        unsafe { std::slice::from_raw_parts(self.all.add(self.start), self.len) }
    }
}

impl Drop for Fenced {
    fn drop(&mut self) {
        // Safety: nobody else has a part of it.
        assert_eq!(unsafe { munmap(self.all.cast(), self.all_len) }, 0);
    }
}
