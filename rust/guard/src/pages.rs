//! Pages of memory from the C library, with their protection.

use std::ffi::{c_int, c_void};
use std::ptr::NonNull;

/// What may be done with a page.
#[derive(Clone, Copy, PartialEq, Eq, Debug)]
#[repr(i32)]
pub(crate) enum Protection {
    None = 0,
    Read = 1,
    ReadWrite = 3,
}

const MAP_PRIVATE: c_int = 0x02;
const MAP_ANONYMOUS: c_int = 0x20;

unsafe extern "C" {
    fn getpagesize() -> c_int;
    fn mmap(
        address: *mut c_void,
        length: usize,
        protection: c_int,
        flags: c_int,
        file: c_int,
        offset: i64,
    ) -> *mut c_void;
    fn mprotect(address: *mut c_void, length: usize, protection: c_int) -> c_int;
    fn munmap(address: *mut c_void, length: usize) -> c_int;
}

/// Whole pages between two that are inaccessible.
#[derive(Debug)]
pub(crate) struct Pages {
    /// The first byte between them.
    start: NonNull<u8>,
    /// How many bytes lie between them.
    length: usize,
    page: usize,
}

impl Pages {
    /// At least `least` bytes, readable and writable.
    pub(crate) fn new(least: usize) -> Self {
        // SAFETY: asks nothing of its caller.
        let page = unsafe { getpagesize() } as usize;
        let length = least.next_multiple_of(page).max(page);
        // SAFETY: a mapping at an address of the system's choice touches nothing of ours.
        let whole = unsafe {
            mmap(
                std::ptr::null_mut(),
                length + 2 * page,
                Protection::None as c_int,
                MAP_PRIVATE | MAP_ANONYMOUS,
                -1,
                0,
            )
        };
        assert!(whole.addr() != usize::MAX, "no memory for guarded pages");
        // SAFETY: the mapping has `length + 2 * page` bytes.
        let start = unsafe { whole.cast::<u8>().add(page) };
        let start = NonNull::new(start).expect("a mapping is not at 0");
        let mut pages = Self {
            start,
            length,
            page,
        };
        pages.protect(Protection::ReadWrite);
        pages
    }

    pub(crate) fn start(&self) -> NonNull<u8> {
        self.start
    }

    pub(crate) fn length(&self) -> usize {
        self.length
    }

    /// Sets what may be done with the bytes between the inaccessible pages.
    pub(crate) fn protect(&mut self, protection: Protection) {
        // SAFETY: the range is whole pages of this mapping.
        let answer =
            unsafe { mprotect(self.start.as_ptr().cast(), self.length, protection as c_int) };
        assert!(answer == 0, "the pages' protection did not change");
    }
}

impl Drop for Pages {
    fn drop(&mut self) {
        // SAFETY: the range is this mapping, the inaccessible pages with it, and nothing borrows
        // from it any more.
        unsafe {
            let whole = self.start.as_ptr().sub(self.page);
            munmap(whole.cast(), self.length + 2 * self.page);
        }
    }
}
