//! A region that lends a slice which lies at one of its edges.

use crate::pages::{Pages, Protection};
use std::marker::PhantomData;
use std::slice;

/// Which inaccessible page the slice touches.
#[derive(Clone, Copy, PartialEq, Eq, Debug)]
pub enum Edge {
    /// The slice begins right after one.
    Begin,
    /// The slice ends right before one.
    End,
}

/// What may be done with the slice.
#[derive(Clone, Copy, PartialEq, Eq, Debug)]
pub enum Access {
    /// It may only be read.
    Read,
    /// It may be read and written.
    Write,
}

/// Numbers that any bytes are one of.
///
/// # Safety
///
/// Every pattern of bits is a value, and a page's size is a multiple of the number's.
pub unsafe trait Plain: Copy {}

// SAFETY: unsigned numbers of one and two bytes.
unsafe impl Plain for u8 {}
// SAFETY: likewise.
unsafe impl Plain for u16 {}

/// A slice between two inaccessible pages.
#[derive(Debug)]
pub struct Region<T: Plain> {
    pages: Pages,
    /// Where the slice begins, in bytes, and how many numbers it has.
    at: usize,
    length: usize,
    access: Access,
    holds: PhantomData<T>,
}

impl<T: Plain> Default for Region<T> {
    fn default() -> Self {
        Self {
            pages: Pages::new(0),
            at: 0,
            length: 0,
            access: Access::Write,
            holds: PhantomData,
        }
    }
}

impl<T: Plain> Region<T> {
    /// Holds a copy of `numbers` at an edge.
    pub fn hold(&mut self, numbers: &[T], edge: Edge, access: Access) {
        let bytes = size_of_val(numbers);
        if bytes > self.pages.length() {
            self.pages = Pages::new(2 * bytes);
        } else if self.access == Access::Read {
            self.pages.protect(Protection::ReadWrite);
        }
        self.at = match edge {
            Edge::Begin => 0,
            Edge::End => self.pages.length() - bytes,
        };
        self.length = numbers.len();
        self.access = Access::Write;
        self.lent_mut().copy_from_slice(numbers);
        if access == Access::Read {
            self.pages.protect(Protection::Read);
            self.access = access;
        }
    }

    /// The slice.
    pub fn lent(&self) -> &[T] {
        // SAFETY: `length` numbers from `at` on lie inside the pages, were written, and cannot be
        // written while `self` is borrowed. The begin of the pages is aligned, and `at` is a
        // multiple of a number's size.
        unsafe {
            let first = self.pages.start().add(self.at).cast::<T>();
            slice::from_raw_parts(first.as_ptr(), self.length)
        }
    }

    /// The slice, to be written. Panics where it may only be read.
    pub fn lent_mut(&mut self) -> &mut [T] {
        assert!(self.access == Access::Write, "the slice is only to be read");
        // SAFETY: as for `lent`; nothing else borrows the slice. Fresh pages hold zeros, which are
        // numbers too.
        unsafe {
            let first = self.pages.start().add(self.at).cast::<T>();
            slice::from_raw_parts_mut(first.as_ptr(), self.length)
        }
    }
}
