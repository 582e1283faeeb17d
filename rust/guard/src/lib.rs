//! Memory with an inaccessible page on both sides, for Linux: what is placed in it ends at the last
//! byte before the one page, or begins at the first byte after the other. A read or a write past
//! that edge ends the program, and after [`report_faults`] it says in which call.

mod fault;
mod pages;
mod region;

pub use fault::{report_faults, under_way};
pub use region::{Access, Edge, Plain, Region};
