//! Compares the proved engine with the reference.
//!
//! - [`inputs`]: random tables, schedules and buffers;
//! - [`harness`]: how two engines are compared, whatever the call;
//! - [`calls`]: the calls, a module for each;
//! - [`workload`]: what the benchmark measures; [`options`]: the programs' command lines.
//!
//! The programs: `compare` runs the comparisons named, or all; `guarded` runs cases with every lent
//! buffer at an inaccessible page; `soak` compares for a number of minutes; `bench` measures times,
//! and `count` is what it counts instructions of.
//!
//! ```text
//! cargo run --release --bin compare -- [CALL]... [--seed N] [--cases N]
//! cargo run --release --bin guarded -- [CALL]... [--seed N] [--cases N]
//! cargo run --release --bin soak -- [CALL]... [--seed N] [--minutes N]
//! cargo run --release --bin bench
//! ```

#![forbid(unsafe_code)]

pub mod calls;
pub mod harness;
pub mod inputs;
pub mod options;
pub mod workload;
