//! The program as it is run: what it prints, its exit status, the files that it writes.

mod examples;
mod lost;
mod shell;
mod streams;
mod written;
