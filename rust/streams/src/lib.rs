//! The standard streams as the program was given them, for Linux.
//!
//! Before a Rust program begins, the null device takes the place of each standard stream that is
//! closed: what is written there is lost, and what is read is empty. And Rust's own standard output
//! takes a write for done that the system refuses for its descriptor. In both cases no error tells. Here
//! a closed stream is seen before that, and each stream is handed out as the file that it is.

use std::ffi::{CStr, c_char, c_int};
use std::fs::File;
use std::mem::ManuallyDrop;
use std::os::fd::FromRawFd;

const OUTPUT: c_int = 1;
const ERRORS: c_int = 2;

const F_GETFD: c_int = 1;
const O_DIRECTORY: c_int = 0o200_000;
const SIGXFSZ: c_int = 25;
const SIG_IGN: usize = 1;

/// Takes the place of a closed stream: it can be neither read nor written, by its number or by name.
const FOLDER: &CStr = c"/";

unsafe extern "C" {
    fn fcntl(file: c_int, command: c_int, ...) -> c_int;
    fn open(path: *const c_char, flags: c_int, ...) -> c_int;
    fn signal(number: c_int, handler: usize) -> usize;
}

/// Called by the C library before the program begins.
// SAFETY: entries of this section are functions that take what `main` takes, or less.
#[used]
#[unsafe(link_section = ".init_array")]
static BEGIN: extern "C" fn() = begin;

extern "C" fn begin() {
    for stream in 0..=ERRORS {
        // SAFETY: asks for the flags of a descriptor, which need not be open; then opens a folder to be
        // read, as the lowest descriptor that is closed, which is this one.
        unsafe {
            if fcntl(stream, F_GETFD) == -1 {
                open(FOLDER.as_ptr(), O_DIRECTORY);
            }
        }
    }
    // A write past the limit on a file's size is then an error, as one to a full disk is.
    // SAFETY: an ignored signal runs no code.
    unsafe {
        signal(SIGXFSZ, SIG_IGN);
    }
}

/// Standard output.
pub fn output() -> ManuallyDrop<File> {
    stream(OUTPUT)
}

/// Standard error.
pub fn errors() -> ManuallyDrop<File> {
    stream(ERRORS)
}

fn stream(number: c_int) -> ManuallyDrop<File> {
    // SAFETY: the standard streams are open as long as the program runs, and this file does not close
    // them.
    ManuallyDrop::new(unsafe { File::from_raw_fd(number) })
}
