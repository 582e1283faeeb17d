//! What is said when an inaccessible page is touched.

use std::ffi::{c_int, c_void};
use std::sync::atomic::{AtomicPtr, AtomicU64, AtomicUsize, Ordering};

const SIGBUS: c_int = 7;
const SIGSEGV: c_int = 11;

unsafe extern "C" {
    fn signal(number: c_int, handler: extern "C" fn(c_int)) -> usize;
    fn write(file: c_int, bytes: *const c_void, length: usize) -> isize;
    fn _exit(status: c_int) -> !;
}

/// The call under way: its name, and the number of the case.
static NAME: AtomicPtr<u8> = AtomicPtr::new(std::ptr::null_mut());
static NAME_LENGTH: AtomicUsize = AtomicUsize::new(0);
static CASE: AtomicU64 = AtomicU64::new(0);

/// Makes a touch of an inaccessible page end the program with status 1 and a line that names the
/// call under way.
pub fn report_faults() {
    // SAFETY: the handler does only what a handler may: it loads atomics, writes and exits.
    unsafe {
        signal(SIGSEGV, touched);
        signal(SIGBUS, touched);
    }
}

/// Says which call is under way.
pub fn under_way(name: &'static str, case: u64) {
    NAME_LENGTH.store(0, Ordering::SeqCst);
    NAME.store(name.as_ptr().cast_mut(), Ordering::SeqCst);
    NAME_LENGTH.store(name.len(), Ordering::SeqCst);
    CASE.store(case, Ordering::SeqCst);
}

extern "C" fn touched(_signal: c_int) {
    say(b"A byte outside the lent buffers was touched: ");
    let length = NAME_LENGTH.load(Ordering::SeqCst);
    if length > 0 {
        // SAFETY: name and length are those of a `&'static str`.
        say(unsafe { std::slice::from_raw_parts(NAME.load(Ordering::SeqCst), length) });
    }
    say(b", case ");
    let mut digits = [0; 20];
    say(decimal(CASE.load(Ordering::SeqCst), &mut digits));
    say(b"\n");
    // SAFETY: ends the program.
    unsafe { _exit(1) }
}

/// Writes to standard error, without a lock or memory of its own.
fn say(bytes: &[u8]) {
    // SAFETY: pointer and length are those of a slice.
    unsafe {
        write(2, bytes.as_ptr().cast(), bytes.len());
    }
}

fn decimal(mut number: u64, digits: &mut [u8; 20]) -> &[u8] {
    let mut at = digits.len();
    loop {
        at -= 1;
        digits[at] = b'0' + (number % 10) as u8;
        number /= 10;
        if number == 0 {
            return &digits[at..];
        }
    }
}
