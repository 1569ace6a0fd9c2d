//! What is said if a call touches memory that it was not lent.

use std::ffi::c_int;
use std::io::Write;
use std::sync::atomic::{AtomicU64, Ordering};

const SIGSEGV: c_int = 11;
const STANDARD_ERROR: c_int = 2;

unsafe extern "C" {
    fn signal(number: c_int, handler: extern "C" fn(c_int)) -> usize;
    fn write(file: c_int, bytes: *const u8, length: usize) -> isize;
    fn _exit(status: c_int) -> !;
}

static SEED: AtomicU64 = AtomicU64::new(0);
static CALL: AtomicU64 = AtomicU64::new(0);

extern "C" fn tell(_: c_int) {
    let (seed, call) = (SEED.load(Ordering::Relaxed), CALL.load(Ordering::Relaxed));
    let mut text = [0; 128];
    let mut rest = &mut text[..];
    // The longest text has room.
    let _ = writeln!(
        rest,
        "fault in call {call} of seed {seed}: it touched memory not lent"
    );
    let length = 128 - rest.len();
    // SAFETY: both may be called in a handler of a signal; the text has that many bytes.
    unsafe {
        write(STANDARD_ERROR, text.as_ptr(), length);
        _exit(1)
    }
}

/// From now on a fault ends the program with the number of the call.
pub fn watch(seed: u64) {
    SEED.store(seed, Ordering::Relaxed);
    // SAFETY: `tell` does only what may be done in a handler, and does not return.
    unsafe { signal(SIGSEGV, tell) };
}

pub fn in_call(number: u64) {
    CALL.store(number, Ordering::Relaxed);
}
