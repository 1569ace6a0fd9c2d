//! Requests to callgrind, as valgrind/callgrind.h makes them: a sequence of instructions that changes nothing on
//! a processor, and that valgrind knows.

use std::arch::asm;
use std::ffi::CStr;

/// 'C' and 'T' in the upper bytes: the requests are callgrind's.
const CALLGRIND: u64 = 0x4354_0000;
const ZERO_STATS: u64 = CALLGRIND + 1;
const TOGGLE_COLLECT: u64 = CALLGRIND + 2;
const DUMP_STATS_AT: u64 = CALLGRIND + 3;

#[cfg(target_arch = "x86_64")]
fn request(number: u64, argument: u64) {
    let words = [number, argument, 0, 0, 0, 0];
    // SAFETY: rdi is turned by 128 bits in all, rbx swapped with itself; valgrind only reads the words.
    unsafe {
        asm!(
            "rol rdi, 3",
            "rol rdi, 13",
            "rol rdi, 61",
            "rol rdi, 51",
            "xchg rbx, rbx",
            in("rax") words.as_ptr(),
            inout("rdx") 0u64 => _,
            inout("rdi") 0u64 => _,
        );
    }
}

#[cfg(target_arch = "aarch64")]
fn request(number: u64, argument: u64) {
    let words = [number, argument, 0, 0, 0, 0];
    // SAFETY: x12 is turned by 128 bits in all, x10 or-ed with itself; valgrind only reads the words.
    unsafe {
        asm!(
            "ror x12, x12, #3",
            "ror x12, x12, #13",
            "ror x12, x12, #51",
            "ror x12, x12, #61",
            "orr x10, x10, x10",
            inout("x3") 0u64 => _,
            in("x4") words.as_ptr(),
            inout("x12") 0u64 => _,
        );
    }
}

/// Writes a dump of that name, of what `counted` takes.
pub fn count(name: &CStr, counted: impl FnOnce()) {
    request(ZERO_STATS, 0);
    request(TOGGLE_COLLECT, 0);
    counted();
    request(TOGGLE_COLLECT, 0);
    request(DUMP_STATS_AT, name.as_ptr() as u64);
}
