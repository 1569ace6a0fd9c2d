//! Both ends of a MODBUS RTU recorder line: the slave of document 01 and the master's half of document 02,
//! §1, from the proved library `libmontrakit.a`.
//!
//! Everything is lent: nothing is allocated, nothing is kept from one call to the next, and no call can be
//! wrong. What the paper refuses comes back as a refusal with the paper's number.

#![no_std]

mod answer;
pub mod ffi;
mod master;
mod numbered;
mod slave;

pub use master::{build, read, Built, Reading, Refused, Request, Task};
pub use slave::{respond, Access, Area, Counting, Outcome, Refusal, Silence, State, Station};

numbered::numbered! {
    /// The code of an exception.
    Code {
        /// The function is not in the table of frames.
        Function = 1,
        /// J-Bus start 0, or an addressed word lies in no area.
        Address = 2,
        /// The quantity is over the most, the byte count is not the quantity's, or a bit value is neither
        /// FF00 nor 0000.
        Value = 3,
        /// The station is not ready.
        NotReady = 4,
        /// A write touches a word of a read-only area.
        ReadOnly = 8,
    }
}

/// The check word of any bytes; it goes onto the line low byte first. That of no bytes is FFFF hex.
pub fn check_word(bytes: &[u8]) -> u16 {
    // SAFETY: pointer and length are those of one slice, which is only read.
    unsafe { ffi::montrakit_check_word(bytes.as_ptr(), bytes.len()) }
}
