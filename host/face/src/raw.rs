//! Calls through the C face itself, each buffer in a room of its own.

use crate::call::{Ask, Call, Left, Made, Respond, Way, Ways};
use crate::guard::Room;
use montrakit::ffi;
use std::{io, ptr};

/// A room for each buffer of a call.
pub struct Rooms {
    pub areas: Room<u16>,
    pub given: Room<u8>,
    pub image: Room<u16>,
    pub lent: Room<u8>,
}

fn pointer<T>(buffer: &[T], way: Way) -> *const T {
    if buffer.is_empty() && way.null {
        return ptr::null();
    }
    buffer.as_ptr()
}

fn pointer_mut<T>(buffer: &mut [T], way: Way) -> *mut T {
    if buffer.is_empty() && way.null {
        return ptr::null_mut();
    }
    buffer.as_mut_ptr()
}

pub type CheckWordFn = unsafe extern "C" fn(*const u8, usize) -> u16;
pub type RespondFn = unsafe extern "C" fn(
    u8,
    u8,
    u8,
    *const u16,
    usize,
    *const u8,
    usize,
    *mut u16,
    usize,
    *mut u8,
    usize,
) -> u32;
pub type MasterFn = unsafe extern "C" fn(u8, u8, u16, u16, *const u8, usize, *mut u8, usize) -> u32;

/// The four functions of the C face, or others that ask no more of their callers.
pub struct Functions {
    pub check_word: CheckWordFn,
    pub respond: RespondFn,
    pub build: MasterFn,
    pub read: MasterFn,
}

pub const OURS: Functions = Functions {
    check_word: ffi::montrakit_check_word,
    respond: ffi::montrakit_respond,
    build: ffi::montrakit_build,
    read: ffi::montrakit_read,
};

impl Rooms {
    pub fn new() -> io::Result<Rooms> {
        Ok(Rooms {
            areas: Room::new()?,
            given: Room::new()?,
            image: Room::new()?,
            lent: Room::new()?,
        })
    }

    pub fn make(&mut self, functions: &Functions, call: &Call, ways: Ways) -> Made {
        match call {
            Call::Respond(call) => self.respond(functions.respond, call, ways),
            Call::Build(ask) => self.ask(functions.build, ask, ways),
            Call::Read(ask) => self.ask(functions.read, ask, ways),
            Call::CheckWord(bytes) => self.check_word(functions.check_word, bytes, ways),
        }
    }

    fn respond(&mut self, function: RespondFn, call: &Respond, ways: Ways) -> Made {
        let [first, second, third, fourth] = ways;
        let areas = self.areas.lend(&call.areas, first.border);
        let frame = self.given.lend(&call.frame, second.border);
        let image = self.image.lend(&call.image, third.border);
        let reply = self.lent.lend(&call.reply, fourth.border);
        // SAFETY: each pointer and length are those of a slice in a room of its own, or null and 0.
        let answer = unsafe {
            function(
                call.own,
                call.counting,
                call.state,
                pointer(areas, first),
                areas.len(),
                pointer(frame, second),
                frame.len(),
                pointer_mut(image, third),
                image.len(),
                pointer_mut(reply, fourth),
                reply.len(),
            )
        };
        Made {
            left: Left {
                answer,
                image: image.to_vec(),
                lent: reply.to_vec(),
            },
            kept: *areas == call.areas && *frame == call.frame,
        }
    }

    fn ask(&mut self, function: MasterFn, ask: &Ask, [first, second, ..]: Ways) -> Made {
        let given = self.given.lend(&ask.given, first.border);
        let lent = self.lent.lend(&ask.lent, second.border);
        // SAFETY: each pointer and length are those of a slice in a room of its own, or null and 0.
        let answer = unsafe {
            function(
                ask.station,
                ask.function,
                ask.start,
                ask.value,
                pointer(given, first),
                given.len(),
                pointer_mut(lent, second),
                lent.len(),
            )
        };
        Made {
            left: Left {
                answer,
                image: Vec::new(),
                lent: lent.to_vec(),
            },
            kept: *given == ask.given,
        }
    }

    fn check_word(&mut self, function: CheckWordFn, bytes: &[u8], [first, ..]: Ways) -> Made {
        let given = self.given.lend(bytes, first.border);
        // SAFETY: pointer and length are those of a slice, or null and 0.
        let word = unsafe { function(pointer(given, first), given.len()) };
        Made {
            left: Left {
                answer: word.into(),
                image: Vec::new(),
                lent: Vec::new(),
            },
            kept: given == bytes,
        }
    }
}
