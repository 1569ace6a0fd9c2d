//! The rival: a slave, a master's half and a check word of the same rules and with the same signatures as the
//! C face, in plain Rust. Pointers become slices at once; behind this file there is safe code only.
//!
//! # Safety
//!
//! The callers owe what `host/include/montrakit.h` says.

mod answer;
mod areas;
mod check_word;
mod frames;
mod master;
mod registers;
mod slave;

use answer::Answer;
use face::raw::Functions;
use slave::{Counting, State, Station};
use std::slice;

/// A pointer with length 0 may be null.
unsafe fn lent<'a, T>(first: *const T, length: usize) -> &'a [T] {
    if length == 0 {
        return &[];
    }
    unsafe { slice::from_raw_parts(first, length) }
}

unsafe fn lent_mut<'a, T>(first: *mut T, length: usize) -> &'a mut [T] {
    if length == 0 {
        return &mut [];
    }
    unsafe { slice::from_raw_parts_mut(first, length) }
}

#[no_mangle]
#[inline(never)]
pub unsafe extern "C" fn rival_check_word(bytes: *const u8, bytes_len: usize) -> u16 {
    check_word::check_word(unsafe { lent(bytes, bytes_len) })
}

#[no_mangle]
#[inline(never)]
#[allow(clippy::too_many_arguments)] // as the C face has it
pub unsafe extern "C" fn rival_respond(
    own: u8,
    counting: u8,
    state: u8,
    areas: *const u16,
    areas_len: usize,
    frame: *const u8,
    frame_len: usize,
    image: *mut u16,
    image_len: usize,
    reply: *mut u8,
    reply_len: usize,
) -> u32 {
    let (areas, frame) = unsafe { (lent(areas, areas_len), lent(frame, frame_len)) };
    let (image, reply) = unsafe { (lent_mut(image, image_len), lent_mut(reply, reply_len)) };
    let counting = match counting {
        0 => Counting::ModBus,
        1 => Counting::JBus,
        _ => return Answer::BadArgument(1).told(),
    };
    let state = match state {
        0 => State::Ready,
        1 => State::NotReady,
        2 => State::AtTheKeyboard,
        _ => return Answer::BadArgument(2).told(),
    };
    let station = Station {
        own,
        counting,
        state,
    };
    slave::respond(station, areas, frame, image, reply).told()
}

#[no_mangle]
#[inline(never)]
#[allow(clippy::too_many_arguments)] // as the C face has it
pub unsafe extern "C" fn rival_build(
    station: u8,
    function: u8,
    start: u16,
    value: u16,
    data: *const u8,
    data_len: usize,
    frame: *mut u8,
    frame_len: usize,
) -> u32 {
    let request = master::Request {
        station,
        function,
        start,
        value,
    };
    let (data, frame) = unsafe { (lent(data, data_len), lent_mut(frame, frame_len)) };
    master::build(request, data, frame).told()
}

#[no_mangle]
#[inline(never)]
#[allow(clippy::too_many_arguments)] // as the C face has it
pub unsafe extern "C" fn rival_read(
    station: u8,
    function: u8,
    start: u16,
    value: u16,
    reply: *const u8,
    reply_len: usize,
    out: *mut u8,
    out_len: usize,
) -> u32 {
    let request = master::Request {
        station,
        function,
        start,
        value,
    };
    let (reply, out) = unsafe { (lent(reply, reply_len), lent_mut(out, out_len)) };
    master::read(request, reply, out).told()
}

pub const RIVAL: Functions = Functions {
    check_word: rival_check_word,
    respond: rival_respond,
    build: rival_build,
    read: rival_read,
};
