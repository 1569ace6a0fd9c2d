//! The same call made again and again in the same buffers, by whichever of the functions.

use face::call::{Ask, Call, Respond};
use face::raw::{CheckWordFn, Functions, MasterFn, RespondFn};
use std::hint::black_box;

/// Function and arguments are hidden from the compiler, so that nothing of a call is done outside of it.
pub fn make(functions: &Functions, call: &mut Call, times: u64) {
    match call {
        Call::Respond(call) => respond(black_box(functions.respond), call, times),
        Call::Build(ask) => master(black_box(functions.build), ask, times),
        Call::Read(ask) => master(black_box(functions.read), ask, times),
        Call::CheckWord(bytes) => check_word(black_box(functions.check_word), bytes, times),
    }
}

fn respond(function: RespondFn, call: &mut Respond, times: u64) {
    for _ in 0..times {
        let call = black_box(&mut *call);
        // SAFETY: each pointer and length are those of one vector.
        black_box(unsafe {
            function(
                call.own,
                call.counting,
                call.state,
                call.areas.as_ptr(),
                call.areas.len(),
                call.frame.as_ptr(),
                call.frame.len(),
                call.image.as_mut_ptr(),
                call.image.len(),
                call.reply.as_mut_ptr(),
                call.reply.len(),
            )
        });
    }
}

fn master(function: MasterFn, ask: &mut Ask, times: u64) {
    for _ in 0..times {
        let ask = black_box(&mut *ask);
        // SAFETY: each pointer and length are those of one vector.
        black_box(unsafe {
            function(
                ask.station,
                ask.function,
                ask.start,
                ask.value,
                ask.given.as_ptr(),
                ask.given.len(),
                ask.lent.as_mut_ptr(),
                ask.lent.len(),
            )
        });
    }
}

fn check_word(function: CheckWordFn, bytes: &[u8], times: u64) {
    for _ in 0..times {
        let bytes = black_box(bytes);
        // SAFETY: pointer and length are those of one slice.
        black_box(unsafe { function(bytes.as_ptr(), bytes.len()) });
    }
}
