//! The C face of `libmontrakit.a`, as it is.
//!
//! Every answer but the check word is kind × 65,536 + number:
//!
//! | Kind | What | Number |
//! |---|---|---|
//! | 0 | refused | the paper's: 1 to 4, or 70 to 72 |
//! | 1 | silent | the paper's: 10 to 15 |
//! | 2 | exception | its code |
//! | 3 | reply | its length |
//! | 4 | bad argument | 1 counting, 2 state |
//! | 5 | request built | its length |
//! | 6 | values read | how many bytes |
//! | 7 | write done | 0 |
//!
//! # Safety
//!
//! Each pointer has to be aligned and good for as many elements as the length behind it tells, for writes
//! where it is `*mut`. What is written through overlaps nothing else that is lent, and nothing else touches
//! it during the call. A pointer with length 0 may be null. Any bytes and numbers will do.

unsafe extern "C" {
    /// The check word of `bytes`.
    pub fn montrakit_check_word(bytes: *const u8, bytes_len: usize) -> u16;

    /// The slave: a received frame, and what it makes of reply and image.
    ///
    /// `counting`: 0 MOD-Bus, 1 J-Bus. `state`: 0 ready, 1 not ready, 2 at the keyboard; any other number
    /// of either is a bad argument, before all else. `areas` has three words for each area: first, count,
    /// access (0 read-only, 1 read-write); `areas_len` counts words. A list that breaks off in an area, or
    /// has another access, breaks a rule like any that refusal 3 names.
    pub fn montrakit_respond(
        own: u8,
        counting: u8,
        state: u8,
        areas: *const u16,
        areas_len: usize,
        frame: *const u8,
        frame_len: usize,
        image: *mut u16,
        image_len: usize,
        reply: *mut u8,
        reply_len: usize,
    ) -> u32;

    /// The master's half: builds a request in `frame`. `value` is the quantity, for 05 the bit's value (FF00
    /// or 0000 hex), for 06 the word. A function that is not in the table of frames is refusal 70.
    pub fn montrakit_build(
        station: u8,
        function: u8,
        start: u16,
        value: u16,
        data: *const u8,
        data_len: usize,
        frame: *mut u8,
        frame_len: usize,
    ) -> u32;

    /// The master's half: reads a reply beside its request's fields, which are those of
    /// [`montrakit_build`]; its values go into `out`.
    pub fn montrakit_read(
        station: u8,
        function: u8,
        start: u16,
        value: u16,
        reply: *const u8,
        reply_len: usize,
        out: *mut u8,
        out_len: usize,
    ) -> u32;
}
