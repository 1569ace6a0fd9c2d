//! The master's end of the line.

use crate::answer::{self, ruled_out, told, written};
use crate::numbered::numbered;
use crate::{ffi, Code};

/// What a request asks for: a function of the table of frames, with its quantity or its value.
#[derive(Clone, Copy, PartialEq, Eq, Hash, Debug)]
pub enum Task {
    /// 01: so many bits, 1 to 256.
    ReadBits01(u16),
    /// 02, which acts as 01.
    ReadBits02(u16),
    /// 03: so many words, 1 to 80.
    ReadWords03(u16),
    /// 04, which acts as 03.
    ReadWords04(u16),
    /// 05: on or off.
    WriteBit05(bool),
    /// 06: its value.
    WriteWord06(u16),
    /// 0F: so many bits, 1 to 256. The data are packed eight to a byte, the first bit lowest.
    WriteBits0F(u16),
    /// 10: so many words, 1 to 80. The data are two bytes a word, the high byte first.
    WriteWords10(u16),
}

impl Task {
    /// The function's number.
    pub const fn number(self) -> u8 {
        match self {
            Task::ReadBits01(_) => 0x01,
            Task::ReadBits02(_) => 0x02,
            Task::ReadWords03(_) => 0x03,
            Task::ReadWords04(_) => 0x04,
            Task::WriteBit05(_) => 0x05,
            Task::WriteWord06(_) => 0x06,
            Task::WriteBits0F(_) => 0x0F,
            Task::WriteWords10(_) => 0x10,
        }
    }

    /// What stands behind the start on the line: the quantity, or the value of 05 and 06.
    pub const fn value(self) -> u16 {
        match self {
            Task::ReadBits01(quantity)
            | Task::ReadBits02(quantity)
            | Task::ReadWords03(quantity)
            | Task::ReadWords04(quantity)
            | Task::WriteBits0F(quantity)
            | Task::WriteWords10(quantity) => quantity,
            Task::WriteBit05(true) => 0xFF00,
            Task::WriteBit05(false) => 0x0000,
            Task::WriteWord06(word) => word,
        }
    }
}

/// The fields of a request.
#[derive(Clone, Copy, PartialEq, Eq, Hash, Debug)]
pub struct Request {
    /// The station asked, 1 to 255.
    pub station: u8,
    pub task: Task,
    /// As on the line, so in J-Bus one higher than the address.
    pub start: u16,
}

numbered! {
    /// Why a request was not built or a reply not read; the lent buffer is as it was.
    Refused {
        /// The quantity is out of limits, the data are not of its size, the station is 0, or the lent
        /// buffer is under 256 bytes.
        Request = 70,
        /// The reply is under 5 bytes, or its check word is wrong.
        CheckWord = 71,
        /// The reply doesn't fit the request, or has an exception code other than 1, 2, 3, 4 and 8.
        Reply = 72,
    }
}

/// What came of building a request.
#[derive(Clone, Copy, PartialEq, Eq, Hash, Debug)]
pub enum Built<'f> {
    /// Always [`Refused::Request`].
    Refused(Refused),
    /// The bytes to send.
    Frame(&'f [u8]),
}

/// What a reply means.
#[derive(Clone, Copy, PartialEq, Eq, Hash, Debug)]
pub enum Reading<'o> {
    Refused(Refused),
    /// The bits or words read, packed as on the line; spare bits are 0.
    Values(&'o [u8]),
    /// The write is done.
    Written,
    Exception(Code),
}

/// Builds a request in `frame`, which needs at least 256 bytes; those beyond the request keep their content.
/// `data` is what 0F and 10 write, and empty for the others; spare bits are built as 0.
pub fn build<'f>(request: Request, data: &[u8], frame: &'f mut [u8]) -> Built<'f> {
    // SAFETY: each pointer and length are those of one slice; the borrows keep `frame` apart.
    let answer = unsafe {
        ffi::montrakit_build(
            request.station,
            request.task.number(),
            request.start,
            request.task.value(),
            data.as_ptr(),
            data.len(),
            frame.as_mut_ptr(),
            frame.len(),
        )
    };
    match answer::parts(answer) {
        (answer::REFUSED, number) => Built::Refused(told(Refused::of_number(number), answer)),
        (answer::FRAME, length) => Built::Frame(written(frame, length)),
        _ => ruled_out(answer),
    }
}

/// Reads a reply beside its request. Values go into `out`, which needs at least 256 bytes; those beyond
/// the values keep their content.
pub fn read<'o>(request: Request, reply: &[u8], out: &'o mut [u8]) -> Reading<'o> {
    // SAFETY: each pointer and length are those of one slice; the borrows keep `out` apart.
    let answer = unsafe {
        ffi::montrakit_read(
            request.station,
            request.task.number(),
            request.start,
            request.task.value(),
            reply.as_ptr(),
            reply.len(),
            out.as_mut_ptr(),
            out.len(),
        )
    };
    match answer::parts(answer) {
        (answer::REFUSED, number) => Reading::Refused(told(Refused::of_number(number), answer)),
        (answer::VALUES, count) => Reading::Values(written(out, count)),
        (answer::WRITTEN, _) => Reading::Written,
        (answer::EXCEPTION, code) => Reading::Exception(told(Code::of_number(code), answer)),
        _ => ruled_out(answer),
    }
}
