//! Calls of the C face as they are given, and what they leave.

use crate::guard::Border;

#[derive(Clone, PartialEq, Eq, Debug)]
pub struct Respond {
    pub own: u8,
    pub counting: u8,
    pub state: u8,
    pub areas: Vec<u16>,
    pub frame: Vec<u8>,
    pub image: Vec<u16>,
    pub reply: Vec<u8>,
}

/// A call of the master's half.
#[derive(Clone, PartialEq, Eq, Debug)]
pub struct Ask {
    pub station: u8,
    pub function: u8,
    pub start: u16,
    pub value: u16,
    /// The data to build with, or the reply to read.
    pub given: Vec<u8>,
    /// Where the request is built, or the values are put.
    pub lent: Vec<u8>,
}

#[derive(Clone, PartialEq, Eq, Debug)]
pub enum Call {
    Respond(Respond),
    Build(Ask),
    Read(Ask),
    CheckWord(Vec<u8>),
}

impl Call {
    /// How many elements each buffer has, in the order of the arguments.
    pub fn lengths(&self) -> Vec<usize> {
        match self {
            Call::Respond(call) => vec![
                call.areas.len(),
                call.frame.len(),
                call.image.len(),
                call.reply.len(),
            ],
            Call::Build(ask) | Call::Read(ask) => vec![ask.given.len(), ask.lent.len()],
            Call::CheckWord(bytes) => vec![bytes.len()],
        }
    }
}

/// How a buffer is lent.
#[derive(Clone, Copy, Debug)]
pub struct Way {
    pub border: Border,
    /// By a null pointer, if it is empty.
    pub null: bool,
}

/// For each buffer, in the order of the arguments.
pub type Ways = [Way; 4];

/// What a call left: its answer, the words of the image, and the bytes of the buffer that it may write.
#[derive(Clone, PartialEq, Eq, Debug)]
pub struct Left {
    pub answer: u32,
    pub image: Vec<u16>,
    pub lent: Vec<u8>,
}

/// What a call that was made left, and whether all it may only read is as it was.
pub struct Made {
    pub left: Left,
    pub kept: bool,
}

/// Kinds of answers.
pub const REFUSED: u32 = 0;
pub const SILENT: u32 = 1;
pub const EXCEPTION: u32 = 2;
pub const REPLY: u32 = 3;
pub const BAD_ARGUMENT: u32 = 4;
pub const FRAME: u32 = 5;
pub const VALUES: u32 = 6;
pub const WRITTEN: u32 = 7;

pub fn answer(kind: u32, number: usize) -> u32 {
    kind * 65_536 + number as u32
}
