//! The table of frames.

#[derive(Clone, Copy, PartialEq, Eq)]
pub enum Task {
    ReadBits,
    ReadWords,
    WriteBit,
    WriteWord,
    WriteBits,
    WriteWords,
}

pub const BIT_ON: u16 = 0xFF00;
pub const BIT_OFF: u16 = 0x0000;

pub const EXCEPTION_BIT: u8 = 0x80;
pub const EXCEPTION_LENGTH: usize = 5;
/// Requests 01 to 06, and replies to writes.
pub const SHORT_LENGTH: usize = 8;

const MOST_BITS: u16 = 256;
const MOST_WORDS: u16 = 80;

impl Task {
    pub fn of(function: u8) -> Option<Task> {
        match function {
            0x01 | 0x02 => Some(Task::ReadBits),
            0x03 | 0x04 => Some(Task::ReadWords),
            0x05 => Some(Task::WriteBit),
            0x06 => Some(Task::WriteWord),
            0x0F => Some(Task::WriteBits),
            0x10 => Some(Task::WriteWords),
            _ => None,
        }
    }

    pub fn reads(self) -> bool {
        matches!(self, Task::ReadBits | Task::ReadWords)
    }

    pub fn carries_data(self) -> bool {
        matches!(self, Task::WriteBits | Task::WriteWords)
    }

    /// Whether the number behind the start, if it is not 0, is one that the request may have.
    pub fn allows(self, value: u16) -> bool {
        match self {
            Task::ReadBits | Task::WriteBits => value <= MOST_BITS,
            Task::ReadWords | Task::WriteWords => value <= MOST_WORDS,
            Task::WriteBit => value == BIT_ON || value == BIT_OFF,
            Task::WriteWord => true,
        }
    }

    /// Whether the number behind the start is a quantity.
    pub fn has_quantity(self) -> bool {
        !matches!(self, Task::WriteBit | Task::WriteWord)
    }

    /// The bytes of so many bits or words.
    pub fn byte_count(self, quantity: u16) -> usize {
        match self {
            Task::ReadBits | Task::WriteBits | Task::WriteBit => usize::from(quantity).div_ceil(8),
            Task::ReadWords | Task::WriteWords | Task::WriteWord => usize::from(quantity) * 2,
        }
    }
}

/// The bits of the last byte that carry one of `quantity` bits.
pub fn used_bits(quantity: u16) -> u8 {
    match quantity % 8 {
        0 => 0xFF,
        used => (1 << used) - 1,
    }
}
