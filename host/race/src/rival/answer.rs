//! What a call answers, and the number that tells it.

pub enum Answer {
    BadArgument(u16),
    Refused(u16),
    Silent(u16),
    Exception(u8),
    /// The length of the reply.
    Reply(usize),
    /// The length of the request.
    Built(usize),
    /// How many bytes were read.
    Values(usize),
    Written,
}

impl Answer {
    /// Kind × 65,536 + number.
    pub fn told(self) -> u32 {
        let (kind, number) = match self {
            Answer::Refused(number) => (0, u32::from(number)),
            Answer::Silent(number) => (1, u32::from(number)),
            Answer::Exception(code) => (2, u32::from(code)),
            Answer::Reply(length) => (3, length as u32),
            Answer::BadArgument(number) => (4, u32::from(number)),
            Answer::Built(length) => (5, length as u32),
            Answer::Values(count) => (6, count as u32),
            Answer::Written => (7, 0),
        };
        kind << 16 | number
    }
}
