//! Answers of the C face: kind × 65,536 + number.

pub const REFUSED: u8 = 0;
pub const SILENT: u8 = 1;
pub const EXCEPTION: u8 = 2;
pub const REPLY: u8 = 3;
pub const FRAME: u8 = 5;
pub const VALUES: u8 = 6;
pub const WRITTEN: u8 = 7;

/// Kind and number; both have one byte in every answer that the contracts allow.
pub fn parts(answer: u32) -> (u8, u8) {
    match answer.to_be_bytes() {
        [0, kind, 0, number] => (kind, number),
        _ => ruled_out(answer),
    }
}

/// The first bytes of a lent buffer; no answer tells more bytes than were lent.
pub fn written(buffer: &[u8], length: u8) -> &[u8] {
    let Some(bytes) = buffer.get(..usize::from(length)) else {
        unreachable!("{length} bytes written of {}", buffer.len());
    };
    bytes
}

/// The case of a number that an answer tells.
pub fn told<T>(case: Option<T>, answer: u32) -> T {
    case.unwrap_or_else(|| ruled_out(answer))
}

pub fn ruled_out(answer: u32) -> ! {
    unreachable!("the contracts rule out the answer {answer:#x}")
}
