//! The check word, by a table of 256.

static TABLE: [u16; 256] = table();

/// Entry i is i put through the eight steps.
const fn table() -> [u16; 256] {
    let mut table = [0; 256];
    let mut i = 0;
    while i < table.len() {
        let mut word = i as u16;
        let mut step = 0;
        while step < 8 {
            word = if word & 1 == 1 {
                word >> 1 ^ 0xA001
            } else {
                word >> 1
            };
            step += 1;
        }
        table[i] = word;
        i += 1;
    }
    table
}

pub fn check_word(bytes: &[u8]) -> u16 {
    let mut word: u16 = 0xFFFF;
    for byte in bytes {
        word = word >> 8 ^ TABLE[usize::from(word as u8 ^ byte)];
    }
    word
}

/// Whether a frame ends in the check word of the rest.
pub fn is_right(frame: &[u8]) -> bool {
    match frame.split_last_chunk() {
        Some((rest, end)) => u16::from_le_bytes(*end) == check_word(rest),
        None => false,
    }
}

/// Puts the check word behind the first `length` bytes; gives the length of the whole.
pub fn seal(buffer: &mut [u8; 256], length: usize) -> usize {
    let word = check_word(&buffer[..length]);
    buffer[length..length + 2].copy_from_slice(&word.to_le_bytes());
    length + 2
}
