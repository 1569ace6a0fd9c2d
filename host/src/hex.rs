//! Bytes as two-digit hex with single blanks between them: a line of the bench, a frame of a call.

/// Whether `text` has that form; if so, `bytes` holds what it says.
pub fn read(text: &[u8], bytes: &mut Vec<u8>) -> bool {
    bytes.clear();
    if text.is_empty() {
        return true;
    }
    if text.len() > 899 || text.len() % 3 != 2 {
        return false;
    }
    for (place, group) in text.chunks(3).enumerate() {
        let (Some(high), Some(low)) = (digit(group[0]), digit(group[1])) else {
            return false;
        };
        if place > 0 && text[place * 3 - 1] != b' ' {
            return false;
        }
        bytes.push(high << 4 | low);
    }
    true
}

fn digit(character: u8) -> Option<u8> {
    match character {
        b'0'..=b'9' => Some(character - b'0'),
        b'a'..=b'f' => Some(character - b'a' + 10),
        b'A'..=b'F' => Some(character - b'A' + 10),
        _ => None,
    }
}

/// Upper case, behind what `text` holds already.
pub fn write(bytes: &[u8], text: &mut Vec<u8>) {
    const DIGITS: &[u8; 16] = b"0123456789ABCDEF";
    for (place, byte) in bytes.iter().enumerate() {
        if place > 0 {
            text.push(b' ');
        }
        text.push(DIGITS[usize::from(byte >> 4)]);
        text.push(DIGITS[usize::from(byte & 15)]);
    }
}
