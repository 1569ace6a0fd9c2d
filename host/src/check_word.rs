//! The check word of document 01, step by step: one line bit after the other, without a table.

pub fn check_word(bytes: &[u8]) -> u16 {
    let mut word = 0xFFFF;
    for &byte in bytes {
        word ^= u16::from(byte);
        for _ in 0..8 {
            let shifted_out = word & 1;
            word >>= 1;
            if shifted_out == 1 {
                word ^= 0xA001;
            }
        }
    }
    word
}

/// Puts the check word of `bytes` behind them, low byte first.
pub fn seal(bytes: &mut Vec<u8>) {
    let word = check_word(bytes);
    bytes.extend(word.to_le_bytes());
}

#[cfg(test)]
mod tests {
    use super::*;
    use crate::hex;

    /// Document 01, "Both sides of each edge"; 004, 2.8 and 4.3; Serial Line V1.02, CRC example.
    #[test]
    fn published_check_words() {
        let published: [(&str, u16); 8] = [
            ("", 0xFFFF),
            ("14 03 00 01 00 02", 0x0E97),
            ("14 03 04 03 E8 01 F4", 0x953E),
            ("14 05 00 18 FF 00", 0xF80E),
            ("14 05 00 18 00 00", 0x084F),
            ("01 10 00 FB 00 02 04 80 00 44 09", 0x9E67),
            ("01 06 00 EB 00 01", 0x3E38),
            ("02 07", 0x1241),
        ];
        let mut bytes = Vec::new();
        for (text, word) in published {
            assert!(hex::read(text.as_bytes(), &mut bytes));
            assert_eq!(check_word(&bytes), word, "{text}");
        }
    }
}
