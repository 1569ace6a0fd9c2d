//! The longer bench input: edges of the lines themselves, registers that persist, and drawn lines.

use crate::bench::{AREAS, STATION};
use crate::drawn::Drawing;
use crate::hex;
use crate::lists::{expanded, frame_text, Entry};

const SEED: u64 = 339_580;

/// The answer and the line, in this order on a fresh bench; `*` and `^` as in the lists of calls.
#[rustfmt::skip]
const SEQUENCE: &[Entry] = &[
    // Document 01's own lines, then both cases of the digits.
    ("reply 14 03 04 03 E8 01 F4 3E 95", "14 03 00 01 00 02 97 0E"),
    ("reply 14 03 04 03 E8 01 F4 3E 95", "14 03 00 01 00 02 97 0e"),
    ("reply 14 0F 00 78 00 03 *", "14 0f 00 78 00 03 01 fA 6E 2d"),
    ("reply 14 01 01 02 *", "14 01 00 78 00 08 *"),
    ("silent 11", "ab Cd eF 01"),
    ("silent 10", ""),
    // Words 7 and 8 read together; written together, E8, and word 7 keeps its value.
    ("reply 14 06 00 07 12 34 *", "14 06 00 07 12 34 *"),
    ("reply 14 03 04 12 34 00 00 *", "14 03 00 07 00 02 *"),
    ("reply 14 90 08 *", "14 10 00 07 00 02 04 01 02 03 04 *"),
    ("reply 14 03 02 12 34 *", "14 03 00 07 00 01 *"),
    ("reply 14 8F 08 *", "14 0F 00 78 00 10 02 FF FF *"),
    ("reply 14 04 02 12 34 *", "14 04 00 07 00 01 *"),
    ("reply 14 02 02 12 00 *", "14 02 00 78 00 10 *"),
    // Bits and words persist, across bad lines and silences.
    ("reply 14 05 00 18 00 00 4F 08", "14 05 00 18 00 00 *"),
    ("bad line", "14 05 00 18 FF 00 0E F8 "),
    ("bad line", " 14 05 00 18 FF 00 0E F8"),
    ("bad line", "14 05 00 18 FF 00  0E F8"),
    ("bad line", "14 05 00 18 FF 00 0E F8\r"),
    ("bad line", "14\t05 00 18 FF 00 0E F8"),
    ("bad line", "14 05 00 18 FF 00 0E F8\0"),
    ("bad line", "14 05 00 18 FF 00 0E F"),
    ("bad line", "14 05 00 18 FF 00 0EF8"),
    ("bad line", "14 05 00 18 FF 00 0E 0F8"),
    ("silent 11", "14 05 00 18 FF 00 0E F9"),
    ("reply 14 01 01 02 *", "14 01 00 18 00 03 *"),
    ("reply 14 03 04 02 E8 01 F4 3F 69", "14 03 00 01 00 02 97 0E"),
    ("reply 14 0F 00 00 00 0B *", "14 0F 00 00 00 0B 02 FF FF *"),
    ("reply 14 03 02 07 FF *", "14 03 00 00 00 01 *"),
    ("reply 14 02 02 FF 07 *", "14 02 00 00 00 0C *"),
    ("reply 14 10 00 03 00 02 *", "14 10 00 03 00 02 04 AB CD 00 01 *"),
    ("reply 14 04 04 AB CD 00 01 *", "14 04 00 03 00 02 *"),
    ("reply 14 03 20 07 FF 02 E8 01 F4 AB CD 00 01 00^4 12 34 00^16 *", "14 03 00 00 00 10 *"),
    // Exceptions print as replies; a reply before them leaves no trace.
    ("reply 14 87 01 *", "14 07 *"),
    ("reply 14 83 01 *", "14 83 *"),
    ("reply 14 83 03 *", "14 03 00 00 00 51 *"),
    ("reply 14 83 02 *", "14 03 00 00 00 50 *"),
    ("reply 14 85 03 *", "14 05 00 18 FF 01 *"),
    ("reply 14 86 08 52 62", "14 06 00 08 00 01 CB 0D"),
    ("silent 10", "14 *"),
    ("silent 12", "15 03 00 01 00 02 *"),
    ("silent 12", "00 06 00 01 00 02 *"),
    ("silent 14", "14 03 *"),
    ("silent 15", "14 03 00 01 00 00 *"),
    // 255 to 257 and 299 to 301 bytes.
    ("reply 14 87 01 *", "14 07 00^251 *"),
    ("reply 14 87 01 *", "14 07 00^252 *"),
    ("silent 10", "14 07 00^253 *"),
    ("silent 10", "14 07 00^295 *"),
    ("silent 10", "14 07 00^296 *"),
    ("bad line", "14 07 00^297 *"),
    ("reply 14 90 03 *", "14 10 00 00 00 50 F7 00^247 *"),
    ("silent 10", "14 10 00 00 00 50 F8 00^248 *"),
    // Other forms.
    ("bad line", " "),
    ("bad line", "  "),
    ("bad line", "\r"),
    ("bad line", "\0"),
    ("bad line", "\t"),
    ("bad line", "1"),
    ("bad line", "014"),
    ("bad line", "14 3"),
    ("bad line", "14 003"),
    ("bad line", "0g"),
    ("bad line", "0G"),
    ("bad line", "g0"),
    ("bad line", "0/"),
    ("bad line", "0:"),
    ("bad line", "0@"),
    ("bad line", "0`"),
    ("bad line", "0x"),
    ("bad line", "+1"),
    ("bad line", "-1"),
    ("bad line", " 1"),
    ("bad line", "1 "),
    ("bad line", "14,03"),
    ("bad line", "14\u{b}03"),
    ("bad line", "14\u{a0}03"),
    ("bad line", "\u{feff}14 03"),
    ("bad line", "bad line"),
    ("reply 14 03 04 02 E8 01 F4 3F 69", "14 03 00 01 00 02 97 0E"),
];

/// The input under way, and what draws lines for it.
struct Writing {
    input: Vec<u8>,
    drawing: Drawing,
}

impl Writing {
    fn line(&mut self, line: &[u8]) {
        self.input.extend(line);
        self.input.push(b'\n');
    }

    /// The first characters of a frame without end.
    fn cut(&mut self, characters: usize) {
        let endless = b"14 ".iter().cycle().take(characters);
        self.input.extend(endless);
        self.input.push(b'\n');
    }

    /// A frame for the bench station; now and then in other digits, or spoilt by one character.
    fn drawn(&mut self) {
        self.drawing.draw_frame(STATION, 16);
        let mut text = Vec::new();
        hex::write(&self.drawing.frame, &mut text);
        let random = &mut self.drawing.random;
        let kind = random.below(100);
        let place = random.below(text.len());
        match kind {
            0..=4 => text.make_ascii_lowercase(),
            5..=9 => text[..place].make_ascii_lowercase(),
            10..=13 => {
                let any = random.byte();
                let other = random.one_of([b' ', b'0', b'f', b'g', b'\r', b'\t', 0, any]);
                text.insert(place, if other == b'\n' { b' ' } else { other });
            }
            14..=15 if place < text.len() => {
                text.remove(place);
            }
            _ => {}
        }
        self.line(&text);
    }

    /// Drawn lines, the last of them cut as needed; then a write of which `shift` characters stand
    /// before a multiple of `block`, and a read that shows what it wrote.
    fn across(&mut self, block: usize, shift: usize) {
        let margin = 1600;
        let offset = (self.input.len() + margin).next_multiple_of(block) - shift;
        while self.input.len() + margin < offset {
            self.drawn();
        }
        self.cut(offset - self.input.len() - 1);
        for template in [
            format!("14 06 00 05 A5 {shift:02X} *"),
            "14 03 00 05 00 01 *".to_string(),
        ] {
            self.line(frame_text(&template).as_bytes());
        }
    }
}

pub fn input() -> Vec<u8> {
    let mut drawing = Drawing::new(SEED);
    drawing.areas.extend(AREAS);
    let mut writing = Writing {
        input: Vec::new(),
        drawing,
    };
    for (_, template) in SEQUENCE {
        writing.line(expanded(template).as_bytes());
    }
    for byte in 0x80..=0xFF {
        writing.line(&[b'1', byte]);
        writing.line(&[b'1', b'4', byte, b'0', b'3']);
    }
    for characters in 895..=905 {
        writing.cut(characters);
    }
    // A line of 24 characters with its line feed, each of its characters the first of a new block.
    for shift in 0..=24 {
        writing.across(4096, shift);
    }
    for shift in [1, 12, 24] {
        writing.across(65_536, shift);
    }
    // Far over the longest good line, in good form and not, with good lines between.
    let read = frame_text("14 03 00 00 00 10 *");
    let blanks = b" ".repeat(200_000);
    let long = [read.as_bytes(), &blanks[..70_000]].concat();
    writing.cut(70_001);
    writing.line(read.as_bytes());
    writing.line(&blanks);
    writing.line(read.as_bytes());
    writing.line(&long);
    writing.cut(1_000);
    writing.line(b"");
    writing.input.extend(read.bytes());
    writing.input
}

#[cfg(test)]
mod tests {
    use super::*;
    use crate::bench::Bench;
    use crate::lines::Answerer;

    #[test]
    fn lines_in_order() {
        let mut bench = Bench::default();
        for (given, template) in SEQUENCE {
            let wanted = match given.split_once(' ') {
                Some(("reply", bytes)) => format!("reply {}", frame_text(bytes)),
                _ => given.to_string(),
            };
            let mut answer = Vec::new();
            bench.answer(expanded(template).as_bytes(), &mut answer);
            assert_eq!(String::from_utf8_lossy(&answer), wanted, "{template}");
        }
    }
}
