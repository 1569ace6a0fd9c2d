//! The bench program: one station whose registers persist from line to line.

use crate::bits::Image;
use crate::calls::name;
use crate::hex;
use crate::lines::Answerer;
use crate::slave::{self, Area, Counting, Outcome, State, Station};

pub const STATION: Station = Station {
    own: 20,
    counting: Counting::ModBus,
    state: State::Ready,
};
pub const AREAS: [Area; 2] = [
    Area {
        first: 0,
        count: 8,
        writable: true,
    },
    Area {
        first: 8,
        count: 8,
        writable: false,
    },
];

/// The stored input of document 01; its last line is empty.
pub const INPUT: &str = "\
14 03 00 01 00 02 97 0E
14 05 00 18 00 00 4F 08
14 03 00 01 00 02 97 0E
14 06 00 08 00 01 CB 0D
14 03 00 01 00 02 97 0F

";

pub struct Bench {
    image: Image,
    buffer: [u8; 256],
    frame: Vec<u8>,
}

impl Default for Bench {
    fn default() -> Bench {
        let mut image = Image::default();
        image.fill((0..16).map(|place| match place {
            1 => 1000,
            2 => 500,
            _ => 0,
        }));
        Bench {
            image,
            buffer: [0; 256],
            frame: Vec::new(),
        }
    }
}

impl Answerer for Bench {
    const MOST: usize = 899;

    fn answer(&mut self, line: &[u8], out: &mut Vec<u8>) {
        if !hex::read(line, &mut self.frame) {
            out.extend(b"bad line");
            return;
        }
        let (outcome, length) = slave::answer(
            STATION,
            &AREAS,
            &mut self.image,
            &mut self.buffer,
            &self.frame,
        );
        match outcome {
            Outcome::Refused(_) | Outcome::Silent(_) => out.extend(name(outcome).bytes()),
            Outcome::Exception(_) | Outcome::Reply => {
                out.extend(b"reply ");
                hex::write(&self.buffer[..length], out);
            }
        }
    }
}

#[cfg(test)]
mod tests {
    use super::*;
    use crate::lines;

    /// Document 01, "Bench program": the whole output.
    #[test]
    fn stored_input() {
        let wanted = "\
reply 14 03 04 03 E8 01 F4 3E 95
reply 14 05 00 18 00 00 4F 08
reply 14 03 04 02 E8 01 F4 3F 69
reply 14 86 08 52 62
silent 11
silent 10
";
        let mut output = Vec::new();
        assert!(lines::run(Bench::default(), INPUT.as_bytes(), &mut output).is_ok());
        assert_eq!(String::from_utf8_lossy(&output), wanted);
    }
}
