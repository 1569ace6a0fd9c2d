//! The master's half of document 02, §1. A request is put together as line bits. A reply is accepted if
//! it is one of those that would be right, which are worked out.

use crate::check_word::seal;

#[derive(Clone, Copy, PartialEq, Eq, Debug)]
pub struct Request {
    pub station: u8,
    /// One of the eight of the table of frames.
    pub function: u8,
    pub start: u16,
    /// The quantity; for 05 the bit's value, for 06 the word's.
    pub operand: u16,
}

#[derive(Clone, Copy, PartialEq, Eq, Debug)]
pub enum Built {
    Refused(u8),
    /// So many bytes of the lent buffer.
    Frame(usize),
}

#[derive(Clone, Copy, PartialEq, Eq, Debug)]
pub enum Reading {
    Refused(u8),
    /// So many bytes of the lent buffer.
    Data(usize),
    Written,
    Exception(u8),
}

/// A frame under way: its bytes in order, the least significant bit of each first.
#[derive(Default)]
struct Wire {
    bits: Vec<bool>,
}

impl Wire {
    fn put(self, bytes: &[u8]) -> Wire {
        self.put_run(bytes, bytes.len() * 8)
    }

    /// The first `run` bits of the bytes, and zeros up to a whole byte.
    fn put_run(mut self, bytes: &[u8], run: usize) -> Wire {
        let bits = bytes
            .iter()
            .flat_map(|byte| (0..8).map(move |k| byte >> k & 1 == 1));
        let end = (self.bits.len() + run).next_multiple_of(8);
        self.bits.extend(bits.take(run));
        self.bits.resize(end, false);
        self
    }

    /// The bytes, with their check word behind them.
    fn frame(self) -> Vec<u8> {
        let byte = |bits: &[bool]| (0..8).fold(0, |byte, k| byte | u8::from(bits[k]) << k);
        let mut frame = self.bits.chunks(8).map(byte).collect();
        seal(&mut frame);
        frame
    }
}

impl Request {
    /// How many bits of data belong to it, on either way; none for refusal 70.
    fn run(self, room: usize) -> Option<usize> {
        let run = match (self.function, usize::from(self.operand)) {
            (0x01 | 0x02 | 0x0F, quantity @ 1..=256) => quantity,
            (0x03 | 0x04 | 0x10, quantity @ 1..=80) => quantity * 16,
            (0x05, 0xFF00 | 0x0000) | (0x06, _) => 0,
            _ => return None,
        };
        (self.station != 0 && room >= 256).then_some(run)
    }

    /// Its first six bytes: all that is echoed of a write, and all of a request without data.
    fn head(self) -> Wire {
        Wire::default()
            .put(&[self.station, self.function])
            .put(&self.start.to_be_bytes())
            .put(&self.operand.to_be_bytes())
    }

    pub fn reads(self) -> bool {
        self.function <= 0x04
    }

    fn carries_data(self) -> bool {
        self.function >= 0x0F
    }

    /// Every reply that would be right, and what it means; of those with data only the one with the
    /// data that `reply` has where data stand.
    fn right_replies(self, run: usize, reply: &[u8]) -> Vec<(Reading, Vec<u8>)> {
        let coded = |code| {
            let form = [self.station, self.function | 0x80, code];
            (Reading::Exception(code), Wire::default().put(&form).frame())
        };
        let mut right: Vec<_> = [1, 2, 3, 4, 8].into_iter().map(coded).collect();
        if self.reads() {
            let count = run.div_ceil(8);
            let form = [self.station, self.function, count as u8];
            let data = reply.get(form.len()..).unwrap_or_default();
            let frame = Wire::default().put(&form).put_run(data, run).frame();
            right.push((Reading::Data(count), frame));
        } else {
            right.push((Reading::Written, self.head().frame()));
        }
        right
    }
}

fn is_sealed(frame: &[u8]) -> bool {
    let mut again = frame[..frame.len().saturating_sub(2)].to_vec();
    seal(&mut again);
    again == frame
}

/// `data` as on the line; none but for 0F and 10.
pub fn build(request: Request, data: &[u8], buffer: &mut [u8]) -> Built {
    let Some(run) = request.run(buffer.len()) else {
        return Built::Refused(70);
    };
    let count = if request.carries_data() {
        run.div_ceil(8)
    } else {
        0
    };
    if data.len() != count {
        return Built::Refused(70);
    }
    let mut wire = request.head();
    if request.carries_data() {
        wire = wire.put(&[count as u8]).put_run(data, run);
    }
    let frame = wire.frame();
    buffer[..frame.len()].copy_from_slice(&frame);
    Built::Frame(frame.len())
}

pub fn read(request: Request, reply: &[u8], buffer: &mut [u8]) -> Reading {
    let Some(run) = request.run(buffer.len()) else {
        return Reading::Refused(70);
    };
    if reply.len() < 5 || !is_sealed(reply) {
        return Reading::Refused(71);
    }
    let mut right = request.right_replies(run, reply).into_iter();
    let Some((reading, _)) = right.find(|(_, frame)| frame == reply) else {
        return Reading::Refused(72);
    };
    if let Reading::Data(count) = reading {
        buffer[..count].copy_from_slice(&reply[3..3 + count]);
    }
    reading
}

#[cfg(test)]
mod tests {
    use super::*;
    use crate::lists;

    const BACKGROUND: [u8; 256] = [0xAA; 256];

    /// What is built and read, and the frames, of 004 and of document 01's bench: the request's fields,
    /// its data, its frame, the reply, what it means and what is read of it.
    type Exchange = (
        [u16; 4],
        &'static str,
        &'static str,
        &'static str,
        Reading,
        &'static str,
    );

    #[rustfmt::skip]
    const PUBLISHED: [Exchange; 9] = [
        // 2.8, examples 1 and 2, with the manual's check words.
        ([20, 3, 1, 2], "", "14 03 00 01 00 02 97 0E", "14 03 04 03 E8 01 F4 3E 95", Reading::Data(4), "03 E8 01 F4"),
        ([20, 5, 24, 0xFF00], "", "14 05 00 18 FF 00 0E F8", "14 05 00 18 FF 00 0E F8", Reading::Written, ""),
        ([20, 5, 24, 0], "", "14 05 00 18 00 00 4F 08", "14 05 00 18 00 00 4F 08", Reading::Written, ""),
        // Document 01, "Bench program".
        ([20, 6, 8, 1], "", "14 06 00 08 00 01 CB 0D", "14 86 08 52 62", Reading::Exception(8), ""),
        // 3.1, 3.2 and 3.5; 2.6 has exceptions of this form.
        ([10, 1, 0x0370, 4], "", "0A 01 03 70 00 04 *", "0A 01 01 0F *", Reading::Data(1), "0F"),
        ([20, 4, 0x31, 6], "", "14 04 00 31 00 06 *", "14 04 0C 19 99 43 48 4C CC 43 48 26 66 43 96 *",
            Reading::Data(12), "19 99 43 48 4C CC 43 48 26 66 43 96"),
        ([20, 15, 0x0750, 2], "FD", "14 0F 07 50 00 02 01 01 *", "14 0F 07 50 00 02 *", Reading::Written, ""),
        ([1, 2, 0x0610, 1], "", "01 02 06 10 00 01 *", "01 82 02 *", Reading::Exception(2), ""),
        // 4.3, with the manual's check word.
        ([1, 16, 0x00FB, 2], "80 00 44 09", "01 10 00 FB 00 02 04 80 00 44 09 67 9E", "01 10 00 FB 00 02 *",
            Reading::Written, ""),
    ];

    fn request([station, function, start, operand]: [u16; 4]) -> Request {
        Request {
            station: station as u8,
            function: function as u8,
            start,
            operand,
        }
    }

    fn starts_with(bytes: &[u8]) -> Vec<u8> {
        [bytes, &BACKGROUND[bytes.len()..]].concat()
    }

    #[test]
    fn published_frames() {
        for (fields, data, frame, reply, meaning, bytes) in PUBLISHED {
            let [data, frame, reply, bytes] = [data, frame, reply, bytes].map(lists::frame);
            let (request, mut buffer) = (request(fields), BACKGROUND);
            assert_eq!(
                build(request, &data, &mut buffer),
                Built::Frame(frame.len())
            );
            assert_eq!(buffer.to_vec(), starts_with(&frame));
            let mut buffer = BACKGROUND;
            assert_eq!(read(request, &reply, &mut buffer), meaning, "{fields:?}");
            assert_eq!(buffer.to_vec(), starts_with(&bytes));
        }
    }

    /// The same replies beside each other's requests: no other is accepted.
    #[test]
    fn replies_to_other_requests() {
        for (one, (fields, ..)) in PUBLISHED.iter().enumerate() {
            for (other, (_, _, _, reply, ..)) in PUBLISHED.iter().enumerate() {
                let mut buffer = BACKGROUND;
                let reading = read(request(*fields), &lists::frame(reply), &mut buffer);
                let refused = reading == Reading::Refused(72) && buffer == BACKGROUND;
                assert!(one == other || refused, "{fields:?} {reply}");
            }
        }
    }
}
