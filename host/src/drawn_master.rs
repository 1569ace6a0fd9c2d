//! Drawn lines for the master's half: exchanges, requests to build, and replies to read, most of them
//! right and the others wrong in one field.

use crate::check_word::seal;
use crate::drawn::Drawing;
use crate::master::Request;
use crate::slave::Station;

/// What a reply drawn for reading is, beside its request.
#[derive(Clone, Copy, PartialEq, Eq, Debug)]
pub enum Change {
    Right,
    /// Damaged on the line.
    Damaged,
    /// Cut to under 5 bytes, its check word right; so is that of all below.
    Short,
    Station,
    Function,
    Code,
    Start,
    Operand,
    ByteCount,
    ByteCountAndLength,
    SpareBit,
    Longer,
    Shorter,
    /// Station and function, and any bytes.
    Any,
}

impl Drawing {
    /// Draws a line of any kind, and puts it, without a line feed, in place of what `line` held.
    pub fn line(&mut self, line: &mut Vec<u8>) {
        match self.random.below(10) {
            0..=3 => {
                self.call(line);
            }
            4..=6 => self.exchange(line),
            7 => self.build(line),
            _ => {
                self.reading(line);
            }
        }
    }

    pub fn exchange(&mut self, line: &mut Vec<u8>) {
        let (station, words) = self.settings();
        let request = self.fields(station, words);
        self.write_request(b"exchange|", request, line);
        self.write_settings(station, words, line);
        self.write_ends(line);
    }

    pub fn build(&mut self, line: &mut Vec<u8>) {
        let (station, words) = self.settings();
        let request = self.fields(station, words);
        if self.random.in_thousand(30) {
            let more = self.random.between(1, 3);
            self.any_data(more);
        }
        self.write_request(b"build|", request, line);
        self.write_ends(line);
    }

    pub fn reading(&mut self, line: &mut Vec<u8>) -> Change {
        let (station, words) = self.settings();
        let request = self.fields(station, words);
        self.right_reply(request);
        let change = self.change(request);
        self.write_request(b"read|", request, line);
        self.write_ends(line);
        change
    }

    fn write_request(&mut self, word: &[u8], request: Request, line: &mut Vec<u8>) {
        line.clear();
        line.extend(word);
        let Request {
            station,
            function,
            start,
            operand,
        } = request;
        let fields = [station.into(), function.into(), start, operand];
        self.numbers(fields.map(usize::from), line);
        line.push(b'|');
    }

    /// The fields of a request, mostly for the station; its data are in `self.frame`.
    fn fields(&mut self, station: Station, words: usize) -> Request {
        let own = match self.random.below(100) {
            0 => 0,
            1..=3 => self.random.byte(),
            _ if station.own == 0 => self.random.between(1, 255) as u8,
            _ => station.own,
        };
        self.frame.clear();
        self.request(station.counting, words);
        let head: Vec<u8> = self.frame.drain(..5).collect();
        if head[0] >= 0x0F {
            self.frame.remove(0);
        }
        Request {
            station: own,
            function: head[0],
            start: u16::from_be_bytes([head[1], head[2]]),
            operand: u16::from_be_bytes([head[3], head[4]]),
        }
    }

    /// A reply that fits the request, if it is one, without its check word.
    fn right_reply(&mut self, request: Request) {
        let Request {
            station,
            function,
            start,
            operand,
        } = request;
        self.frame.clear();
        self.frame.extend([station, function]);
        if self.random.in_thousand(300) {
            let code = self.random.one_of([1, 2, 3, 4, 8]);
            self.frame[1] |= 0x80;
            self.frame.push(code);
        } else if request.reads() {
            let count = match function {
                0x01 | 0x02 => usize::from(operand).div_ceil(8),
                _ => usize::from(operand) * 2,
            };
            self.frame.push(count as u8);
            self.any_data(count.min(250));
            if let Some(last) = self.frame.last_mut().filter(|_| spare(request) > 0) {
                *last &= 0xFF >> spare(request);
            }
        } else {
            self.two_bytes(start);
            self.two_bytes(operand);
        }
    }

    /// Changes the reply or not, and puts its check word behind it.
    fn change(&mut self, request: Request) -> Change {
        let change = match self.random.below(100) {
            0..=34 => Change::Right,
            35..=42 => Change::Damaged,
            43..=45 => Change::Short,
            46..=49 => Change::Station,
            50..=57 => Change::Function,
            58..=62 => Change::Longer,
            63..=66 => Change::Shorter,
            67..=69 => Change::Any,
            _ => self.change_of_form(request),
        };
        self.apply(change, request);
        seal(&mut self.frame);
        if change == Change::Damaged {
            self.damage();
        }
        let short = self.frame.len() < 5 && change != Change::Damaged;
        if short {
            Change::Short
        } else {
            change
        }
    }

    /// A change of what only exceptions have, or only replies to reads or to writes.
    fn change_of_form(&mut self, request: Request) -> Change {
        if self.frame[1] & 0x80 != 0 {
            return Change::Code;
        }
        let (count, both) = (Change::ByteCount, Change::ByteCountAndLength);
        match request.reads() {
            false => self.random.one_of([Change::Start, Change::Operand]),
            true if spare(request) > 0 => {
                let spare = Change::SpareBit;
                self.random.one_of([spare, spare, count, both])
            }
            true => self.random.one_of([count, both]),
        }
    }

    fn apply(&mut self, change: Change, request: Request) {
        let bit = 1 << self.random.below(8);
        let more = match self.random.below(10) {
            0 => 254usize.saturating_sub(self.frame.len()),
            1 => 255usize.saturating_sub(self.frame.len()),
            2..=6 => 1,
            _ => self.random.between(1, 3),
        };
        match change {
            Change::Right | Change::Damaged => {}
            Change::Short => {
                let left = self.random.below(3);
                self.frame.truncate(left);
            }
            Change::Station => self.frame[0] ^= bit,
            Change::Function => {
                let apart = self
                    .random
                    .one_of([bit, 0x01, 0x03, 0x07, 0x0C, 0x80, 0x81]);
                self.frame[1] ^= apart;
            }
            Change::Code => self.frame[2] = self.random.one_of([0, 5, 6, 7, 9, 16, 128, 255]),
            Change::Start => self.off(2),
            Change::Operand => self.off(4),
            Change::ByteCount => {
                let apart = self.random.one_of([bit, 1, 2, 255]);
                self.frame[2] = self.frame[2].wrapping_add(apart);
            }
            Change::ByteCountAndLength if bit > 8 => {
                self.frame[2] = self.frame[2].wrapping_sub(1);
                self.frame.pop();
            }
            Change::ByteCountAndLength => {
                self.frame[2] = self.frame[2].wrapping_add(more as u8);
                self.any_data(more);
            }
            Change::SpareBit => {
                let place = 7 - self.random.below(spare(request));
                if let Some(last) = self.frame.last_mut() {
                    *last |= 1 << place;
                }
            }
            Change::Longer => self.any_data(more),
            Change::Shorter => {
                self.frame.pop();
            }
            Change::Any => {
                self.frame.truncate(2);
                let length = self.random.one_of([1, 2, 3, 4, 5, 252, 253, 296]);
                self.any_data(length);
            }
        }
    }

    /// Another number at a place: one more or less, or one bit off.
    fn off(&mut self, at: usize) {
        let number = u16::from_be_bytes([self.frame[at], self.frame[at + 1]]);
        let apart = 1 << self.random.below(16);
        let other = self.random.one_of([apart, 1, 0xFFFF]);
        let other = number.wrapping_add(other).to_be_bytes();
        self.frame[at..at + 2].copy_from_slice(&other);
    }
}

/// How many spare bits the last byte of a right reply has.
fn spare(request: Request) -> usize {
    match request.function {
        0x01 | 0x02 => usize::from(request.operand.wrapping_neg() % 8),
        _ => 0,
    }
}

#[cfg(test)]
mod tests {
    use super::*;
    use crate::calls::Calls;
    use crate::cases::{Asked, Cases, Told};
    use crate::drawn::FUNCTIONS;
    use crate::hex;
    use crate::master::{Built, Reading};
    use crate::slave::{Counting, Outcome, TABLE};
    use crate::stored::{BUILDS, EXCHANGES, MASTER_SEED, READINGS};
    use crate::tally::{self, Tally};

    /// A line that asks the master's half for something, done: what was asked, told and printed.
    struct Done {
        request: Request,
        told: Told,
        answer: String,
    }

    fn done(cases: &mut Cases, line: &[u8]) -> Done {
        let text = String::from_utf8_lossy(line);
        let Some(asked) = cases.read(line) else {
            panic!("{text}");
        };
        let (Asked::Build(request) | Asked::Read(request) | Asked::Exchange(request)) = asked
        else {
            panic!("{text}");
        };
        let mut answer = Vec::new();
        let told = cases.make(asked, &mut answer);
        let answer = String::from_utf8_lossy(&answer).into_owned();
        assert!(!answer.contains("spilt"), "{text}");
        Done {
            request,
            told,
            answer,
        }
    }

    /// The bits that a request reads, as the image holds them; the rest of the last byte is 0.
    fn held(call: &Calls, request: Request) -> Vec<u8> {
        let j_bus = usize::from(call.station.counting == Counting::JBus);
        let first = usize::from(request.start) - j_bus;
        let quantity = usize::from(request.operand);
        if request.function > 0x02 {
            let words = (first..first + quantity).map(|place| call.image.word(place));
            return words.flat_map(u16::to_be_bytes).collect();
        }
        let mut bytes = vec![0; quantity.div_ceil(8)];
        for k in (0..quantity).filter(|k| call.image.bit(first + k)) {
            bytes[k / 8] |= 1 << (k % 8);
        }
        bytes
    }

    /// The drawn exchanges of the stored input reach every outcome that a built request can have, and
    /// none other; what is sent is always accepted, and means what the image held.
    #[test]
    fn drawn_exchanges_reach() {
        let (mut drawing, mut cases) = (Drawing::new(MASTER_SEED), Cases::default());
        let (mut tally, mut line) = (Tally::default(), Vec::new());
        let mut spare_bits = 0;
        for _ in 0..EXCHANGES {
            drawing.exchange(&mut line);
            let Done {
                request,
                told,
                answer,
            } = done(&mut cases, &line);
            tally.count(&cases.call, told);
            let sent = told.reading.is_some();
            match told.outcome {
                Some(Outcome::Exception(code)) => {
                    assert_eq!(told.reading, Some(Reading::Exception(code)), "{answer}");
                }
                Some(Outcome::Reply) if request.reads() => {
                    let data = answer.rsplit('|').nth(1).unwrap_or("");
                    let mut bytes = Vec::new();
                    assert!(hex::read(data.as_bytes(), &mut bytes));
                    assert_eq!(bytes, held(&cases.call, request), "{answer}");
                    assert_eq!(told.reading, Some(Reading::Data(bytes.len())), "{answer}");
                }
                Some(Outcome::Reply) => {
                    assert_eq!(told.reading, Some(Reading::Written), "{answer}");
                    let spare = request.function == 0x0F && request.operand % 8 != 0;
                    spare_bits += u32::from(spare);
                }
                _ => assert!(!sent, "{answer}"),
            }
        }
        let met = [1, 2, 3, 4].map(Outcome::Refused).into_iter();
        let met = met.chain([12, 13].map(Outcome::Silent));
        let met: Vec<_> = met.chain([4, 2, 8].map(Outcome::Exception)).collect();
        for (&(outcome, _), count) in TABLE.iter().zip(tally.lines) {
            let enough = if met.contains(&outcome) {
                count > 40
            } else {
                count == 0
            };
            assert!(enough, "{outcome:?}: {count}");
        }
        for (function, accepted) in FUNCTIONS.iter().zip(tally.accepted) {
            let enough = accepted.iter().all(|&count| count > 100);
            assert!(enough, "{function:02X}: {accepted:?}");
        }
        for (reading, count) in tally::READINGS.iter().zip(tally.readings) {
            let enough = match reading {
                Reading::Refused(_) | Reading::Exception(1 | 3) => count == 0,
                _ => count > 200,
            };
            assert!(enough, "{reading:?}: {count}");
        }
        assert!(tally.built.iter().all(|&count| count > 300) && spare_bits > 100);
    }

    type Place = (&'static str, fn(&Done, &Calls) -> bool);

    fn refused(done: &Done) -> bool {
        done.told.built == Some(Built::Refused(70))
    }

    fn quantity(done: &Done, functions: &[u8], quantity: u16) -> bool {
        functions.contains(&done.request.function) && done.request.operand == quantity
    }

    const BITS: &[u8] = &[0x01, 0x02, 0x0F];
    const WORDS: &[u8] = &[0x03, 0x04, 0x10];

    /// What the drawn requests to build have to reach, beside each function built.
    #[rustfmt::skip]
    const PLACES: &[Place] = &[
        ("station 0", |d, _| refused(d) && d.request.station == 0),
        ("buffer of 255 bytes", |d, c| refused(d) && c.buffer.len() == 255),
        ("buffer over 256 bytes", |d, c| !refused(d) && c.buffer.len() > 256),
        ("no bits", |d, _| refused(d) && quantity(d, BITS, 0)),
        ("no words", |d, _| refused(d) && quantity(d, WORDS, 0)),
        ("256 bits", |d, _| !refused(d) && quantity(d, BITS, 256)),
        ("257 bits", |d, _| refused(d) && quantity(d, BITS, 257)),
        ("80 words", |d, _| !refused(d) && quantity(d, WORDS, 80)),
        ("81 words", |d, _| refused(d) && quantity(d, WORDS, 81)),
        ("data for 01 to 06", |d, c| refused(d) && d.request.function < 7 && !c.frame.is_empty()),
        ("a byte more of bits", |d, c| refused(d) && d.request.function == 0x0F
            && c.frame.len() == usize::from(d.request.operand).div_ceil(8) + 1),
        ("a byte less of words", |d, c| refused(d) && d.request.function == 0x10
            && c.frame.len() + 1 == usize::from(d.request.operand) * 2),
        ("bit value neither", |d, _| refused(d) && d.request.function == 0x05
            && ![0xFF00, 0].contains(&d.request.operand)),
        ("spare bits set", |d, c| !refused(d) && d.request.function == 0x0F
            && c.frame.last().is_some_and(|last| last >> ((d.request.operand - 1) % 8) > 1)),
    ];

    /// The lines behind the exchanges: requests to build, and replies to read, of which each change shows
    /// as what it is.
    #[test]
    fn drawn_builds_and_readings_reach() {
        let (mut drawing, mut cases) = (Drawing::new(MASTER_SEED), Cases::default());
        let mut line = Vec::new();
        for _ in 0..EXCHANGES {
            drawing.exchange(&mut line);
        }
        let (mut reached, mut built) = (vec![0; PLACES.len()], [0; FUNCTIONS.len()]);
        for _ in 0..BUILDS {
            drawing.build(&mut line);
            let done = done(&mut cases, &line);
            for (count, (_, there)) in reached.iter_mut().zip(PLACES) {
                *count += usize::from(there(&done, &cases.call));
            }
            for (count, function) in built.iter_mut().zip(FUNCTIONS) {
                *count += u32::from(!refused(&done) && done.request.function == function);
            }
        }
        for (count, (name, _)) in reached.iter().zip(PLACES) {
            assert!(*count >= 3, "{name}: {count}");
        }
        assert!(built.iter().all(|&count| count > 60), "{built:?}");

        let (mut tally, mut changes) = (Tally::default(), Vec::new());
        for _ in 0..READINGS {
            let change = drawing.reading(&mut line);
            let Done { told, answer, .. } = done(&mut cases, &line);
            tally.count(&cases.call, told);
            let refused = match told.reading {
                Some(Reading::Refused(number)) => number,
                _ => 0,
            };
            let shown = match change {
                Change::Right => 0,
                Change::Damaged | Change::Short => 71,
                Change::Any => refused,
                _ => 72,
            };
            let text = String::from_utf8_lossy(&line);
            assert!([70, shown].contains(&refused), "{change:?} {text} {answer}");
            if refused != 70 {
                changes.push(change);
            }
        }
        let every = [
            Change::Right,
            Change::Damaged,
            Change::Short,
            Change::Station,
            Change::Function,
            Change::Code,
            Change::Start,
            Change::Operand,
            Change::ByteCount,
            Change::ByteCountAndLength,
            Change::SpareBit,
            Change::Longer,
            Change::Shorter,
            Change::Any,
        ];
        for change in every {
            let count = changes.iter().filter(|one| **one == change).count();
            assert!(count > 40, "{change:?}: {count}");
        }
        let enough = tally.readings.iter().all(|&count| count > 40);
        assert!(enough, "{:?}", tally.readings);
    }
}
