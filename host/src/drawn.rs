//! Drawn calls: mostly right requests near the borders of areas, and each rule broken now and then.

use crate::check_word::seal;
use crate::hex;
use crate::random::Random;
use crate::slave::{Area, Counting, State, Station};

/// How a right frame was damaged on the line; the third demand says that the check word shows each.
#[derive(Clone, Copy, PartialEq, Eq, Debug)]
pub enum Damage {
    TwoFlips,
    OddFlips,
    Near,
}

pub const FUNCTIONS: [u8; 8] = [0x01, 0x02, 0x03, 0x04, 0x05, 0x06, 0x0F, 0x10];

pub struct Drawing {
    pub random: Random,
    pub areas: Vec<Area>,
    pub frame: Vec<u8>,
}

impl Drawing {
    pub fn new(seed: u64) -> Drawing {
        Drawing {
            random: Random::new(seed),
            areas: Vec::new(),
            frame: Vec::new(),
        }
    }

    /// Draws a call and puts its line, without a line feed, in place of what `line` held.
    pub fn call(&mut self, line: &mut Vec<u8>) -> Option<Damage> {
        let (station, words) = self.settings();
        let damage = self.draw_frame(station, words);
        line.clear();
        self.write_settings(station, words, line);
        self.write_ends(line);
        damage
    }

    /// A station and how many words its image has; the areas are in `self.areas`.
    pub fn settings(&mut self) -> (Station, usize) {
        let station = self.station();
        let words = self.words();
        self.draw_areas(words);
        if self.random.in_thousand(25) {
            self.break_areas(words);
        }
        (station, words)
    }

    fn station(&mut self) -> Station {
        Station {
            own: match self.random.below(100) {
                0 => 0,
                1..=4 => 1,
                5..=8 => 255,
                _ => self.random.between(1, 255) as u8,
            },
            counting: self.random.one_of([Counting::ModBus, Counting::JBus]),
            state: match self.random.below(100) {
                0..=2 => State::Keyboard,
                3..=5 => State::NotReady,
                _ => State::Ready,
            },
        }
    }

    fn words(&mut self) -> usize {
        match self.random.below(100) {
            0 => self.random.one_of([0, 1, 4094, 4095, 4096, 4097, 8192]),
            1..=2 => 1,
            3 => self.random.between(1000, 4095),
            4 => 4095,
            5..=24 => self.random.between(81, 300),
            _ => self.random.between(2, 40),
        }
    }

    /// A list that keeps every rule: some areas touch, some leave a hole.
    fn draw_areas(&mut self, words: usize) {
        self.areas.clear();
        let most = match self.random.below(20) {
            0 => 0,
            1 => 16,
            2..=9 => 1,
            _ => self.random.between(2, 6),
        };
        let mut free = if self.random.in_thousand(600) {
            0
        } else {
            self.random.below(words / 4 + 1)
        };
        while self.areas.len() < most && free < words {
            let left = words - free;
            let share = (left / (most - self.areas.len())).max(1);
            let count = match self.random.below(4) {
                0 => share,
                1 if self.areas.len() + 1 == most => left,
                2 => self.random.between(1, share.min(2)),
                _ => self.random.between(1, share),
            };
            let writable = self.random.in_thousand(750);
            self.areas.push(Area {
                first: free as u16,
                count: count as u16,
                writable,
            });
            free += count;
            if self.random.in_thousand(300) {
                free += self.random.between(1, 3);
            }
        }
    }

    fn break_areas(&mut self, words: usize) {
        let kind = self.random.below(6);
        if kind == 0 {
            let single = |place| Area {
                first: place,
                count: 1,
                writable: true,
            };
            self.areas = (0..17).map(single).collect();
            return;
        }
        let listed = self.areas.len();
        let place = self.random.below(listed);
        let next = place + 1;
        let Some(area) = self.areas.get_mut(place) else {
            return;
        };
        match kind {
            1 => area.count = 0,
            2 => area.count += 1,
            3 => area.count = (words + 1 - usize::from(area.first)) as u16,
            4 => area.count = 0u16.wrapping_sub(area.first).wrapping_add(1),
            _ if next < listed => self.areas.swap(place, next),
            _ => area.first = area.first.wrapping_sub(1),
        }
    }

    /// A frame for a station, the areas drawn last and that many words, in `self.frame`.
    pub fn draw_frame(&mut self, station: Station, words: usize) -> Option<Damage> {
        self.frame.clear();
        if self.random.in_thousand(15) {
            self.any_bytes(station.own);
            return None;
        }
        let address = match self.random.below(100) {
            0 => 0,
            1..=2 => self.random.byte(),
            _ => station.own,
        };
        self.frame.push(address);
        if self.random.in_thousand(25) {
            let other = [
                0x00, 0x07, 0x08, 0x0E, 0x11, 0x16, 0x17, 0x2B, 0x7F, 0x81, 0x83, 0x90, 0xFF,
            ];
            let function = self.random.one_of(other);
            self.frame.push(function);
            let length = self.random.below(9);
            self.any_data(length);
        } else {
            self.request(station.counting, words);
        }
        if self.random.in_thousand(20) {
            if self.random.in_thousand(500) && self.frame.len() > 2 {
                self.frame.pop();
            } else {
                let more = self.random.between(1, 3);
                self.any_data(more);
            }
        }
        seal(&mut self.frame);
        let damaged = self.random.in_thousand(40) && (4..=256).contains(&self.frame.len());
        damaged.then(|| self.damage())
    }

    pub fn any_data(&mut self, length: usize) {
        for _ in 0..length {
            self.frame.push(self.random.byte());
        }
    }

    /// A frame of any length, for the station or not, its check word right or not.
    fn any_bytes(&mut self, own: u8) {
        let length = match self.random.below(4) {
            0 => self.random.below(6),
            1 => self.random.between(255, 258),
            2 => self.random.below(40),
            _ => self.random.below(301),
        };
        self.any_data(length);
        if self.random.in_thousand(700) && length > 3 {
            self.frame[0] = own;
            if self.random.in_thousand(500) {
                self.frame[1] = self.random.one_of(FUNCTIONS);
            }
            self.frame.truncate(length - 2);
            seal(&mut self.frame);
        }
    }

    /// Puts a request behind its address: function, start, and what follows up to the check word.
    pub fn request(&mut self, counting: Counting, words: usize) {
        let any = self.random.one_of(FUNCTIONS);
        let function = self
            .random
            .one_of([any, any, any, any, any, any, 0x0F, 0x10]);
        self.frame.push(function);
        let (unit, most) = match function {
            0x01 | 0x02 | 0x05 | 0x0F => (1, 256),
            _ => (16, 80),
        };
        let (place, room, far) = self.place(words, 16 / unit);
        let start = match counting {
            _ if self.random.in_thousand(10) => 0,
            Counting::ModBus => place,
            Counting::JBus => place + 1,
        };
        self.two_bytes(start as u16);
        match function {
            0x05 => {
                let on_or_off = self.random.one_of([0xFF00, 0x0000]);
                let off = [0xFF01, 0x0001, 0x00FF, 0x0100, 0xFE00, 0x8000, 0xFFFF];
                let other = self.random.one_of(off);
                let right = self.random.in_thousand(900);
                self.two_bytes(if right { on_or_off } else { other });
            }
            0x06 => {
                let value = self.random.word();
                self.two_bytes(value);
            }
            _ => {
                let quantity = self.quantity(room, far, most, 16 / unit);
                self.two_bytes(quantity as u16);
                if function >= 0x0F {
                    self.written(quantity * unit);
                }
            }
        }
    }

    /// An address in units, `per_word` of them in a word; how many units there are from it to the end
    /// of its area or of one behind it; whether it is one behind it.
    fn place(&mut self, words: usize, per_word: usize) -> (usize, usize, bool) {
        let kind = self.random.below(100);
        let index = self.random.below(self.areas.len());
        let place = match self.areas.get(index) {
            Some(area) if kind > 7 => {
                let (first, end) = (usize::from(area.first) * per_word, area.end() * per_word);
                match kind {
                    8..=14 => first.saturating_sub(self.random.between(1, per_word)),
                    15..=40 => first,
                    41..=60 => end.saturating_sub(self.random.between(1, 2 * per_word)),
                    _ => self.random.between(first, end.saturating_sub(1)),
                }
            }
            _ => match kind {
                0 => 65_535 - self.random.below(3),
                1 => 65_535 - self.random.below(40),
                2 => 0,
                3 => usize::from(self.random.word()),
                _ => (words * per_word + 2).saturating_sub(self.random.below(5)),
            },
        };
        let listed = self.areas.len();
        let inside = self
            .areas
            .iter()
            .position(|area| area.has(place / per_word));
        let (mut room, mut far) = (1, false);
        if let Some(index) = inside {
            far = index + 1 < listed && self.random.in_thousand(350);
            let last = if far {
                self.random.between(index + 1, listed - 1)
            } else {
                index
            };
            room = (self.areas[last].end() * per_word)
                .saturating_sub(place)
                .max(1);
        }
        (place.min(65_535), room, far)
    }

    fn quantity(&mut self, room: usize, far: bool, most: usize, per_word: usize) -> usize {
        match self.random.below(100) {
            0..=2 => 0,
            3..=7 => self.random.one_of([most - 1, most, most + 1]),
            8 => self
                .random
                .one_of([most + 1, most + 2, 0x0100, 0x0101, 0x8001, 0xFFFF]),
            9..=14 if room > most => self.random.one_of([most - 1, most]),
            9..=14 => room.min(most),
            15..=17 => (room + 1).min(most),
            18..=25 => (room + per_word * self.random.between(1, 5)).min(most),
            26..=29 => self.random.between(1, room.min(most)),
            _ if far => (room - self.random.below(per_word.min(room))).min(most),
            30..=50 => self.random.between(1, room.min(40).min(most / 8)),
            _ => self.random.between(1, room.min(9)),
        }
    }

    /// The byte count and the bytes of a request that writes a run of bits.
    fn written(&mut self, run: usize) {
        let right = run.div_ceil(8).min(247);
        let count = match self.random.below(100) {
            0..=1 => right + 1,
            2..=3 => right.saturating_sub(1),
            4 => self.random.below(8),
            _ => right,
        };
        self.frame.push(count as u8);
        self.any_data(count);
    }

    pub fn two_bytes(&mut self, value: u16) {
        self.frame.extend(value.to_be_bytes());
    }

    fn flip(&mut self, line_bit: usize) {
        self.frame[line_bit / 8] ^= 1 << (line_bit % 8);
    }

    pub fn damage(&mut self) -> Damage {
        let bits = self.frame.len() * 8;
        let kind = self
            .random
            .one_of([Damage::TwoFlips, Damage::OddFlips, Damage::Near]);
        match kind {
            Damage::TwoFlips => {
                let one = self.random.below(bits);
                let apart = self.random.between(1, bits - 1);
                self.flip(one);
                self.flip((one + apart) % bits);
            }
            Damage::OddFlips => {
                // An odd number of flips leaves an odd number of bits flipped, wherever they fall.
                for _ in 0..self.random.below(6) * 2 + 1 {
                    let place = self.random.below(bits);
                    self.flip(place);
                }
            }
            Damage::Near => {
                let first = self.random.below(bits - 15);
                let pattern = self.random.between(1, 0xFFFF);
                for k in (0..16).filter(|k| pattern >> k & 1 == 1) {
                    self.flip(first + k);
                }
            }
        }
        kind
    }

    /// Station, areas and image, with their bars.
    pub fn write_settings(&mut self, station: Station, words: usize, line: &mut Vec<u8>) {
        self.number(usize::from(station.own), line);
        line.extend(match station.counting {
            Counting::ModBus => b" m ",
            Counting::JBus => b" j ",
        });
        line.extend(match station.state {
            State::Ready => b"r|",
            State::NotReady => b"n|",
            State::Keyboard => b"k|",
        });
        for index in 0..self.areas.len() {
            let Area {
                first,
                count,
                writable,
            } = self.areas[index];
            if index > 0 {
                line.push(b',');
            }
            self.numbers([usize::from(first), usize::from(count)], line);
            line.extend(if writable { b" w" } else { b" r" });
        }
        line.push(b'|');
        let value = usize::from(self.random.word());
        let (start, step) = self
            .random
            .one_of([(0, 0), (65_535, 0), (value, 7), (0, value)]);
        self.numbers([words, start, step], line);
        let settings = self.random.one_of([0, 0, 0, 1, 2]);
        for _ in 0..settings.min(words) {
            line.push(b',');
            let (place, value) = (self.random.below(words), self.random.word());
            self.numbers([place, usize::from(value)], line);
        }
        line.push(b'|');
    }

    /// A lent buffer, and the bytes of `self.frame`.
    pub fn write_ends(&mut self, line: &mut Vec<u8>) {
        let bytes = match self.random.below(100) {
            0 => 255,
            1 => self.random.below(512),
            2..=10 => self.random.between(257, 512),
            _ => 256,
        };
        let (start, step) = self.random.one_of([(170, 0), (0, 1), (85, 3), (255, 255)]);
        self.numbers([bytes, start, step], line);
        line.push(b'|');
        let frame = line.len();
        hex::write(&self.frame, line);
        if self.random.in_thousand(50) {
            line[frame..].make_ascii_lowercase();
        }
    }

    pub fn numbers<const N: usize>(&mut self, values: [usize; N], line: &mut Vec<u8>) {
        for (index, value) in values.into_iter().enumerate() {
            if index > 0 {
                line.push(b' ');
            }
            self.number(value, line);
        }
    }

    fn number(&mut self, value: usize, line: &mut Vec<u8>) {
        if self.random.in_thousand(2) {
            let zeros = self.random.between(1, 8);
            line.resize(line.len() + zeros, b'0');
        }
        line.extend(value.to_string().bytes());
    }
}
