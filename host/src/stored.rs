//! The stored input of `cases`: all lists, then drawn lines from fixed seeds.

use crate::drawn::Drawing;
use crate::lists::{of_entries, of_groups};
use crate::{builds, edges, exchanges, malformed, published, readings};
use std::io::{self, Write};

/// The drawn calls of the slave.
pub const SEED: u64 = 20_011_201;
pub const COUNT: u64 = 20_000;

/// The drawn lines of the master's half, in this order.
pub const MASTER_SEED: u64 = 20_020_301;
pub const EXCHANGES: u64 = 10_000;
pub const BUILDS: u64 = 1_200;
pub const READINGS: u64 = 3_000;

/// What the lists for the slave and for the master's half have, without what is given for it.
fn listed() -> impl Iterator<Item = Vec<u8>> {
    let slave = of_groups(published::MANUAL)
        .chain(of_entries(published::PUBLIC))
        .chain(of_entries(edges::LENT))
        .chain(of_groups(edges::FRAMES))
        .chain(edges::pairs())
        .map(|(_, line)| line)
        .chain(edges::every_function());
    let master = of_entries(builds::BUILDS)
        .chain(builds::limits())
        .chain(of_entries(readings::READINGS))
        .chain(readings::misfits())
        .chain(readings::exceptions())
        .chain(readings::spare_bits())
        .chain(readings::limits())
        .chain(readings::orders())
        .chain(of_groups(exchanges::EXCHANGES))
        .chain(exchanges::outcomes())
        .map(|(_, line)| line)
        .chain(exchanges::published().into_iter().map(|(_, line)| line));
    slave.chain(master).map(String::into_bytes)
}

/// The last line has no line feed, and counts all the same.
pub fn write(output: &mut impl Write) -> io::Result<()> {
    for line in listed().chain(malformed::lines()) {
        write_line(&line, output)?;
    }
    let mut line = Vec::new();
    let mut drawing = Drawing::new(MASTER_SEED);
    for place in 0..EXCHANGES + BUILDS + READINGS {
        match place {
            0..EXCHANGES => drawing.exchange(&mut line),
            _ if place < EXCHANGES + BUILDS => drawing.build(&mut line),
            _ => {
                drawing.reading(&mut line);
            }
        }
        write_line(&line, output)?;
    }
    let mut drawing = Drawing::new(SEED);
    for _ in 1..COUNT {
        drawing.call(&mut line);
        write_line(&line, output)?;
    }
    drawing.call(&mut line);
    output.write_all(&line)
}

fn write_line(line: &[u8], output: &mut impl Write) -> io::Result<()> {
    output.write_all(line)?;
    output.write_all(b"\n")
}

#[cfg(test)]
mod tests {
    use super::*;
    use crate::calls::Calls;
    use crate::cases::Told;
    use crate::drawn::{Damage, FUNCTIONS};
    use crate::slave::{Counting, Outcome, State};
    use crate::tally::Tally;
    use std::ops::RangeInclusive;

    /// A drawn call, how its frame was damaged, and what was answered.
    struct Seen<'a> {
        call: &'a Calls,
        damage: Option<Damage>,
        outcome: Outcome,
    }

    impl Seen<'_> {
        fn number(&self, at: usize) -> usize {
            let byte = |at: usize| self.call.frame.get(at).copied().map_or(0, usize::from);
            byte(at) * 256 + byte(at + 1)
        }

        fn is(&self, functions: &[u8]) -> bool {
            self.call
                .frame
                .get(1)
                .is_some_and(|function| functions.contains(function))
        }

        fn accepted(&self, functions: &[u8]) -> bool {
            self.outcome == Outcome::Reply && self.is(functions)
        }

        fn byte_count_over(&self, over: isize) -> bool {
            let right = match self.is(&[0x10]) {
                true => self.number(4) * 2,
                false => self.number(4).div_ceil(8),
            };
            let got = self.number(6) / 256;
            self.outcome == Outcome::Exception(3) && got as isize == right as isize + over
        }

        /// The words addressed, for a request that came as far as E2.
        fn words(&self) -> Option<RangeInclusive<usize>> {
            let exceptions = [2, 8].map(Outcome::Exception);
            if self.outcome != Outcome::Reply && !exceptions.contains(&self.outcome) {
                return None;
            }
            let quantity = if self.is(&[0x05, 0x06]) {
                1
            } else {
                self.number(4)
            };
            let j_bus = usize::from(self.call.station.counting == Counting::JBus);
            let first = self.number(2).checked_sub(j_bus)?;
            let per_word = if self.is(BITS) { 16 } else { 1 };
            Some(first / per_word..=(first + quantity - 1) / per_word)
        }

        fn area_of(&self, word: usize) -> Option<usize> {
            self.call.areas.iter().position(|area| area.has(word))
        }

        /// The areas of the first and the last word addressed, where each is in one.
        fn ends(&self) -> Option<(usize, usize)> {
            let words = self.words()?;
            Some((self.area_of(*words.start())?, self.area_of(*words.end())?))
        }

        fn runs_across(&self) -> bool {
            self.outcome == Outcome::Reply && self.ends().is_some_and(|(one, other)| one < other)
        }

        fn steps_over_a_hole(&self) -> bool {
            self.outcome == Outcome::Exception(2) && self.ends().is_some()
        }

        fn frame_of(&self, lengths: RangeInclusive<usize>) -> bool {
            lengths.contains(&self.call.frame.len())
        }
    }

    const BITS: &[u8] = &[0x01, 0x02, 0x05, 0x0F];
    const WRITES: &[u8] = &[0x05, 0x06, 0x0F, 0x10];

    type Place = (&'static str, fn(&Seen) -> bool);

    #[rustfmt::skip]
    const PLACES: &[Place] = &[
        ("own address 1", |s| s.call.station.own == 1),
        ("own address 255", |s| s.call.station.own == 255),
        ("not ready", |s| s.call.station.state == State::NotReady),
        ("at the keyboard", |s| s.call.station.state == State::Keyboard),
        ("image of 0 words", |s| s.call.image.words() == 0),
        ("image of 1 word", |s| s.call.image.words() == 1 && s.outcome == Outcome::Reply),
        ("image of 4,095 words", |s| s.call.image.words() == 4095 && s.outcome == Outcome::Reply),
        ("image of 4,096 words", |s| s.call.image.words() == 4096),
        ("no area", |s| s.call.areas.is_empty()),
        ("1 area", |s| s.call.areas.len() == 1),
        ("16 areas", |s| s.call.areas.len() == 16 && s.outcome == Outcome::Reply),
        ("17 areas", |s| s.call.areas.len() == 17),
        ("buffer of 255 bytes", |s| s.call.buffer.len() == 255),
        ("buffer of under 255 bytes", |s| s.call.buffer.len() < 255),
        ("buffer of 256 bytes", |s| s.call.buffer.len() == 256 && s.outcome == Outcome::Reply),
        ("buffer of over 256 bytes", |s| s.call.buffer.len() > 256 && s.outcome == Outcome::Reply),
        ("frame of 0 bytes", |s| s.frame_of(0..=0)),
        ("frame of 1 byte", |s| s.frame_of(1..=1)),
        ("frame of 2 bytes", |s| s.frame_of(2..=2)),
        ("frame of 3 bytes", |s| s.frame_of(3..=3)),
        ("frame of 4 bytes", |s| s.frame_of(4..=4) && s.outcome == Outcome::Exception(1)),
        ("frame of 5 to 7 bytes", |s| s.frame_of(5..=7)),
        ("frame of 8 bytes", |s| s.frame_of(8..=8)),
        ("frame of 9 to 50 bytes", |s| s.frame_of(9..=50)),
        ("frame of 51 to 168 bytes", |s| s.frame_of(51..=168)),
        ("frame of 169 bytes", |s| s.frame_of(169..=169) && s.accepted(&[0x10])),
        ("frame of 170 to 254 bytes", |s| s.frame_of(170..=254)),
        ("frame of 255 bytes", |s| s.frame_of(255..=255)),
        ("frame of 256 bytes", |s| s.frame_of(256..=256) && s.outcome == Outcome::Exception(1)),
        ("frame of 257 bytes", |s| s.frame_of(257..=257)),
        ("frame of 258 to 300 bytes", |s| s.frame_of(258..=300)),
        ("two flips", |s| s.damage == Some(Damage::TwoFlips)),
        ("an odd number of flips", |s| s.damage == Some(Damage::OddFlips)),
        ("flips inside 16 neighbours", |s| s.damage == Some(Damage::Near)),
        ("read across touching areas", |s| s.runs_across() && !s.is(WRITES)),
        ("write across touching areas", |s| s.runs_across() && s.is(WRITES)),
        ("read over a hole", |s| s.steps_over_a_hole() && !s.is(WRITES)),
        ("write over a hole", |s| s.steps_over_a_hole() && s.is(WRITES)),
        ("write from read-write into read-only", |s| s.outcome == Outcome::Exception(8)
            && s.ends().is_some_and(|(one, _)| s.call.areas[one].writable)),
        ("write over a read-only word between", |s| s.outcome == Outcome::Exception(8)
            && s.ends().is_some_and(|(one, last)| s.call.areas[one].writable && s.call.areas[last].writable)),
        ("write that ends at its area's end", |s| s.accepted(WRITES)
            && s.words().zip(s.ends()).is_some_and(|(words, (_, last))| words.end() + 1 == s.call.areas[last].end())),
        ("J-Bus start 0", |s| s.call.station.counting == Counting::JBus && s.number(2) == 0
            && s.outcome == Outcome::Exception(2)),
        ("start near 65,535", |s| s.number(2) > 65_500 && s.outcome == Outcome::Exception(2)),
        ("start 65,535", |s| s.number(2) == 65_535 && s.outcome == Outcome::Exception(2)),
        ("255 bits", |s| s.accepted(BITS) && s.number(4) == 255),
        ("256 bits read", |s| s.accepted(&[0x01, 0x02]) && s.number(4) == 256),
        ("256 bits written", |s| s.accepted(&[0x0F]) && s.number(4) == 256),
        ("257 bits", |s| s.outcome == Outcome::Exception(3) && s.is(BITS) && s.number(4) == 257),
        ("79 words", |s| s.accepted(&[0x03, 0x04, 0x10]) && s.number(4) == 79),
        ("80 words read", |s| s.accepted(&[0x03, 0x04]) && s.number(4) == 80),
        ("80 words written", |s| s.accepted(&[0x10]) && s.number(4) == 80),
        ("81 words", |s| s.outcome == Outcome::Exception(3) && !s.is(BITS) && s.number(4) == 81),
        ("byte count of bits one over", |s| s.is(&[0x0F]) && s.byte_count_over(1)),
        ("byte count of bits one under", |s| s.is(&[0x0F]) && s.byte_count_over(-1)),
        ("byte count of words one over", |s| s.is(&[0x10]) && s.byte_count_over(1)),
        ("byte count of words one under", |s| s.is(&[0x10]) && s.byte_count_over(-1)),
        ("bit on", |s| s.accepted(&[0x05]) && s.number(4) == 0xFF00),
        ("bit off", |s| s.accepted(&[0x05]) && s.number(4) == 0x0000),
        ("bit neither", |s| s.is(&[0x05]) && s.outcome == Outcome::Exception(3)),
        ("spare bits written", |s| s.accepted(&[0x0F]) && s.number(4) % 8 != 0),
        ("spare bits read", |s| s.accepted(&[0x01, 0x02]) && s.number(4) % 8 != 0),
    ];

    /// The drawn calls of the stored input reach every place a few times, and damage always shows.
    #[test]
    fn drawn_calls_reach() {
        let (mut drawing, mut calls, mut line) = (Drawing::new(SEED), Calls::default(), Vec::new());
        let (mut tally, mut reached) = (Tally::default(), vec![0; PLACES.len()]);
        for _ in 0..COUNT {
            let damage = drawing.call(&mut line);
            let text = String::from_utf8_lossy(&line).into_owned();
            assert!(calls.read(&line).is_some(), "{text}");
            let outcome = calls.make(&mut Vec::new());
            let told = Told {
                outcome: Some(outcome),
                ..Told::default()
            };
            tally.count(&calls, told);
            let shows = matches!(outcome, Outcome::Refused(_) | Outcome::Silent(11));
            assert!(damage.is_none() || shows, "{damage:?} {text}");
            let seen = Seen {
                call: &calls,
                damage,
                outcome,
            };
            for (count, (_, there)) in reached.iter_mut().zip(PLACES) {
                *count += usize::from(there(&seen));
            }
        }
        for (count, (name, _)) in reached.iter().zip(PLACES) {
            assert!(*count >= 5, "{name}: {count}");
        }
        assert!(
            tally.lines.iter().all(|&count| count > 50),
            "{:?}",
            tally.lines
        );
        for (function, accepted) in FUNCTIONS.iter().zip(tally.accepted) {
            assert!(
                accepted.iter().all(|&count| count > 300),
                "{function:02X}: {accepted:?}"
            );
        }
    }
}
