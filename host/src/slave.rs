//! The slave of document 01: one call in, one outcome out. The answer table stands here line by line.

use crate::bits::Image;
use crate::check_word::{check_word, seal};

#[derive(Clone, Copy, PartialEq, Eq, Debug)]
pub enum Counting {
    ModBus,
    JBus,
}

#[derive(Clone, Copy, PartialEq, Eq, Debug)]
pub enum State {
    Ready,
    NotReady,
    Keyboard,
}

#[derive(Clone, Copy, PartialEq, Eq, Debug)]
pub struct Station {
    pub own: u8,
    pub counting: Counting,
    pub state: State,
}

#[derive(Clone, Copy, PartialEq, Eq, Debug)]
pub struct Area {
    pub first: u16,
    pub count: u16,
    pub writable: bool,
}

impl Area {
    pub fn end(self) -> usize {
        usize::from(self.first) + usize::from(self.count)
    }

    pub fn has(self, word: usize) -> bool {
        (usize::from(self.first)..self.end()).contains(&word)
    }
}

#[derive(Clone, Copy, PartialEq, Eq, Debug)]
pub enum Outcome {
    Refused(u8),
    Silent(u8),
    Exception(u8),
    Reply,
}

use Outcome::{Exception, Refused, Silent};

type Line = (Outcome, fn(&Call) -> bool);

/// "What is answered, in this order". A line is only asked when none above it applies.
#[rustfmt::skip]
pub const TABLE: [Line; 15] = [
    (Refused(1),   |c| c.station.own == 0),
    (Refused(2),   |c| c.words == 0 || c.words > 4095),
    (Refused(3),   |c| c.areas.len() > 16 || !in_order(c.areas, c.words)),
    (Refused(4),   |c| c.buffer < 256),
    (Silent(10),   |c| c.frame.len() < 4 || c.frame.len() > 256),
    (Silent(11),   |c| !c.check_word_is_right()),
    (Silent(12),   |c| c.byte(0) == 0 || c.byte(0) != usize::from(c.station.own)),
    (Silent(13),   |c| c.station.state == State::Keyboard),
    (Exception(4), |c| c.station.state == State::NotReady),
    (Exception(1), |c| c.form.task == Task::None),
    (Silent(14),   |c| c.frame.len() != c.right_length()),
    (Silent(15),   |c| c.quantity() == 0),
    (Exception(3), |c| c.quantity() > c.form.most || c.byte_count_is_off() || c.bit_value_is_off()),
    (Exception(2), |c| c.first().is_none() || c.addressed().any(|word| c.area_of(word).is_none())),
    (Exception(8), |c| c.form.task != Task::Read && c.addressed().any(|word| !c.may_write(word))),
];

#[derive(Clone, Copy, PartialEq, Eq)]
enum Task {
    None,
    Read,
    WriteOne,
    WriteMany,
}

/// A line of the paper's table of frames; a unit has 1 bit or 16.
#[derive(Clone, Copy)]
struct Form {
    task: Task,
    unit: usize,
    most: usize,
}

impl Form {
    fn of(function: usize) -> Form {
        let (task, unit, most) = match function {
            0x01 | 0x02 => (Task::Read, 1, 256),
            0x03 | 0x04 => (Task::Read, 16, 80),
            0x05 => (Task::WriteOne, 1, 1),
            0x06 => (Task::WriteOne, 16, 1),
            0x0F => (Task::WriteMany, 1, 256),
            0x10 => (Task::WriteMany, 16, 80),
            _ => (Task::None, 1, 0),
        };
        Form { task, unit, most }
    }

    /// Where the data byte stands that carries bit `bit` of a run: words travel high byte first.
    fn data_byte(self, bit: usize) -> usize {
        if self.unit == 16 {
            (bit / 8) ^ 1
        } else {
            bit / 8
        }
    }
}

/// What the table looks at: everything of a call but what its words and reply bytes hold.
pub struct Call<'a> {
    station: Station,
    areas: &'a [Area],
    words: usize,
    buffer: usize,
    frame: &'a [u8],
    form: Form,
}

/// Each area has a word, starts no earlier than the one before it ends, and ends inside the image.
fn in_order(areas: &[Area], words: usize) -> bool {
    let mut free = 0;
    areas.iter().all(|area| {
        let fits = area.count > 0 && usize::from(area.first) >= free && area.end() <= words;
        free = area.end();
        fits
    })
}

impl Call<'_> {
    fn byte(&self, at: usize) -> usize {
        self.frame.get(at).copied().map_or(0, usize::from)
    }

    fn number(&self, at: usize) -> usize {
        self.byte(at) * 256 + self.byte(at + 1)
    }

    fn check_word_is_right(&self) -> bool {
        let rest = self.frame.len().saturating_sub(2);
        self.frame[rest..] == check_word(&self.frame[..rest]).to_le_bytes()
    }

    /// Of a frame under 9 bytes it is never the length of 0F or 10, whatever stands at byte 6.
    fn right_length(&self) -> usize {
        match self.form.task {
            Task::WriteMany => 9 + self.byte(6),
            _ => 8,
        }
    }

    fn quantity(&self) -> usize {
        match self.form.task {
            Task::WriteOne => 1,
            _ => self.number(4),
        }
    }

    /// How many bits of the image the request names.
    fn run(&self) -> usize {
        self.quantity() * self.form.unit
    }

    fn byte_count_is_off(&self) -> bool {
        self.form.task == Task::WriteMany && self.byte(6) != self.run().div_ceil(8)
    }

    fn bit_value_is_off(&self) -> bool {
        let one_bit = self.form.task == Task::WriteOne && self.form.unit == 1;
        one_bit && ![0xFF00, 0x0000].contains(&self.number(4))
    }

    /// The first bit of the image that the request names; none for J-Bus start 0.
    fn first(&self) -> Option<usize> {
        let start = match self.station.counting {
            Counting::ModBus => Some(self.number(2)),
            Counting::JBus => self.number(2).checked_sub(1),
        };
        start.map(|start| start * self.form.unit)
    }

    fn addressed(&self) -> std::ops::Range<usize> {
        let first = self.first().unwrap_or(0);
        first / 16..(first + self.run()).div_ceil(16)
    }

    fn area_of(&self, word: usize) -> Option<&Area> {
        self.areas.iter().find(|area| area.has(word))
    }

    fn may_write(&self, word: usize) -> bool {
        self.area_of(word).is_some_and(|area| area.writable)
    }

    /// Does what no line of the table stood against; gives the reply without its check word.
    fn carry_out(&self, image: &mut Image) -> Vec<u8> {
        let first = self.first().unwrap_or(0);
        let (head, data) = match self.form.task {
            Task::WriteMany => (6, 7),
            Task::WriteOne => (6, 4),
            _ => (2, 0),
        };
        let mut reply = Vec::with_capacity(256);
        reply.extend(&self.frame[..head]);
        if self.form.task == Task::Read {
            let count = self.run().div_ceil(8);
            reply.push(count as u8);
            reply.resize(3 + count, 0);
            for bit in (0..self.run()).filter(|bit| image.bit(first + bit)) {
                reply[3 + self.form.data_byte(bit)] |= 1 << (bit % 8);
            }
        } else {
            for bit in 0..self.run() {
                let carrier = self.byte(data + self.form.data_byte(bit));
                image.set_bit(first + bit, carrier >> (bit % 8) & 1 == 1);
            }
        }
        reply
    }
}

/// The outcome, and how many bytes of the reply buffer were written.
pub fn answer(
    station: Station,
    areas: &[Area],
    image: &mut Image,
    buffer: &mut [u8],
    frame: &[u8],
) -> (Outcome, usize) {
    let form = Form::of(frame.get(1).copied().map_or(0, usize::from));
    let (words, length) = (image.words(), buffer.len());
    let call = Call {
        station,
        areas,
        words,
        buffer: length,
        frame,
        form,
    };
    let decided = TABLE.iter().find(|(_, applies)| applies(&call));
    let outcome = decided.map_or(Outcome::Reply, |(outcome, _)| *outcome);
    let mut reply = match outcome {
        Refused(_) | Silent(_) => return (outcome, 0),
        Exception(code) => vec![frame[0], frame[1] | 0x80, code],
        Outcome::Reply => call.carry_out(image),
    };
    seal(&mut reply);
    buffer[..reply.len()].copy_from_slice(&reply);
    (outcome, reply.len())
}
