//! The slave: one received frame in, one answer out, by the lines of the answer table.

use super::answer::Answer;
use super::areas::{survey, Finding, Run};
use super::check_word::{is_right, seal};
use super::frames::{used_bits, Task, BIT_ON, EXCEPTION_BIT, EXCEPTION_LENGTH, SHORT_LENGTH};
use super::registers::{pack_bits, pack_words, store_bit, store_bits, store_words};

#[derive(Clone, Copy)]
pub struct Station {
    pub own: u8,
    pub counting: Counting,
    pub state: State,
}

#[derive(Clone, Copy, PartialEq, Eq)]
pub enum Counting {
    ModBus,
    JBus,
}

#[derive(Clone, Copy, PartialEq, Eq)]
pub enum State {
    Ready,
    NotReady,
    AtTheKeyboard,
}

const MOST_IMAGE_WORDS: usize = 4095;
/// Behind address, function, start and quantity.
const BYTE_COUNT_AT: usize = 6;
const DATA_AT: usize = 7;

/// A request as far as the frame says one.
#[derive(Clone, Copy)]
struct Request {
    task: Task,
    /// The first bit or word, counted from 0.
    first: u16,
    /// The quantity, or the value to write.
    value: u16,
}

impl Request {
    /// None if the function is not in the table, or the frame too short for any.
    fn of(frame: &[u8], counting: Counting) -> Option<Request> {
        let &[_, function, start_high, start_low, value_high, value_low, ..] = frame else {
            return None;
        };
        let start = u16::from_be_bytes([start_high, start_low]);
        Some(Request {
            task: Task::of(function)?,
            first: match counting {
                Counting::ModBus => start,
                // Start 0 becomes word 65,535, or a bit of word 4,095: no image has either.
                Counting::JBus => start.wrapping_sub(1),
            },
            value: u16::from_be_bytes([value_high, value_low]),
        })
    }

    fn quantity(self) -> u16 {
        if self.task.has_quantity() {
            self.value
        } else {
            1
        }
    }

    /// The words that it addresses.
    fn run(self) -> Run {
        let first = usize::from(self.first);
        let end = first + usize::from(self.quantity());
        match self.task {
            Task::ReadWords | Task::WriteWord | Task::WriteWords => Run { first, end },
            Task::ReadBits | Task::WriteBit | Task::WriteBits => Run {
                first: first / 16,
                end: end.div_ceil(16),
            },
        }
    }
}

pub fn respond(
    station: Station,
    areas: &[u16],
    frame: &[u8],
    image: &mut [u16],
    reply: &mut [u8],
) -> Answer {
    if station.own == 0 {
        return Answer::Refused(1);
    }
    if image.is_empty() || image.len() > MOST_IMAGE_WORDS {
        return Answer::Refused(2);
    }
    let request = Request::of(frame, station.counting);
    let run = request.map_or(Run { first: 0, end: 0 }, Request::run);
    let Some(finding) = survey(areas, image.len(), run) else {
        return Answer::Refused(3);
    };
    let Some(reply) = reply.first_chunk_mut() else {
        return Answer::Refused(4);
    };
    match decide(station, finding, frame, request) {
        Decision::Silent(number) => Answer::Silent(number),
        Decision::Exception(code) => {
            except(frame, code, reply);
            Answer::Exception(code)
        }
        Decision::Do(request) => Answer::Reply(carry_out(request, frame, image, reply)),
    }
}

enum Decision {
    Silent(u16),
    Exception(u8),
    Do(Request),
}

/// The lines from 10 on.
fn decide(station: Station, finding: Finding, frame: &[u8], request: Option<Request>) -> Decision {
    if frame.len() < 4 || frame.len() > 256 {
        return Decision::Silent(10);
    }
    if !is_right(frame) {
        return Decision::Silent(11);
    }
    if frame[0] != station.own {
        return Decision::Silent(12);
    }
    match station.state {
        State::AtTheKeyboard => return Decision::Silent(13),
        State::NotReady => return Decision::Exception(4),
        State::Ready => {}
    }
    let Some(request) = request else {
        // A frame that is too short for any function is so for its own.
        return match Task::of(frame[1]) {
            None => Decision::Exception(1),
            Some(_) => Decision::Silent(14),
        };
    };
    let task = request.task;
    let right_length = if task.carries_data() {
        frame
            .get(BYTE_COUNT_AT)
            .map_or(0, |&count| 9 + usize::from(count))
    } else {
        SHORT_LENGTH
    };
    if frame.len() != right_length {
        return Decision::Silent(14);
    }
    if request.quantity() == 0 {
        return Decision::Silent(15);
    }
    if !task.allows(request.value) {
        return Decision::Exception(3);
    }
    if task.carries_data() && usize::from(frame[BYTE_COUNT_AT]) != task.byte_count(request.value) {
        return Decision::Exception(3);
    }
    match finding {
        Finding::SomeInNoArea => Decision::Exception(2),
        Finding::SomeReadOnly if !task.reads() => Decision::Exception(8),
        _ => Decision::Do(request),
    }
}

fn except(frame: &[u8], code: u8, reply: &mut [u8; 256]) {
    reply[0] = frame[0];
    reply[1] = frame[1] | EXCEPTION_BIT;
    reply[2] = code;
    seal(reply, EXCEPTION_LENGTH - 2);
}

/// Does what was decided; gives the length of the reply.
fn carry_out(request: Request, frame: &[u8], image: &mut [u16], reply: &mut [u8; 256]) -> usize {
    let Request { task, first, value } = request;
    let first = usize::from(first);
    match task {
        Task::ReadBits => {
            let count = head(frame, task.byte_count(value), reply);
            let bytes = &mut reply[3..3 + count];
            pack_bits(image, first, bytes);
            bytes[count - 1] &= used_bits(value);
            seal(reply, 3 + count)
        }
        Task::ReadWords => {
            let count = head(frame, task.byte_count(value), reply);
            let words = &image[first..first + usize::from(value)];
            pack_words(words, &mut reply[3..3 + count]);
            seal(reply, 3 + count)
        }
        Task::WriteBit => {
            store_bit(image, first, value == BIT_ON);
            echo(frame, reply)
        }
        Task::WriteWord => {
            image[first] = value;
            echo(frame, reply)
        }
        Task::WriteBits => {
            let bytes = &frame[DATA_AT..frame.len() - 2];
            store_bits(image, first, usize::from(value), bytes);
            confirm(frame, reply)
        }
        Task::WriteWords => {
            let words = &mut image[first..first + usize::from(value)];
            store_words(words, &frame[DATA_AT..frame.len() - 2]);
            confirm(frame, reply)
        }
    }
}

/// The three bytes before the data of a read reply; gives the byte count.
fn head(frame: &[u8], count: usize, reply: &mut [u8; 256]) -> usize {
    reply[..2].copy_from_slice(&frame[..2]);
    reply[2] = count as u8;
    count
}

/// The reply to 05 and 06 is the request, and so is its check word.
fn echo(frame: &[u8], reply: &mut [u8; 256]) -> usize {
    reply[..SHORT_LENGTH].copy_from_slice(&frame[..SHORT_LENGTH]);
    SHORT_LENGTH
}

/// The reply to 0F and 10 is the request up to the quantity.
fn confirm(frame: &[u8], reply: &mut [u8; 256]) -> usize {
    reply[..BYTE_COUNT_AT].copy_from_slice(&frame[..BYTE_COUNT_AT]);
    seal(reply, BYTE_COUNT_AT)
}
