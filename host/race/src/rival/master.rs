//! The master's half: builds requests, and reads replies beside them.

use super::answer::Answer;
use super::check_word::{is_right, seal};
use super::frames::{used_bits, Task, EXCEPTION_BIT, EXCEPTION_LENGTH, SHORT_LENGTH};

#[derive(Clone, Copy)]
pub struct Request {
    pub station: u8,
    pub function: u8,
    pub start: u16,
    /// The quantity, or the value to write.
    pub value: u16,
}

const DATA_AT: usize = 7;

impl Request {
    /// What it asks for; None if it is out of limits.
    fn task(self) -> Option<Task> {
        let task = Task::of(self.function)?;
        let counted = self.value > 0 || !task.has_quantity();
        (self.station != 0 && counted && task.allows(self.value)).then_some(task)
    }

    /// Address, function, start, and quantity or value.
    fn head(self) -> [u8; 6] {
        let [start_high, start_low] = self.start.to_be_bytes();
        let [value_high, value_low] = self.value.to_be_bytes();
        [
            self.station,
            self.function,
            start_high,
            start_low,
            value_high,
            value_low,
        ]
    }
}

pub fn build(request: Request, data: &[u8], frame: &mut [u8]) -> Answer {
    let (Some(task), Some(frame)) = (request.task(), frame.first_chunk_mut()) else {
        return Answer::Refused(70);
    };
    let count = if task.carries_data() {
        task.byte_count(request.value)
    } else {
        0
    };
    if data.len() != count {
        return Answer::Refused(70);
    }
    frame[..6].copy_from_slice(&request.head());
    if count == 0 {
        return Answer::Built(seal(frame, 6));
    }
    frame[6] = count as u8;
    let carried = &mut frame[DATA_AT..DATA_AT + count];
    carried.copy_from_slice(data);
    if task == Task::WriteBits {
        carried[count - 1] &= used_bits(request.value);
    }
    Answer::Built(seal(frame, DATA_AT + count))
}

pub fn read(request: Request, reply: &[u8], out: &mut [u8]) -> Answer {
    let (Some(task), Some(out)) = (request.task(), out.first_chunk_mut()) else {
        return Answer::Refused(70);
    };
    if reply.len() < EXCEPTION_LENGTH || !is_right(reply) {
        return Answer::Refused(71);
    }
    fit(request, task, reply, out).unwrap_or(Answer::Refused(72))
}

/// None if the reply doesn't fit the request.
fn fit(request: Request, task: Task, reply: &[u8], out: &mut [u8; 256]) -> Option<Answer> {
    if reply[0] != request.station {
        return None;
    }
    if reply[1] == request.function | EXCEPTION_BIT {
        let known = matches!(reply[2], 1..=4 | 8);
        return (known && reply.len() == EXCEPTION_LENGTH).then_some(Answer::Exception(reply[2]));
    }
    if reply[1] != request.function {
        return None;
    }
    if !task.reads() {
        let echoed = reply.len() == SHORT_LENGTH && reply[..6] == request.head();
        return echoed.then_some(Answer::Written);
    }
    let count = task.byte_count(request.value);
    if reply.len() != count + 5 || usize::from(reply[2]) != count {
        return None;
    }
    let values = &reply[3..3 + count];
    if task == Task::ReadBits && values[count - 1] & !used_bits(request.value) != 0 {
        return None;
    }
    out[..count].copy_from_slice(values);
    Some(Answer::Values(count))
}
