//! The same calls through the wrapper, as far as its types can say them.

use crate::call::{self, answer, Ask, Call, Left, Made, Respond, Ways};
use crate::raw::Rooms;
use montrakit::{Access, Area, Built, Counting, Outcome, Reading, Request, State, Station, Task};

/// An answer and what was handed back with it: the bytes that it says are written.
type Told = (u32, Vec<u8>);

/// None for a call that the wrapper cannot make.
pub fn make(rooms: &mut Rooms, call: &Call, ways: Ways) -> Option<Made> {
    match call {
        Call::Respond(call) => respond(rooms, call, ways),
        Call::Build(ask) => {
            let request = request(ask)?;
            Some(master(rooms, ask, ways, |given, lent| {
                built(montrakit::build(request, given, lent))
            }))
        }
        Call::Read(ask) => {
            let request = request(ask)?;
            Some(master(rooms, ask, ways, |given, lent| {
                read(montrakit::read(request, given, lent))
            }))
        }
        Call::CheckWord(bytes) => {
            let given = rooms.given.lend(bytes, ways[0].border);
            let word = montrakit::check_word(given);
            Some(Made {
                left: Left {
                    answer: word.into(),
                    image: Vec::new(),
                    lent: Vec::new(),
                },
                kept: given == bytes,
            })
        }
    }
}

fn areas(words: &[u16]) -> Option<Vec<Area>> {
    let area = |words: &[u16]| match *words {
        [first, count, access] => Some(Area {
            first,
            count,
            access: Access::of_number(u8::try_from(access).ok()?)?,
        }),
        _ => None,
    };
    words.chunks(3).map(area).collect()
}

fn respond(rooms: &mut Rooms, call: &Respond, ways: Ways) -> Option<Made> {
    let station = Station {
        own: call.own,
        counting: Counting::of_number(call.counting)?,
        state: State::of_number(call.state)?,
    };
    let areas = areas(&call.areas)?;
    let frame = rooms.given.lend(&call.frame, ways[1].border);
    let image = rooms.image.lend(&call.image, ways[2].border);
    let reply = rooms.lent.lend(&call.reply, ways[3].border);
    let (answer, sent) = outcome(montrakit::respond(station, &areas, frame, image, reply));
    let whole = answer / 65_536 != call::EXCEPTION || sent.len() == 5;
    Some(Made {
        left: Left {
            answer,
            image: image.to_vec(),
            lent: reply.to_vec(),
        },
        kept: *frame == call.frame && reply.starts_with(&sent) && whole,
    })
}

fn outcome(outcome: Outcome) -> Told {
    match outcome {
        Outcome::Refused(refusal) => (answer(call::REFUSED, refusal.number().into()), Vec::new()),
        Outcome::Silent(silence) => (answer(call::SILENT, silence.number().into()), Vec::new()),
        Outcome::Exception(code, sent) => {
            (answer(call::EXCEPTION, code.number().into()), sent.to_vec())
        }
        Outcome::Reply(sent) => (answer(call::REPLY, sent.len()), sent.to_vec()),
    }
}

fn request(ask: &Ask) -> Option<Request> {
    let task = match (ask.function, ask.value) {
        (0x01, quantity) => Task::ReadBits01(quantity),
        (0x02, quantity) => Task::ReadBits02(quantity),
        (0x03, quantity) => Task::ReadWords03(quantity),
        (0x04, quantity) => Task::ReadWords04(quantity),
        (0x05, 0xFF00) => Task::WriteBit05(true),
        (0x05, 0x0000) => Task::WriteBit05(false),
        (0x06, word) => Task::WriteWord06(word),
        (0x0F, quantity) => Task::WriteBits0F(quantity),
        (0x10, quantity) => Task::WriteWords10(quantity),
        _ => return None,
    };
    Some(Request {
        station: ask.station,
        task,
        start: ask.start,
    })
}

fn master(
    rooms: &mut Rooms,
    ask: &Ask,
    ways: Ways,
    make: impl Fn(&[u8], &mut [u8]) -> Told,
) -> Made {
    let given = rooms.given.lend(&ask.given, ways[0].border);
    let lent = rooms.lent.lend(&ask.lent, ways[1].border);
    let (answer, written) = make(given, lent);
    Made {
        left: Left {
            answer,
            image: Vec::new(),
            lent: lent.to_vec(),
        },
        kept: *given == ask.given && lent.starts_with(&written),
    }
}

fn built(built: Built) -> Told {
    match built {
        Built::Refused(refused) => (answer(call::REFUSED, refused.number().into()), Vec::new()),
        Built::Frame(frame) => (answer(call::FRAME, frame.len()), frame.to_vec()),
    }
}

fn read(reading: Reading) -> Told {
    match reading {
        Reading::Refused(refused) => (answer(call::REFUSED, refused.number().into()), Vec::new()),
        Reading::Values(values) => (answer(call::VALUES, values.len()), values.to_vec()),
        Reading::Written => (answer(call::WRITTEN, 0), Vec::new()),
        Reading::Exception(code) => (answer(call::EXCEPTION, code.number().into()), Vec::new()),
    }
}
