//! What a call has to leave: what the second program says, and here what only the C face can be given.

use crate::call::{self, answer, Ask, Call, Left, Respond};
use montrakit_host::bits::Image;
use montrakit_host::check_word::check_word;
use montrakit_host::drawn::FUNCTIONS;
use montrakit_host::master::{self, Built, Reading, Request};
use montrakit_host::slave::{self, Area, Counting, Outcome, State, Station};

pub fn left(call: &Call) -> Left {
    match call {
        Call::Respond(call) => respond(call),
        Call::Build(ask) => build(ask),
        Call::Read(ask) => read(ask),
        Call::CheckWord(bytes) => Left {
            answer: check_word(bytes).into(),
            image: Vec::new(),
            lent: Vec::new(),
        },
    }
}

/// A list that breaks a rule whatever the image: it stands for those that are no list of areas at all.
const BROKEN: [Area; 1] = [Area {
    first: 0,
    count: 0,
    writable: false,
}];

/// None if the words break off in an area, or an access is neither 0 nor 1.
fn areas(words: &[u16]) -> Option<Vec<Area>> {
    let area = |words: &[u16]| match *words {
        [first, count, access @ 0..=1] => Some(Area {
            first,
            count,
            writable: access == 1,
        }),
        _ => None,
    };
    words.chunks(3).map(area).collect()
}

fn settings(call: &Respond) -> Result<Station, usize> {
    let counting = match call.counting {
        0 => Counting::ModBus,
        1 => Counting::JBus,
        _ => return Err(1),
    };
    let state = match call.state {
        0 => State::Ready,
        1 => State::NotReady,
        2 => State::Keyboard,
        _ => return Err(2),
    };
    Ok(Station {
        own: call.own,
        counting,
        state,
    })
}

fn respond(call: &Respond) -> Left {
    let mut lent = call.reply.clone();
    let station = match settings(call) {
        Ok(station) => station,
        Err(number) => {
            return Left {
                answer: answer(call::BAD_ARGUMENT, number),
                image: call.image.clone(),
                lent,
            };
        }
    };
    let areas = areas(&call.areas).unwrap_or(BROKEN.to_vec());
    let mut image = Image::default();
    image.fill(call.image.iter().copied());
    let (outcome, length) = slave::answer(station, &areas, &mut image, &mut lent, &call.frame);
    let answer = match outcome {
        Outcome::Refused(number) => answer(call::REFUSED, number.into()),
        Outcome::Silent(number) => answer(call::SILENT, number.into()),
        Outcome::Exception(code) => answer(call::EXCEPTION, code.into()),
        Outcome::Reply => answer(call::REPLY, length),
    };
    Left {
        answer,
        image: image.content().collect(),
        lent,
    }
}

/// None for a function that the table of frames lacks.
fn request(ask: &Ask) -> Option<Request> {
    FUNCTIONS.contains(&ask.function).then_some(Request {
        station: ask.station,
        function: ask.function,
        start: ask.start,
        operand: ask.value,
    })
}

fn build(ask: &Ask) -> Left {
    let mut lent = ask.lent.clone();
    let built = match request(ask) {
        Some(request) => master::build(request, &ask.given, &mut lent),
        None => Built::Refused(70),
    };
    let answer = match built {
        Built::Refused(number) => answer(call::REFUSED, number.into()),
        Built::Frame(length) => answer(call::FRAME, length),
    };
    Left {
        answer,
        image: Vec::new(),
        lent,
    }
}

fn read(ask: &Ask) -> Left {
    let mut lent = ask.lent.clone();
    let reading = match request(ask) {
        Some(request) => master::read(request, &ask.given, &mut lent),
        None => Reading::Refused(70),
    };
    let answer = match reading {
        Reading::Refused(number) => answer(call::REFUSED, number.into()),
        Reading::Data(count) => answer(call::VALUES, count),
        Reading::Written => answer(call::WRITTEN, 0),
        Reading::Exception(code) => answer(call::EXCEPTION, code.into()),
    };
    Left {
        answer,
        image: Vec::new(),
        lent,
    }
}
