//! Drawn calls: those that the second program draws as lines, and then now and then something that no line
//! says but the C face can be given.

use crate::call::{Ask, Call, Respond, Way, Ways};
use crate::guard::Border;
use montrakit_host::cases::{Asked, Cases};
use montrakit_host::check_word::seal;
use montrakit_host::drawn;
use montrakit_host::master::Request;
use montrakit_host::random::Random;
use montrakit_host::slave::{Area, Counting, State};

/// A length with this much more is the same in 16 bits.
const WRAP: usize = 65_536;

pub struct Drawn {
    pub call: Call,
    pub ways: Ways,
    /// Whether the wrapper is called too.
    pub wrapped: bool,
}

pub struct Drawing {
    lines: drawn::Drawing,
    line: Vec<u8>,
    cases: Cases,
}

impl Drawing {
    pub fn new(seed: u64) -> Drawing {
        Drawing {
            lines: drawn::Drawing::new(seed),
            line: Vec::new(),
            cases: Cases::default(),
        }
    }

    pub fn draw(&mut self) -> Drawn {
        let call = match self.random().below(10) {
            0..=4 => Call::Respond(self.respond()),
            5..=6 => Call::Build(self.build()),
            7..=8 => Call::Read(self.read()),
            _ => Call::CheckWord(self.bytes()),
        };
        let random = self.random();
        Drawn {
            call,
            ways: [(); 4].map(|()| way(random)),
            wrapped: random.in_thousand(250),
        }
    }

    fn random(&mut self) -> &mut Random {
        &mut self.lines.random
    }

    fn respond(&mut self) -> Respond {
        self.lines.call(&mut self.line);
        self.parsed();
        let said = &self.cases.call;
        let mut call = Respond {
            own: said.station.own,
            counting: u8::from(said.station.counting == Counting::JBus),
            state: match said.station.state {
                State::Ready => 0,
                State::NotReady => 1,
                State::Keyboard => 2,
            },
            areas: said.areas.iter().flat_map(area_words).collect(),
            frame: said.frame.clone(),
            image: said.image.content().collect(),
            reply: said.buffer.clone(),
        };
        let random = self.random();
        for _ in 0..changes(random) {
            change_respond(&mut call, random);
        }
        call
    }

    fn build(&mut self) -> Ask {
        self.lines.build(&mut self.line);
        self.ask()
    }

    fn read(&mut self) -> Ask {
        self.lines.reading(&mut self.line);
        let mut ask = self.ask();
        if self.random().in_thousand(20) && ask.given.len() > 4 {
            // The reply is of the same function, whatever that is.
            ask.given.truncate(ask.given.len() - 2);
            ask.given[1] = ask.function;
            seal(&mut ask.given);
        }
        ask
    }

    fn bytes(&mut self) -> Vec<u8> {
        let random = self.random();
        let length = match random.below(1000) {
            0 => WRAP + random.below(300),
            1..=99 => 0,
            100..=499 => random.between(1, 9),
            _ => random.below(301),
        };
        (0..length).map(|_| random.byte()).collect()
    }

    /// What the line drawn last asks for.
    fn parsed(&mut self) -> Asked {
        let Some(asked) = self.cases.read(&self.line) else {
            unreachable!("a drawn line is a good line");
        };
        asked
    }

    /// The call of the master's half that the line drawn last asks for.
    fn ask(&mut self) -> Ask {
        let (Asked::Build(request) | Asked::Read(request)) = self.parsed() else {
            unreachable!("the line asks to build or to read");
        };
        let Request {
            station,
            function,
            start,
            operand,
        } = request;
        let mut ask = Ask {
            station,
            function,
            start,
            value: operand,
            given: self.cases.call.frame.clone(),
            lent: self.cases.call.buffer.clone(),
        };
        let random = self.random();
        for _ in 0..changes(random) {
            change_ask(&mut ask, random);
        }
        ask
    }
}

fn area_words(area: &Area) -> [u16; 3] {
    [area.first, area.count, area.writable.into()]
}

fn way(random: &mut Random) -> Way {
    let border = if random.in_thousand(250) {
        Border::Start
    } else {
        Border::End
    };
    Way {
        border,
        null: random.in_thousand(500),
    }
}

/// How many things of a call are changed: mostly none, and sometimes so many that their order shows.
fn changes(random: &mut Random) -> usize {
    match random.below(1000) {
        0..=149 => 1,
        150..=199 => 2,
        200..=219 => 4,
        _ => 0,
    }
}

fn change_respond(call: &mut Respond, random: &mut Random) {
    let (byte, word) = (random.byte(), random.word());
    match random.below(20) {
        0..=1 => call.counting = random.one_of([2, 3, 128, 255, byte]),
        2..=3 => call.state = random.one_of([3, 4, 129, 255, byte]),
        4 => call.own = 0,
        5..=7 => break_off(&mut call.areas, random),
        8..=9 => change_access(&mut call.areas, random),
        10..=12 => list_single_words(call, random),
        13..=14 => {
            let words = random.one_of([0, 1, 2, 4094, 4095, 4096, 4097, 8192]);
            call.image.resize(words, word);
        }
        15..=16 => change_lent(&mut call.reply, random),
        17..=18 => {
            let bytes = random.one_of([0, 1, 2, 3, 4, 5, 255, 256, 257, 258, 512]);
            call.frame.resize(bytes, byte);
        }
        _ if random.in_thousand(100) => wrap_one(call, random),
        _ => {}
    }
}

/// A number of area words that is mostly no multiple of three.
fn break_off(areas: &mut Vec<u16>, random: &mut Random) {
    let (listed, word) = (areas.len(), random.word());
    let words = random.one_of([1, 2, listed + 1, listed + 2, 47, 49, 50, 52]);
    areas.resize(words, random.one_of([0, 1, word]));
}

/// Any access at any area, most of them without a meaning.
fn change_access(areas: &mut [u16], random: &mut Random) {
    let place = random.below(areas.len() / 3) * 3 + 2;
    let access = random.one_of([0, 1, 2, 3, 0x00FF, 0x0100, 0x0101, 0xFF01, 0xFFFF]);
    if let Some(word) = areas.get_mut(place) {
        *word = access;
    }
}

/// A list of single words that touch, of about 16 areas or of many more.
fn list_single_words(call: &mut Respond, random: &mut Random) {
    let listed = random.one_of([0, 1, 2, 15, 16, 16, 16, 17, 18, 32, 255, 256, 272, 1000]);
    call.areas.clear();
    for first in 0..listed {
        let access = u16::from(random.in_thousand(950));
        call.areas.extend([first, 1, access]);
    }
    let listed = usize::from(listed);
    if call.image.len() < listed && random.in_thousand(900) {
        call.image.resize(listed, random.word());
    }
}

fn change_lent(lent: &mut Vec<u8>, random: &mut Random) {
    let bytes = random.one_of([0, 1, 4, 5, 8, 165, 254, 255, 256, 257, 258, 512, 1024]);
    lent.resize(bytes, random.byte());
}

/// A length that is another if only 16 bits of it are looked at.
fn wrap_one(call: &mut Respond, random: &mut Random) {
    match random.below(4) {
        0 => call.areas.resize(call.areas.len() + WRAP, 1),
        1 => call.image.resize(call.image.len() + WRAP, 0),
        2 => call.reply.resize(random.below(512) + WRAP, 0xAA),
        _ => call.frame.resize(call.frame.len() + WRAP, 0),
    }
}

fn change_ask(ask: &mut Ask, random: &mut Random) {
    let (byte, word) = (random.byte(), random.word());
    match random.below(20) {
        0..=7 => ask.function = function(random),
        8 => ask.station = 0,
        9..=10 => ask.value = random.one_of([0, 1, 80, 81, 256, 257, 0xFF00, word]),
        11..=14 => change_lent(&mut ask.lent, random),
        15..=18 => {
            let bytes = random.one_of([0, 1, 2, 4, 5, 32, 33, 160, 162, 255, 256, 257, 512]);
            ask.given.resize(bytes, byte);
        }
        _ if random.in_thousand(50) => ask.given.resize(ask.given.len() + WRAP, 0),
        _ if random.in_thousand(50) => ask.lent.resize(random.below(512) + WRAP, 0xAA),
        _ => {}
    }
}

/// Any function, most of them not in the table of frames.
fn function(random: &mut Random) -> u8 {
    let unknown = [
        0x00, 0x07, 0x08, 0x0E, 0x11, 0x17, 0x81, 0x83, 0x85, 0x8F, 0x90, 0xFF,
    ];
    let (unknown, any) = (random.one_of(unknown), random.byte());
    random.one_of([unknown, any])
}

#[cfg(test)]
mod tests {
    use super::*;
    use crate::call;
    use crate::wanted;
    use montrakit_host::drawn::FUNCTIONS;

    /// Something to be reached by a call, which is answered with the number.
    type Place = (&'static str, fn(&Call, u32) -> bool);

    fn respond(given: &Call, there: fn(&Respond) -> bool) -> bool {
        matches!(given, Call::Respond(call) if there(call))
    }

    fn ask(given: &Call, there: fn(&Ask) -> bool) -> bool {
        matches!(given, Call::Build(ask) | Call::Read(ask) if there(ask))
    }

    fn bad(call: &Respond) -> bool {
        call.counting > 1 || call.state > 2
    }

    fn replied(answer: u32) -> bool {
        answer / 65_536 == call::REPLY
    }

    fn unknown(ask: &Ask) -> bool {
        !FUNCTIONS.contains(&ask.function)
    }

    const REFUSED_3: u32 = 3;

    #[rustfmt::skip]
    const PLACES: &[Place] = &[
        ("counting and state mean nothing", |c, _| respond(c, |r| r.counting > 1 && r.state > 2)),
        ("counting means nothing, own address 0", |c, _| respond(c, |r| r.counting > 1 && r.own == 0)),
        ("state means nothing, no image", |c, _| respond(c, |r| r.counting < 2 && r.state > 2 && r.image.is_empty())),
        ("one word over", |c, a| a == REFUSED_3 && respond(c, |r| r.areas.len() % 3 == 1)),
        ("two words over", |c, a| a == REFUSED_3 && respond(c, |r| r.areas.len() % 3 == 2)),
        ("a broken list, own address 0", |c, _| respond(c, |r| !bad(r) && r.own == 0 && r.areas.len() % 3 != 0)),
        ("a broken list, no image", |c, _| respond(c, |r| !bad(r) && r.own != 0 && r.image.is_empty() && r.areas.len() % 3 != 0)),
        ("a broken list, no reply buffer", |c, a| a == REFUSED_3 && respond(c, |r| r.areas.len() % 3 != 0 && r.reply.is_empty())),
        ("48 words and one or two", |c, _| respond(c, |r| [49, 50].contains(&r.areas.len()))),
        ("access 2", |c, a| a == REFUSED_3 && respond(c, |r| r.areas.len() == 3 && r.areas[2] == 2)),
        ("access with a low byte of 1", |c, a| a == REFUSED_3 && respond(c, |r| r.areas.len() == 3 && r.areas[2] == 0xFF01)),
        ("no areas", |c, _| respond(c, |r| r.areas.is_empty())),
        ("16 areas answered", |c, a| replied(a) && respond(c, |r| r.areas.len() == 48)),
        ("17 areas", |c, a| a == REFUSED_3 && respond(c, |r| r.areas.len() == 51)),
        ("1,000 areas", |c, a| a == REFUSED_3 && respond(c, |r| r.areas.len() == 3000)),
        ("no words", |c, a| a == 2 && respond(c, |r| r.image.is_empty())),
        ("1 word answered", |c, a| replied(a) && respond(c, |r| r.image.len() == 1)),
        ("4,095 words answered", |c, a| replied(a) && respond(c, |r| r.image.len() == 4095)),
        ("4,096 words", |c, a| a == 2 && respond(c, |r| r.image.len() == 4096)),
        ("no reply buffer", |c, a| a == 4 && respond(c, |r| r.reply.is_empty())),
        ("a reply buffer of 255 bytes", |c, a| a == 4 && respond(c, |r| r.reply.len() == 255)),
        ("a reply buffer of 257 bytes", |c, a| replied(a) && respond(c, |r| r.reply.len() == 257)),
        ("areas wrap", |c, _| respond(c, |r| r.areas.len() >= WRAP)),
        ("the image wraps", |c, _| respond(c, |r| r.image.len() >= WRAP)),
        ("the reply buffer wraps", |c, a| replied(a) && respond(c, |r| r.reply.len() >= WRAP)),
        ("the frame wraps", |c, _| respond(c, |r| r.frame.len() >= WRAP)),
        ("unknown function", |c, _| ask(c, |a| unknown(a) && a.lent.len() > 255)),
        ("unknown function and its own reply", |c, _| ask(c, |a| unknown(a) && a.given.get(1) == Some(&a.function))),
        ("data or reply wrap", |c, _| ask(c, |a| a.given.len() >= WRAP)),
        ("built or read in a buffer that wraps", |c, a| a > 65_536 && ask(c, |a| a.lent.len() >= WRAP)),
        ("nothing lent to the master", |c, _| ask(c, |a| a.lent.is_empty())),
        ("check word of nothing", |_, a| a == 0xFFFF),
    ];

    #[test]
    fn each_place_is_reached() {
        let mut drawing = Drawing::new(1);
        let mut reached = vec![0; PLACES.len()];
        for _ in 0..150_000 {
            let drawn = drawing.draw();
            let answer = wanted::left(&drawn.call).answer;
            for (count, (_, there)) in reached.iter_mut().zip(PLACES) {
                *count += u32::from(there(&drawn.call, answer));
            }
        }
        for (count, (name, _)) in reached.iter().zip(PLACES) {
            assert!(*count > 4, "{name}: {count}");
        }
    }
}
