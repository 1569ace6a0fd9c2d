//! What is measured: a row is a call, and the answer that its name claims.

use face::call::{self, answer, Ask, Call, Respond};
use montrakit_host::check_word::seal;

pub struct Row {
    pub name: String,
    pub call: Call,
    pub claimed: u32,
}

const OWN: u8 = 20;
const ANOTHER: u8 = 21;
const IMAGE_WORDS: u16 = 4095;
/// Bytes of each buffer that is written, and of the longest frame.
const ROOM: usize = 256;

const READ_ONLY: u16 = 0;
const READ_WRITE: u16 = 1;

const BIT_ON: u16 = 0xFF00;
const BIT_OFF: u16 = 0x0000;

/// Function, first bit in its word, and quantity or value of the requests that are carried out.
#[rustfmt::skip]
const REQUESTS: [(u8, u16, u16); 23] = [
    (0x01, 0, 1), (0x01, 5, 1), (0x01, 0, 256), (0x01, 5, 256),
    (0x02, 0, 1), (0x02, 5, 1), (0x02, 0, 256), (0x02, 5, 256),
    (0x03, 0, 1), (0x03, 0, 80),
    (0x04, 0, 1), (0x04, 0, 80),
    (0x05, 0, BIT_ON), (0x05, 5, BIT_ON), (0x05, 0, BIT_OFF), (0x05, 5, BIT_OFF),
    (0x06, 0, 0x1234),
    (0x0F, 0, 1), (0x0F, 5, 1), (0x0F, 0, 256), (0x0F, 5, 256),
    (0x10, 0, 1), (0x10, 0, 80),
];

/// A list of areas, and the word at which requests start.
struct Areas {
    name: &'static str,
    words: Vec<u16>,
    at: u16,
}

fn one_area(access: u16) -> Areas {
    Areas {
        name: "1 area",
        words: vec![0, IMAGE_WORDS, access],
        at: 1000,
    }
}

/// Read-only and read-write in turn, each with a hole behind it; requests go to the last one, read-write.
const STEP: u16 = 255;
const HOLE: u16 = 5;

fn sixteen_areas() -> Areas {
    let area = |i| {
        [
            i * STEP,
            STEP - HOLE,
            if i % 2 == 0 { READ_ONLY } else { READ_WRITE },
        ]
    };
    Areas {
        name: "16 areas",
        words: (0..16).flat_map(area).collect(),
        at: 15 * STEP + 100,
    }
}

/// Of 16 words each: a request of 80 words has the last five.
fn touching_areas() -> Areas {
    Areas {
        name: "5 of 16 areas",
        words: (0..16).flat_map(|i| [i * 16, 16, READ_WRITE]).collect(),
        at: 11 * 16,
    }
}

fn is_of_bits(function: u8) -> bool {
    matches!(function, 0x01 | 0x02 | 0x05 | 0x0F)
}

/// The bytes of so many bits or words.
fn byte_count(function: u8, quantity: u16) -> usize {
    if is_of_bits(function) {
        usize::from(quantity).div_ceil(8)
    } else {
        usize::from(quantity) * 2
    }
}

/// Bytes that differ from one another.
fn pattern(length: usize) -> Vec<u8> {
    (0..length).map(|i| (i * 37 + 0x5A) as u8).collect()
}

/// What 0F and 10 carry.
fn data(function: u8, value: u16) -> Vec<u8> {
    match function {
        0x0F | 0x10 => pattern(byte_count(function, value)),
        _ => Vec::new(),
    }
}

fn sealed(mut frame: Vec<u8>) -> Vec<u8> {
    seal(&mut frame);
    frame
}

fn request(function: u8, start: u16, value: u16) -> Vec<u8> {
    let mut frame = vec![OWN, function];
    frame.extend(start.to_be_bytes());
    frame.extend(value.to_be_bytes());
    let data = data(function, value);
    if !data.is_empty() {
        frame.push(data.len() as u8);
        frame.extend(data);
    }
    sealed(frame)
}

fn start(areas: &Areas, function: u8, bit: u16) -> u16 {
    if is_of_bits(function) {
        areas.at * 16 + bit
    } else {
        areas.at
    }
}

/// The function, with its quantity and first bit, or what it writes.
fn request_name(function: u8, bit: u16, value: u16) -> String {
    match function {
        0x05 if value == BIT_ON => format!("05 on, bit {bit}"),
        0x05 => format!("05 off, bit {bit}"),
        0x06 => "06".to_string(),
        _ if is_of_bits(function) => format!("{function:02X} x{value}, bit {bit}"),
        _ => format!("{function:02X} x{value}"),
    }
}

fn respond_row(name: &str, areas: &Areas, frame: Vec<u8>, claimed: u32) -> Row {
    let word = |i: u16| i.wrapping_mul(0x9E37) ^ 0x1234;
    Row {
        name: format!("{name}, {}", areas.name),
        call: Call::Respond(Respond {
            own: OWN,
            counting: 0,
            state: 0,
            areas: areas.words.clone(),
            frame,
            image: (0..IMAGE_WORDS).map(word).collect(),
            reply: vec![0; ROOM],
        }),
        claimed,
    }
}

fn carried_out(areas: &Areas, (function, bit, value): (u8, u16, u16)) -> Row {
    let length = match function {
        0x01..=0x04 => 5 + byte_count(function, value),
        _ => 8,
    };
    let frame = request(function, start(areas, function, bit), value);
    let name = request_name(function, bit, value);
    respond_row(&name, areas, frame, answer(call::REPLY, length))
}

/// A word in no area is read, and one in a read-only area is written.
fn exceptions(areas: &Areas, in_no_area: u16, guarded: &Areas, read_only: u16) -> [Row; 2] {
    let (two, eight) = (answer(call::EXCEPTION, 2), answer(call::EXCEPTION, 8));
    [
        respond_row(
            "exception 2 to 03 x1",
            areas,
            request(0x03, in_no_area, 1),
            two,
        ),
        respond_row(
            "exception 8 to 06",
            guarded,
            request(0x06, read_only, 1),
            eight,
        ),
    ]
}

fn silences(areas: &Areas) -> [Row; 3] {
    let mut short = request(0x03, areas.at, 1);
    let mut long = sealed([&[OWN, 0x10], &pattern(ROOM - 4)[..]].concat());
    let mut another = request(0x03, areas.at, 1);
    another.truncate(6);
    another[0] = ANOTHER;
    short[7] ^= 1;
    long[ROOM - 1] ^= 1;
    let silent = |number| answer(call::SILENT, number);
    [
        respond_row("silence 11, 8 bytes", areas, short, silent(11)),
        respond_row("silence 11, 256 bytes", areas, long, silent(11)),
        respond_row("silence 12, 8 bytes", areas, sealed(another), silent(12)),
    ]
}

fn ask(function: u8, value: u16, given: Vec<u8>) -> Ask {
    Ask {
        station: OWN,
        function,
        start: 1000,
        value,
        given,
        lent: vec![0; ROOM],
    }
}

fn built((function, value): (u8, u16)) -> Row {
    let data = data(function, value);
    let length = match data.len() {
        0 => 8,
        bytes => 9 + bytes,
    };
    Row {
        name: format!("build {}", request_name(function, 0, value)),
        call: Call::Build(ask(function, value, data)),
        claimed: answer(call::FRAME, length),
    }
}

fn read_values((function, quantity): (u8, u16)) -> Row {
    let bytes = byte_count(function, quantity);
    let reply = [&[OWN, function, bytes as u8], &pattern(bytes)[..]].concat();
    Row {
        name: format!("read reply to {function:02X} x{quantity}"),
        call: Call::Read(ask(function, quantity, sealed(reply))),
        claimed: answer(call::VALUES, bytes),
    }
}

fn read_echo() -> Row {
    Row {
        name: "read reply to 06".to_string(),
        call: Call::Read(ask(0x06, 0x1234, request(0x06, 1000, 0x1234))),
        claimed: answer(call::WRITTEN, 0),
    }
}

fn read_exception() -> Row {
    Row {
        name: "read exception 2 to 03 x1".to_string(),
        call: Call::Read(ask(0x03, 1, sealed(vec![OWN, 0x83, 2]))),
        claimed: answer(call::EXCEPTION, 2),
    }
}

/// Bytes with their check word behind them have the check word 0.
fn check_word(length: usize) -> Row {
    Row {
        name: format!("check word of {length} bytes"),
        call: Call::CheckWord(sealed(pattern(length - 2))),
        claimed: 0,
    }
}

pub fn rows() -> Vec<Row> {
    let (one, sixteen, touching) = (one_area(READ_WRITE), sixteen_areas(), touching_areas());
    let mut rows = Vec::new();
    for areas in [&one, &sixteen] {
        rows.extend(REQUESTS.map(|request| carried_out(areas, request)));
    }
    rows.extend([(0x03, 0, 80), (0x10, 0, 80)].map(|request| carried_out(&touching, request)));
    rows.extend(exceptions(&one, IMAGE_WORDS, &one_area(READ_ONLY), 1000));
    rows.extend(exceptions(&sixteen, 16 * STEP - HOLE, &sixteen, 14 * STEP));
    rows.extend(silences(&one));
    rows.extend([(0x03, 1), (0x06, 0x1234), (0x0F, 256), (0x10, 80)].map(built));
    rows.extend([(0x03, 1), (0x03, 80), (0x01, 256)].map(read_values));
    rows.extend([read_echo(), read_exception()]);
    rows.extend([8, 256].map(check_word));
    rows
}
