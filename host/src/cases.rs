//! The lines of `cases`, in the format of docs/CASES.md: a slave's call, or what the master's half is
//! asked for behind a word.

use crate::calls::{self, Calls};
use crate::lines::Answerer;
use crate::master::{self, Built, Reading, Request};
use crate::slave::Outcome;

/// What is lent in an exchange, but for the slave's reply buffer.
const LENT: [u8; 256] = [0xAA; 256];

#[derive(Clone, Copy, PartialEq, Eq, Debug)]
pub enum Asked {
    Call,
    Build(Request),
    Read(Request),
    Exchange(Request),
}

/// What each of those that were asked answered.
#[derive(Clone, Copy, Default, PartialEq, Eq, Debug)]
pub struct Told {
    pub built: Option<Built>,
    pub outcome: Option<Outcome>,
    pub reading: Option<Reading>,
}

/// What a line says stands in `call`; behind a word its frame is the data or the reply.
#[derive(Default)]
pub struct Cases {
    pub call: Calls,
}

impl Cases {
    /// None for a bad line.
    pub fn read(&mut self, line: &[u8]) -> Option<Asked> {
        if line.len() > Self::MOST {
            return None;
        }
        let mut parts = line.splitn(3, |&character| character == b'|');
        let ask = match parts.next()? {
            b"build" => Asked::Build,
            b"read" => Asked::Read,
            b"exchange" => Asked::Exchange,
            _ => return self.call.read(line).map(|()| Asked::Call),
        };
        let asked = ask(request(parts.next()?)?);
        let rest = parts.next()?;
        match asked {
            Asked::Exchange(_) => self.call.read(rest)?,
            _ => self.call.read_ends(rest)?,
        }
        Some(asked)
    }

    /// Does what was read last, and says what it answered and left.
    pub fn make(&mut self, asked: Asked, out: &mut Vec<u8>) -> Told {
        let mut told = Told::default();
        match asked {
            Asked::Call => told.outcome = Some(self.call.make(out)),
            Asked::Build(request) => {
                told.built = Some(build(request, &self.call.frame, &mut self.call.buffer, out));
            }
            Asked::Read(request) => {
                told.reading = Some(read(request, &self.call.frame, &mut self.call.buffer, out));
            }
            Asked::Exchange(request) => self.exchange(request, &mut told, out),
        }
        told
    }

    fn exchange(&mut self, request: Request, told: &mut Told, out: &mut Vec<u8>) {
        let mut lent = LENT;
        let built = build(request, &self.call.frame, &mut lent, out);
        told.built = Some(built);
        let Built::Frame(length) = built else {
            return;
        };
        self.call.frame = lent[..length].to_vec();
        out.push(b'|');
        told.outcome = Some(self.call.make(out));
        if self.call.sent > 0 {
            let mut lent = LENT;
            let reply = &self.call.buffer[..self.call.sent];
            out.push(b'|');
            told.reading = Some(read(request, reply, &mut lent, out));
        }
    }
}

fn build(request: Request, data: &[u8], buffer: &mut [u8], out: &mut Vec<u8>) -> Built {
    let background = buffer.to_vec();
    let built = master::build(request, data, buffer);
    let (name, length) = match built {
        Built::Refused(number) => (format!("refused {number}"), 0),
        Built::Frame(length) => ("frame".to_string(), length),
    };
    out.extend(name.bytes());
    calls::left(buffer, &background, length, out);
    built
}

fn read(request: Request, reply: &[u8], buffer: &mut [u8], out: &mut Vec<u8>) -> Reading {
    let background = buffer.to_vec();
    let reading = master::read(request, reply, buffer);
    let length = match reading {
        Reading::Data(length) => length,
        _ => 0,
    };
    out.extend(name(reading).bytes());
    calls::left(buffer, &background, length, out);
    reading
}

pub fn name(reading: Reading) -> String {
    match reading {
        Reading::Refused(number) => format!("refused {number}"),
        Reading::Data(_) => "data".to_string(),
        Reading::Written => "written".to_string(),
        Reading::Exception(code) => format!("exception {code}"),
    }
}

fn request(part: &[u8]) -> Option<Request> {
    let [station, function, start, operand] = calls::numbers(part)?;
    matches!(function, 1..=6 | 15 | 16).then_some(())?;
    Some(Request {
        station: u8::try_from(station).ok()?,
        function: u8::try_from(function).ok()?,
        start,
        operand,
    })
}

impl Answerer for Cases {
    const MOST: usize = 4096;

    fn answer(&mut self, line: &[u8], out: &mut Vec<u8>) {
        match self.read(line) {
            Some(asked) => {
                self.make(asked, out);
            }
            None => out.extend(b"bad line"),
        }
    }
}
