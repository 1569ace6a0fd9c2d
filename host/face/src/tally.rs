//! Counts of what was answered and of how it was lent.

use crate::call::{self, Call};
use crate::drawn::Drawn;
use crate::guard::Border;
use std::collections::BTreeMap;
use std::fmt::{self, Display, Formatter};

#[derive(Default)]
pub struct Tally {
    answers: BTreeMap<(&'static str, u32, u32), u64>,
    null: u64,
    at_start: u64,
    at_end: u64,
    pub wrapped: u64,
}

impl Tally {
    pub fn count(&mut self, drawn: &Drawn, answer: u32) {
        let (name, function) = match &drawn.call {
            Call::Respond(call) => ("respond", call.frame.get(1).copied().unwrap_or(0)),
            Call::Build(ask) => ("build", ask.function),
            Call::Read(ask) => ("read", ask.function),
            Call::CheckWord(_) => ("check word", 0),
        };
        let kind = match drawn.call {
            Call::CheckWord(_) => 0,
            _ => answer / 65_536,
        };
        let number = match kind {
            call::REPLY | call::FRAME | call::VALUES | call::WRITTEN => function.into(),
            _ if name == "check word" => 0,
            _ => answer % 65_536,
        };
        *self.answers.entry((name, kind, number)).or_default() += 1;
        for (length, way) in drawn.call.lengths().into_iter().zip(drawn.ways) {
            match way.border {
                _ if length == 0 && way.null => self.null += 1,
                Border::Start => self.at_start += 1,
                Border::End => self.at_end += 1,
            }
        }
    }
}

fn label(name: &str, kind: u32, number: u32) -> String {
    match kind {
        _ if name == "check word" => name.to_string(),
        call::REFUSED => format!("{name} refused {number}"),
        call::SILENT => format!("{name} silent {number}"),
        call::EXCEPTION => format!("{name} exception {number}"),
        call::REPLY => format!("{name} reply to {number:02X}"),
        call::BAD_ARGUMENT => format!("{name} bad argument {number}"),
        call::FRAME => format!("{name} frame of {number:02X}"),
        call::VALUES => format!("{name} values of {number:02X}"),
        call::WRITTEN => format!("{name} written by {number:02X}"),
        _ => format!("{name} kind {kind}"),
    }
}

impl Display for Tally {
    fn fmt(&self, out: &mut Formatter) -> fmt::Result {
        for (&(name, kind, number), count) in &self.answers {
            writeln!(out, "{:<26}{count:>10}", label(name, kind, number))?;
        }
        writeln!(out, "{:<26}{:>10}", "buffers by null pointer", self.null)?;
        writeln!(out, "{:<26}{:>10}", "buffers at a start", self.at_start)?;
        writeln!(out, "{:<26}{:>10}", "buffers at an end", self.at_end)?;
        writeln!(out, "{:<26}{:>10}", "also by the wrapper", self.wrapped)
    }
}
