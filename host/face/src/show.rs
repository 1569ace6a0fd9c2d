//! Calls and differences in full, so that a call can be made again.

use crate::call::{Ask, Call, Left, Made, Respond};
use std::fmt::{self, Display, Formatter};

struct Hex<'a>(&'a [u8]);

impl Display for Hex<'_> {
    fn fmt(&self, out: &mut Formatter) -> fmt::Result {
        write!(out, "{} bytes", self.0.len())?;
        self.0
            .iter()
            .try_for_each(|byte| write!(out, " {byte:02X}"))
    }
}

struct Words<'a>(&'a [u16]);

impl Display for Words<'_> {
    fn fmt(&self, out: &mut Formatter) -> fmt::Result {
        write!(out, "{} words", self.0.len())?;
        self.0.iter().try_for_each(|word| write!(out, " {word}"))
    }
}

fn respond(call: &Respond, out: &mut Formatter) -> fmt::Result {
    let Respond {
        own,
        counting,
        state,
        ..
    } = call;
    writeln!(
        out,
        "montrakit_respond: own {own}, counting {counting}, state {state}"
    )?;
    writeln!(out, "  areas {}", Words(&call.areas))?;
    writeln!(out, "  frame {}", Hex(&call.frame))?;
    writeln!(out, "  image {}", Words(&call.image))?;
    writeln!(out, "  reply {}", Hex(&call.reply))
}

fn ask(name: &str, ask: &Ask, [given, lent]: [&str; 2], out: &mut Formatter) -> fmt::Result {
    let Ask {
        station,
        function,
        start,
        value,
        ..
    } = ask;
    writeln!(
        out,
        "{name}: station {station}, function {function}, start {start}, value {value}"
    )?;
    writeln!(out, "  {given} {}", Hex(&ask.given))?;
    writeln!(out, "  {lent} {}", Hex(&ask.lent))
}

impl Display for Call {
    fn fmt(&self, out: &mut Formatter) -> fmt::Result {
        match self {
            Call::Respond(call) => respond(call, out),
            Call::Build(call) => ask("montrakit_build", call, ["data", "frame"], out),
            Call::Read(call) => ask("montrakit_read", call, ["reply", "out"], out),
            Call::CheckWord(bytes) => {
                writeln!(out, "montrakit_check_word\n  bytes {}", Hex(bytes))
            }
        }
    }
}

/// What was wanted of a call, and what was got.
pub struct Difference<'a> {
    pub wanted: &'a Left,
    pub got: &'a Made,
}

impl Display for Difference<'_> {
    fn fmt(&self, out: &mut Formatter) -> fmt::Result {
        let (wanted, got) = (self.wanted, &self.got.left);
        if wanted.answer != got.answer {
            let (wanted, got) = (wanted.answer, got.answer);
            writeln!(out, "  answer: wanted {wanted:#x}, got {got:#x}")?;
        }
        for (place, wanted, got) in differing(&wanted.image, &got.image) {
            writeln!(out, "  image word {place}: wanted {wanted}, got {got}")?;
        }
        for (place, wanted, got) in differing(&wanted.lent, &got.lent) {
            writeln!(
                out,
                "  lent byte {place}: wanted {wanted:02X}, got {got:02X}"
            )?;
        }
        if !self.got.kept {
            writeln!(
                out,
                "  changed what it may only read, or handed back what it did not write"
            )?;
        }
        Ok(())
    }
}

/// The places at which two buffers of one length differ, and what stands there.
fn differing<T: Copy + PartialEq>(one: &[T], other: &[T]) -> Vec<(usize, T, T)> {
    let pairs = one.iter().zip(other).enumerate();
    pairs
        .filter(|(_, (a, b))| a != b)
        .map(|(place, (a, b))| (place, *a, *b))
        .collect()
}
