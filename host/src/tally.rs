//! Counts of what was answered: each line of the answer table, what was accepted, and the master's half.

use crate::calls::{name, Calls};
use crate::cases::{self, Told};
use crate::drawn::FUNCTIONS;
use crate::master::{Built, Reading};
use crate::slave::{Counting, Outcome, TABLE};
use std::io::{self, Write};

/// Lengths of data make no difference here.
pub const READINGS: [Reading; 10] = [
    Reading::Refused(70),
    Reading::Refused(71),
    Reading::Refused(72),
    Reading::Data(0),
    Reading::Written,
    Reading::Exception(1),
    Reading::Exception(2),
    Reading::Exception(3),
    Reading::Exception(4),
    Reading::Exception(8),
];

#[derive(Default)]
pub struct Tally {
    /// By line of the table; the last is the normal reply.
    pub lines: [u64; TABLE.len() + 1],
    /// By function and counting.
    pub accepted: [[u64; 2]; FUNCTIONS.len()],
    /// Requests refused, and built.
    pub built: [u64; 2],
    pub readings: [u64; READINGS.len()],
}

impl Tally {
    pub fn count(&mut self, call: &Calls, told: Told) {
        if let Some(outcome) = told.outcome {
            self.count_outcome(call, outcome);
        }
        if let Some(built) = told.built {
            self.built[usize::from(built != Built::Refused(70))] += 1;
        }
        if let Some(reading) = told.reading {
            let plain = match reading {
                Reading::Data(_) => Reading::Data(0),
                other => other,
            };
            if let Some(place) = READINGS.iter().position(|one| *one == plain) {
                self.readings[place] += 1;
            }
        }
    }

    fn count_outcome(&mut self, call: &Calls, outcome: Outcome) {
        let line = TABLE.iter().position(|(line, _)| *line == outcome);
        self.lines[line.unwrap_or(TABLE.len())] += 1;
        let function = FUNCTIONS
            .iter()
            .position(|code| call.frame.get(1) == Some(code));
        if let (Outcome::Reply, Some(function)) = (outcome, function) {
            let counting = usize::from(call.station.counting == Counting::JBus);
            self.accepted[function][counting] += 1;
        }
    }

    pub fn write(&self, output: &mut impl Write) -> io::Result<()> {
        let outcomes = TABLE
            .iter()
            .map(|(outcome, _)| *outcome)
            .chain([Outcome::Reply]);
        for (outcome, count) in outcomes.zip(self.lines) {
            writeln!(output, "{:<12}{count:>10}", name(outcome))?;
        }
        writeln!(output, "accepted       MOD-Bus     J-Bus")?;
        for (function, [mod_bus, j_bus]) in FUNCTIONS.iter().zip(self.accepted) {
            writeln!(output, "{function:02X}          {mod_bus:>10}{j_bus:>10}")?;
        }
        let [refused, built] = self.built;
        writeln!(output, "building\nrefused 70  {refused:>10}")?;
        writeln!(output, "frame       {built:>10}\nreading")?;
        for (reading, count) in READINGS.iter().zip(self.readings) {
            writeln!(output, "{:<12}{count:>10}", cases::name(*reading))?;
        }
        Ok(())
    }
}
