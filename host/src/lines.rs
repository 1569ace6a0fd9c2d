//! Lines of standard input: split at 0x0A only, and of an over-long line no more kept than shows it.

use std::io::{self, BufRead, Write};

/// Takes the next line into `line`, without its line feed; false where there is none. Of a line over
/// `most` characters the first `most + 1` are kept.
pub fn next(input: &mut impl BufRead, line: &mut Vec<u8>, most: usize) -> io::Result<bool> {
    line.clear();
    loop {
        let some = match input.fill_buf() {
            Err(error) if error.kind() == io::ErrorKind::Interrupted => continue,
            read => read?,
        };
        if some.is_empty() {
            return Ok(!line.is_empty());
        }
        let feed = some.iter().position(|&character| character == b'\n');
        let part = &some[..feed.unwrap_or(some.len())];
        let room = (most + 1).saturating_sub(line.len());
        line.extend(&part[..part.len().min(room)]);
        let taken = part.len() + usize::from(feed.is_some());
        input.consume(taken);
        if feed.is_some() {
            return Ok(true);
        }
    }
}

/// Something that answers lines, each with a line.
pub trait Answerer {
    /// No line over this many characters is good.
    const MOST: usize;

    /// Puts the answer behind what `out` holds, without a line feed.
    fn answer(&mut self, line: &[u8], out: &mut Vec<u8>);
}

/// Answers every line of `input`.
pub fn run<A: Answerer>(
    mut answerer: A,
    mut input: impl BufRead,
    mut output: impl Write,
) -> io::Result<()> {
    let (mut line, mut out) = (Vec::new(), Vec::new());
    while next(&mut input, &mut line, A::MOST)? {
        out.clear();
        answerer.answer(&line, &mut out);
        out.push(b'\n');
        output.write_all(&out)?;
    }
    output.flush()
}
