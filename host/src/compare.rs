//! Runs another program on the same lines and compares its output with this one's, line by line.

use crate::bench::Bench;
use crate::bench_lines;
use crate::cases::Cases;
use crate::drawn::Drawing;
use crate::lines::{self, Answerer};
use crate::tally::Tally;
use std::io::{self, BufReader, BufWriter, Write};
use std::process::{Child, Command, Stdio};
use std::thread;

const SHOWN: u64 = 5;
const LONGEST_SHOWN: usize = 300;

/// What came of a comparison; `even` if each line had its answer and none was left over.
struct Compared {
    lines: u64,
    differences: u64,
    even: bool,
}

impl Compared {
    fn good(&self) -> bool {
        self.even && self.differences == 0
    }
}

/// The child reads what `feed` writes; `next` gives each of those lines and the answer wanted for it.
fn run(
    program: &[&str],
    feed: impl FnOnce(&mut dyn Write) -> io::Result<()> + Send + 'static,
    mut next: impl FnMut(&mut Vec<u8>, &mut Vec<u8>) -> io::Result<bool>,
    output: &mut impl Write,
) -> io::Result<Compared> {
    let mut child = start(program)?;
    let feeder = child.stdin.take().map(|stdin| {
        // A child that stops reading breaks the pipe; what its output then lacks shows below.
        thread::spawn(move || {
            let mut stdin = BufWriter::with_capacity(1 << 16, stdin);
            feed(&mut stdin).and_then(|()| stdin.flush())
        })
    });
    let mut result = Compared {
        lines: 0,
        differences: 0,
        even: true,
    };
    if let Some(stdout) = child.stdout.take() {
        let mut stdout = BufReader::with_capacity(1 << 16, stdout);
        let (mut line, mut wanted, mut got) = (Vec::new(), Vec::new(), Vec::new());
        while next(&mut line, &mut wanted)? {
            if !lines::next(&mut stdout, &mut got, 2 * Cases::MOST)? {
                writeln!(output, "the output ends after {} lines", result.lines)?;
                result.even = false;
                break;
            }
            result.lines += 1;
            if got != wanted {
                result.differences += 1;
                if result.differences <= SHOWN {
                    for (name, text) in [("line  ", &line), ("wanted", &wanted), ("got   ", &got)] {
                        let shown = &text[..text.len().min(LONGEST_SHOWN)];
                        writeln!(output, "{name} {}", String::from_utf8_lossy(shown))?;
                    }
                }
            }
        }
        if result.even && lines::next(&mut stdout, &mut got, 0)? {
            writeln!(output, "the output goes on after {} lines", result.lines)?;
            result.even = false;
        }
    }
    let status = child.wait()?;
    if let Some(feeder) = feeder {
        // Its error, if any, is the broken pipe; the lines have been counted already.
        let _ = feeder.join();
    }
    if !status.success() {
        writeln!(output, "the program ended with {status}")?;
        result.even = false;
    }
    Ok(result)
}

fn start(program: &[&str]) -> io::Result<Child> {
    let missing = io::Error::new(io::ErrorKind::InvalidInput, "no program named");
    let (name, arguments) = program.split_first().ok_or(missing)?;
    Command::new(name)
        .args(arguments)
        .stdin(Stdio::piped())
        .stdout(Stdio::piped())
        .spawn()
}

/// Whether the program answers `count` drawn lines as this one does.
pub fn drawn(seed: u64, count: u64, program: &[&str], output: &mut impl Write) -> io::Result<bool> {
    let mut tally = Tally::default();
    let (mut drawing, mut cases, mut left) = (Drawing::new(seed), Cases::default(), count);
    let next = |line: &mut Vec<u8>, wanted: &mut Vec<u8>| {
        if left == 0 {
            return Ok(false);
        }
        left -= 1;
        drawing.line(line);
        wanted.clear();
        let Some(asked) = cases.read(line) else {
            return Err(io::Error::other("a drawn line is a bad line"));
        };
        let told = cases.make(asked, wanted);
        tally.count(&cases.call, told);
        Ok(true)
    };
    let result = run(
        program,
        move |stdin| write_drawn(seed, count, stdin),
        next,
        output,
    )?;
    writeln!(
        output,
        "{} lines, seed {seed}, {} differences",
        result.lines, result.differences
    )?;
    tally.write(output)?;
    Ok(result.good())
}

pub fn write_drawn(seed: u64, count: u64, output: &mut dyn Write) -> io::Result<()> {
    let (mut drawing, mut line) = (Drawing::new(seed), Vec::new());
    for _ in 0..count {
        drawing.line(&mut line);
        line.push(b'\n');
        output.write_all(&line)?;
    }
    Ok(())
}

/// Whether the program answers the longer bench input as this bench does.
pub fn bench(program: &[&str], output: &mut impl Write) -> io::Result<bool> {
    let input = bench_lines::input();
    let given = input.clone();
    let (mut rest, mut bench) = (&input[..], Bench::default());
    let next = |line: &mut Vec<u8>, wanted: &mut Vec<u8>| {
        wanted.clear();
        let more = lines::next(&mut rest, line, Bench::MOST)?;
        if more {
            bench.answer(line, wanted);
        }
        Ok(more)
    };
    let result = run(program, move |stdin| stdin.write_all(&given), next, output)?;
    writeln!(
        output,
        "{} lines, {} differences",
        result.lines, result.differences
    )?;
    Ok(result.good())
}
