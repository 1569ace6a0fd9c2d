//! The second program: what the library beside it answers, draws and compares, by command.

use montrakit_host::{bench, bench_lines, cases, compare, lines, stored};
use std::io::{self, BufWriter, Write};
use std::process::ExitCode;

const USAGE: &str = "\
usage: second bench                               the bench program
       second cases                               answers the lines of `cases`
       second input bench|lines|cases             writes a stored input
       second drawn SEED COUNT                    writes drawn lines of `cases`
       second compare SEED COUNT PROGRAM [ARG]..  drawn lines against `cases` of another program
       second compare-bench PROGRAM [ARG]..       the lines against another bench program
";

/// Whether all was as it should be; none for a wrong command.
fn run(words: &[&str], output: &mut impl Write) -> io::Result<Option<bool>> {
    let input = io::stdin().lock();
    let mut fine = true;
    match words {
        ["bench"] => lines::run(bench::Bench::default(), input, &mut *output)?,
        ["cases"] => lines::run(cases::Cases::default(), input, &mut *output)?,
        ["input", "bench"] => output.write_all(bench::INPUT.as_bytes())?,
        ["input", "lines"] => output.write_all(&bench_lines::input())?,
        ["input", "cases"] => stored::write(output)?,
        ["drawn", seed, count] => match (seed.parse(), count.parse()) {
            (Ok(seed), Ok(count)) => compare::write_drawn(seed, count, output)?,
            _ => return Ok(None),
        },
        ["compare", seed, count, program @ ..] if !program.is_empty() => {
            match (seed.parse(), count.parse()) {
                (Ok(seed), Ok(count)) => fine = compare::drawn(seed, count, program, output)?,
                _ => return Ok(None),
            }
        }
        ["compare-bench", program @ ..] if !program.is_empty() => {
            fine = compare::bench(program, output)?;
        }
        _ => return Ok(None),
    }
    output.flush()?;
    Ok(Some(fine))
}

fn main() -> ExitCode {
    let words: Vec<String> = std::env::args_os()
        .skip(1)
        .map(|word| word.to_string_lossy().into_owned())
        .collect();
    let words: Vec<&str> = words.iter().map(String::as_str).collect();
    let mut output = BufWriter::with_capacity(1 << 16, io::stdout().lock());
    match run(&words, &mut output) {
        Ok(Some(true)) => ExitCode::SUCCESS,
        Ok(Some(false)) => ExitCode::FAILURE,
        Ok(None) => {
            eprint!("{USAGE}");
            ExitCode::from(2)
        }
        Err(error) if error.kind() == io::ErrorKind::BrokenPipe => ExitCode::SUCCESS,
        Err(error) => {
            eprintln!("second: {error}");
            ExitCode::FAILURE
        }
    }
}
