//! Makes drawn calls of the C face of libmontrakit.a, and some of them through the wrapper too, and compares
//! all that they leave with what the second program says.

use face::call::{Left, Made};
use face::drawn::{Drawing, Drawn};
use face::raw::{Rooms, OURS};
use face::show::Difference;
use face::tally::Tally;
use face::{fault, safe, wanted};
use std::io;
use std::process::ExitCode;

const USAGE: &str = "\
usage: compare SEED COUNT        makes COUNT drawn calls
       compare show SEED NUMBER  writes the call of that number, from 1, and does not make it
";

/// How many calls that went wrong are shown.
const SHOWN: u64 = 5;

struct Comparison {
    rooms: Rooms,
    tally: Tally,
    seed: u64,
    failed: u64,
}

impl Comparison {
    /// Makes a call, and the same through the wrapper if drawn so.
    fn make(&mut self, number: u64, drawn: &Drawn) {
        let wanted = wanted::left(&drawn.call);
        self.tally.count(drawn, wanted.answer);
        let got = self.rooms.make(&OURS, &drawn.call, drawn.ways);
        let mut differing = differs(&wanted, &got).then_some(("the C face", got));
        if drawn.wrapped && differing.is_none() {
            if let Some(got) = safe::make(&mut self.rooms, &drawn.call, drawn.ways) {
                self.tally.wrapped += 1;
                differing = differs(&wanted, &got).then_some(("the wrapper", got));
            }
        }
        let Some((face, got)) = differing else {
            return;
        };
        self.failed += 1;
        if self.failed <= SHOWN {
            let wanted = &wanted;
            println!("call {number} of seed {}, through {face}", self.seed);
            print!("{}{}", drawn.call, Difference { wanted, got: &got });
        }
    }
}

fn differs(wanted: &Left, got: &Made) -> bool {
    !got.kept || *wanted != got.left
}

/// Whether all calls left what they should.
fn compare(seed: u64, count: u64) -> io::Result<bool> {
    let mut comparison = Comparison {
        rooms: Rooms::new()?,
        tally: Tally::default(),
        seed,
        failed: 0,
    };
    let mut drawing = Drawing::new(seed);
    fault::watch(seed);
    for number in 1..=count {
        let drawn = drawing.draw();
        fault::in_call(number);
        comparison.make(number, &drawn);
    }
    let failed = comparison.failed;
    print!("{}", comparison.tally);
    println!("{} passed, {failed} failed", count - failed);
    Ok(failed == 0)
}

fn show(seed: u64, number: u64) {
    let mut drawing = Drawing::new(seed);
    for _ in 1..number {
        drawing.draw();
    }
    let drawn = drawing.draw();
    println!("{}  lent {:?}", drawn.call, drawn.ways);
}

/// None for a wrong command.
fn run(words: &[String]) -> Option<io::Result<bool>> {
    let number = |word: &String| word.parse::<u64>().ok();
    match words {
        [seed, count] => Some(compare(number(seed)?, number(count)?)),
        [word, seed, at] if word == "show" => {
            show(number(seed)?, number(at)?);
            Some(Ok(true))
        }
        _ => None,
    }
}

fn main() -> ExitCode {
    let words: Vec<String> = std::env::args_os()
        .skip(1)
        .map(|word| word.to_string_lossy().into_owned())
        .collect();
    match run(&words) {
        Some(Ok(true)) => ExitCode::SUCCESS,
        Some(Ok(false)) => ExitCode::FAILURE,
        Some(Err(error)) => {
            eprintln!("compare: {error}");
            ExitCode::FAILURE
        }
        None => {
            eprint!("{USAGE}");
            ExitCode::from(2)
        }
    }
}
