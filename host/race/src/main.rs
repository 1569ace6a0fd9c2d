//! Measures calls of the C face of libmontrakit.a beside a rival, a plain Rust slave and master of the same
//! rules: nanoseconds, and under callgrind instructions. First both make drawn calls and have to agree.

mod compare;
mod instructions;
mod make;
mod rival;
mod rows;
mod table;
mod time;
mod valgrind;

use face::raw::Rooms;
use instructions::UNDER_CALLGRIND;
use rows::rows;
use std::process::ExitCode;

const USAGE: &str = "\
usage: speed COUNT    compares COUNT drawn calls and all rows, then measures the rows
";

fn measure(count: u64) -> Result<(), String> {
    let rows = rows();
    let mut rooms = Rooms::new().map_err(|error| error.to_string())?;
    compare::drawn(&mut rooms, count)?;
    compare::rows(&mut rooms, &rows)?;
    println!(
        "The rival answers as ours does: {count} drawn calls and {} rows.\n",
        rows.len()
    );
    let nanoseconds = time::nanoseconds(&rows);
    let instructions = instructions::instructions(&rows).unwrap_or_else(|error| {
        println!("Instructions are not counted: {error}.");
        Vec::new()
    });
    table::print(&rows, &nanoseconds, &instructions);
    Ok(())
}

fn main() -> ExitCode {
    let words: Vec<String> = std::env::args_os()
        .skip(1)
        .map(|word| word.to_string_lossy().into_owned())
        .collect();
    let count = match &words[..] {
        [word] if word == UNDER_CALLGRIND => {
            instructions::make_calls(rows());
            return ExitCode::SUCCESS;
        }
        [count] => count.parse().ok(),
        _ => None,
    };
    let Some(count) = count else {
        eprint!("{USAGE}");
        return ExitCode::from(2);
    };
    match measure(count) {
        Ok(()) => ExitCode::SUCCESS,
        Err(text) => {
            println!("{text}");
            ExitCode::FAILURE
        }
    }
}
