//! The table: a line for each row, then what is said of all rows.

use crate::rows::Row;

/// Ours and the rival's.
pub type Pair = [f64; 2];

fn ratio([ours, rival]: Pair) -> f64 {
    ours / rival
}

/// A pair and its ratio, with so many decimals; dashes if it was not measured.
fn columns(pair: Option<&Pair>, decimals: usize) -> String {
    match pair {
        Some(&[ours, rival]) => {
            let ratio = ratio([ours, rival]);
            format!("{ours:>9.decimals$} {rival:>9.decimals$} {ratio:>6.2}")
        }
        None => format!("{:>9} {:>9} {:>6}", "-", "-", "-"),
    }
}

pub fn print(rows: &[Row], nanoseconds: &[Pair], instructions: &[Pair]) {
    println!("{:34} {:^26} | {:^26}", "", "nanoseconds", "instructions");
    let heads = format!("{:>9} {:>9} {:>6}", "ours", "rival", "ratio");
    println!("{:34} {heads} | {heads}", "call");
    for (place, row) in rows.iter().enumerate() {
        let nanoseconds = columns(nanoseconds.get(place), 1);
        let instructions = columns(instructions.get(place), 0);
        println!("{:34} {nanoseconds} | {instructions}", row.name);
    }
    println!();
    print_worst("nanoseconds", rows, nanoseconds);
    print_worst("instructions", rows, instructions);
}

/// Says nothing if nothing was measured.
fn print_worst(what: &str, rows: &[Row], pairs: &[Pair]) {
    let ratios = pairs.iter().map(|&pair| ratio(pair));
    let above = ratios.clone().filter(|&ratio| ratio > 1.0).count();
    let worst = ratios
        .zip(rows)
        .max_by(|(one, _), (other, _)| one.total_cmp(other));
    if let Some((ratio, row)) = worst {
        let (name, count) = (&row.name, rows.len());
        println!("{what}: worst ratio {ratio:.2} ({name}); {above} of {count} rows above 1");
    }
}
