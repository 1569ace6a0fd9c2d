//! Instructions of a call: this program runs itself under callgrind, which writes a dump for each row and side.

use crate::make::make;
use crate::rival::RIVAL;
use crate::rows::Row;
use crate::table::Pair;
use crate::valgrind::count;
use face::raw::{Functions, OURS};
use std::arch::global_asm;
use std::collections::BTreeMap;
use std::ffi::CString;
use std::path::{Path, PathBuf};
use std::process::{Command, Stdio};
use std::{env, fs, io, process};

/// The word on the command line that asks for the calls alone.
pub const UNDER_CALLGRIND: &str = "under-callgrind";

// One function under three names: it has one instruction. What a call of it takes besides, any call takes.
global_asm!(
    ".globl race_check_word, race_respond, race_ask",
    "race_check_word:",
    "race_respond:",
    "race_ask:",
    "ret",
);
const ITS_INSTRUCTIONS: u64 = 1;

unsafe extern "C" {
    fn race_check_word(bytes: *const u8, bytes_len: usize) -> u16;
    fn race_respond(
        own: u8,
        counting: u8,
        state: u8,
        areas: *const u16,
        areas_len: usize,
        frame: *const u8,
        frame_len: usize,
        image: *mut u16,
        image_len: usize,
        reply: *mut u8,
        reply_len: usize,
    ) -> u32;
    fn race_ask(
        station: u8,
        function: u8,
        start: u16,
        value: u16,
        given: *const u8,
        given_len: usize,
        lent: *mut u8,
        lent_len: usize,
    ) -> u32;
}

const NOTHING: Functions = Functions {
    check_word: race_check_word,
    respond: race_respond,
    build: race_ask,
    read: race_ask,
};

const SIDES: [&Functions; 3] = [&NOTHING, &OURS, &RIVAL];

fn dump_name(row: usize, side: usize) -> String {
    format!("row {row} side {side}")
}

/// What runs under callgrind: a call of each row and side, and a dump for each.
pub fn make_calls(rows: Vec<Row>) {
    for (number, mut row) in rows.into_iter().enumerate() {
        for (side, functions) in SIDES.into_iter().enumerate() {
            let name = CString::new(dump_name(number, side)).expect("a name without a zero");
            make(functions, &mut row.call, 1);
            count(&name, || make(functions, &mut row.call, 1));
        }
    }
}

/// The name of a dump, and the instructions that it counts; None for one that has no name.
fn read_dump(path: &Path) -> Option<(String, u64)> {
    let text = fs::read_to_string(path).ok()?;
    let field = |start: &str| text.lines().find_map(|line| line.strip_prefix(start));
    let name = field("desc: Trigger: Client Request: ")?;
    let instructions = field("totals: ")?.trim().parse().ok()?;
    Some((name.to_string(), instructions))
}

fn run_callgrind(folder: &Path) -> io::Result<()> {
    let out = folder.join("dump");
    let status = Command::new("valgrind")
        .args(["--tool=callgrind", "--collect-atstart=no", "--quiet"])
        .arg(format!("--callgrind-out-file={}", out.display()))
        .arg(env::current_exe()?)
        .arg(UNDER_CALLGRIND)
        .stdout(Stdio::null())
        .status()?;
    if status.success() {
        Ok(())
    } else {
        Err(io::Error::other(format!("valgrind: {status}")))
    }
}

fn counts(folder: &Path) -> io::Result<BTreeMap<String, u64>> {
    run_callgrind(folder)?;
    let mut counts = BTreeMap::new();
    for entry in fs::read_dir(folder)? {
        counts.extend(read_dump(&entry?.path()));
    }
    Ok(counts)
}

fn pair(counts: &BTreeMap<String, u64>, row: usize) -> Option<Pair> {
    let count = |side| counts.get(&dump_name(row, side)).copied();
    let nothing = count(0)?.checked_sub(ITS_INSTRUCTIONS)?;
    let taken = |side| Some(count(side)?.checked_sub(nothing)? as f64);
    Some([taken(1)?, taken(2)?])
}

/// An error if there is no valgrind, or it does not do what is asked.
pub fn instructions(rows: &[Row]) -> io::Result<Vec<Pair>> {
    let folder: PathBuf = env::temp_dir().join(format!("speed-{}", process::id()));
    fs::create_dir(&folder)?;
    let counts = counts(&folder);
    fs::remove_dir_all(&folder)?;
    let counts = counts?;
    (0..rows.len())
        .map(|row| pair(&counts, row))
        .collect::<Option<_>>()
        .ok_or(io::Error::other("callgrind wrote no dump for a call"))
}
