//! An independent slave by document 01 and master's half by document 02, §1: they share no code with what
//! they are compared with. Around them lists of lines, drawn lines, and comparisons.

pub mod bench;
pub mod bench_lines;
pub mod bits;
pub mod builds;
pub mod calls;
pub mod cases;
pub mod check_word;
pub mod compare;
pub mod drawn;
pub mod drawn_master;
pub mod edges;
pub mod exchanges;
pub mod hex;
pub mod lines;
pub mod lists;
pub mod malformed;
pub mod master;
pub mod published;
pub mod random;
pub mod readings;
pub mod slave;
pub mod stored;
pub mod tally;
