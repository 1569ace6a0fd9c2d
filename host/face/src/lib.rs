//! Drawn calls of the C face of libmontrakit.a, made in memory whose borders are watched, and what they have to
//! leave.

pub mod call;
pub mod drawn;
pub mod fault;
pub mod guard;
pub mod raw;
pub mod safe;
pub mod show;
pub mod tally;
pub mod wanted;
