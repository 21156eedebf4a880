//! The term engine in ordinary Rust, with the rules, entry checks and refusals of the proved one.
//!
//! It serves as an independent model in tests and as the measure of speed. Any words, counts,
//! roots and lengths may arrive; a refusal is `Err` of its number and changes no lent word.

// The public calls take what the C interface lends, argument for argument.
#![allow(clippy::too_many_arguments)]
#![forbid(unsafe_code)]

pub mod calls;
pub mod cell;
mod copy;
mod cycle;
mod store;
mod trail;
mod unify;

pub use cell::number;
pub use copy::copy;
pub use cycle::cyclic;
pub use store::{append, check, follow, LIMIT};
pub use trail::{cut, mark, rollback};
pub use unify::{unify, unify_checked};

/// Work words that unification and copying ask for, for each used cell.
pub const WORK_PER_CELL: usize = 12;

/// The refusal numbers; where several hold, a call gives the lowest.
pub mod refusal {
    pub const CELLS: u64 = 1;
    pub const TRAIL_OR_MARKS: u64 = 2;
    pub const ROOT: u64 = 3;
    pub const WORK: u64 = 4;
    pub const TRAIL_ROOM: u64 = 5;
    pub const CYCLIC_ROOT: u64 = 6;
    pub const ROOM: u64 = 7;
    pub const NO_SUCH_MARK: u64 = 8;
    pub const APPENDED: u64 = 9;
    pub const LEFT_BEHIND: u64 = 10;
    pub const NUMBER: u64 = 11;
}

/// `Err(number)` unless `holds`: the refusals of a call read as a list of conditions.
fn require(holds: bool, number: u64) -> Result<(), u64> {
    if holds {
        Ok(())
    } else {
        Err(number)
    }
}
