//! A reference of the labelled-tree script monitor, written from the papers'
//! text alone. It is plain rather than fast: a tree of owned nodes, a cursor
//! that is a path, and one function for each rule.
//!
//! - [`job`]: the job's bytes, checks 1 to 8, 12 and 13; [`clean`] and [`arrange`]: the
//!   programs for stored jobs.
//! - [`run`]: checks 9 and 10, the steps, the whole outcome.
//! - [`follow`] and [`table`]: a script over a lent tree; [`writer`]: such a tree as a job
//!   again; [`history`]: the events of the `history` program.
//! - [`rounds`]: runs that take turns, and the events of the `rounds` program.
//! - [`budgets`]: what a larger budget may change.
//! - [`portal`]: the two programs around a run, as functions; [`summary`]: how many
//!   parties each node carries matters of.
//! - [`public`]: public parts, agreement, and what a leak is.
//! - [`generate`]: cases and pairs of cases from a seed.
//! - [`coverage`]: what a set of generated cases has reached.
//! - [`mistake`]: planted mistakes for trying a harness.
//! - [`print`] and [`shrink`]: for failing cases.

pub mod arrange;
pub mod budgets;
pub mod clean;
pub mod coverage;
pub mod ending;
pub mod follow;
pub mod generate;
pub mod history;
pub mod job;
pub mod mistake;
pub mod portal;
pub mod print;
pub mod public;
pub mod random;
pub mod rounds;
pub mod run;
pub mod shrink;
pub mod source;
pub mod summary;
pub mod table;
pub mod tree;
pub mod writer;

/// "A level becomes one byte, a set of eight parties whose matters a number
/// carries; 0 is public and the old 1 is the first party." (R-12)
pub type Level = u8;

pub const PUBLIC: Level = 0;
/// The first party.
pub const HOUSE: Level = 1;
pub const PARTIES: u32 = 8;

/// "Joining is union".
pub fn join(a: Level, b: Level) -> Level {
    a | b
}

/// "not above means contained in": each party of `a` is one of `b`.
pub fn within(a: Level, b: Level) -> bool {
    (0..PARTIES).all(|party| !holds(a, party) || holds(b, party))
}

/// Whether a party is one of the set.
pub fn holds(level: Level, party: u32) -> bool {
    (level >> party) % 2 == 1
}

/// Neither is contained in the other.
pub fn apart(a: Level, b: Level) -> bool {
    !within(a, b) && !within(b, a)
}
