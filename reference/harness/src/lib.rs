//! Compares the proved programs with the reference, and measures them.
//!
//! - [`frame`]: the frames that `replay` reads, and what it must print.
//! - [`replay`]: a `replay` process.
//! - [`portal`]: the portal that is tried: linked, fast, or the reference.
//! - [`programs`]: what `board` and `inspect` must print; [`stored`]: `clean` and
//!   `arrange`.
//! - [`differential`]: whole outcomes against the reference.
//! - [`histories`]: scripts over a standing tree, through `history`.
//! - [`rounds`]: runs that take turns, through `rounds`.
//! - [`budgets`]: the same work under two budgets.
//! - [`leaks`]: pairs of jobs that agree on their public parts.
//! - [`history_pairs`]: pairs of histories.
//! - [`quick`]: outcomes of the fast version.
//! - [`workloads`], [`bench`], [`clock`] and [`instructions`]: the jobs that are
//!   measured, and how; [`lua`]: the same work in Lua; [`turns`]: what turns cost.
//! - [`soak`] and [`memory`]: a process that runs for long, and its memory.
//! - [`input`]: what the stand-ins read.
//! - [`search`], [`arguments`] and [`progress`]: what the searches over seeds
//!   share, the command lines and the progress lines.

pub mod arguments;
pub mod bench;
pub mod budgets;
pub mod clock;
pub mod differential;
pub mod frame;
pub mod histories;
pub mod history_pairs;
pub mod input;
pub mod instructions;
pub mod leaks;
pub mod lua;
pub mod memory;
pub mod portal;
pub mod programs;
pub mod progress;
pub mod quick;
pub mod replay;
pub mod rounds;
pub mod search;
pub mod soak;
pub mod stored;
pub mod turns;
pub mod workloads;
