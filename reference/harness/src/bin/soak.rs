//! Many jobs through one `replay` process, or newcomers through one `rounds` process: the
//! same set again and again, every answer compared each time, the resident memory sampled.
//!
//! Exit status: 0 no drift and constant memory, 1 otherwise, 2 bad usage.

use harness::arguments::{fail, Arguments};
use harness::soak::{frames, orders, soak};

const USAGE: &str = "soak [--replay PATH | --rounds PATH] [--jobs N] [--seconds S] [--seed N]";

fn main() {
    let known = ["--replay", "--rounds", "--jobs", "--seconds", "--seed"];
    let arguments = Arguments::read(USAGE, &known);
    let seed = arguments.number("--seed", 0);
    let (path, set, most) = match (arguments.text("--rounds"), arguments.replay()) {
        (Some(path), _) => (String::from(path), orders(seed), 1_000_000),
        (None, Some(path)) => (path, frames(seed), 10_000_000),
        (None, None) => fail("no replay: name it by --replay or REPLAY, or name a --rounds"),
    };
    let jobs = arguments.number("--jobs", most);
    println!("through {path}");
    println!(
        "a set of {} {}, {} of them jobs, {} bytes, {} steps; {jobs} jobs asked for",
        set.count,
        set.parts,
        set.jobs,
        set.stream.len(),
        set.steps
    );
    let good = soak(&path, set, jobs, arguments.seconds(u64::MAX));
    std::process::exit(if good { 0 } else { 1 });
}
