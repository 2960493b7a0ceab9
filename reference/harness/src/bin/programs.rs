//! Generated jobs through `board`, `inspect` and `summary`, both streams compared with
//! what the reference says that they print.
//!
//! Exit status: 0 no difference, 1 a difference, 2 bad usage.

use harness::arguments::{fail, Arguments};
use harness::programs::{board, inspect, printed, summed, Streams};
use reference::generate::{self, Case};
use reference::{print, shrink};

const USAGE: &str =
    "programs [--board PATH] [--inspect PATH] [--summary PATH] [--jobs N] [--seed N]";

/// A program's name, its path if it is to be tried, and what it must print for
/// a job.
type Program<'a> = (&'static str, Option<&'a str>, fn(&[u8]) -> Streams);

fn main() {
    let known = ["--board", "--inspect", "--summary", "--jobs", "--seed"];
    let arguments = Arguments::read(USAGE, &known);
    let all: [Program; 3] = [
        ("board", arguments.text("--board"), board),
        ("inspect", arguments.text("--inspect"), inspect),
        ("summary", arguments.text("--summary"), summed),
    ];
    let programs: Vec<Program> = all
        .into_iter()
        .filter(|program| program.1.is_some())
        .collect();
    if programs.is_empty() {
        fail(&format!("usage: {USAGE}"));
    }
    let seed = arguments.number("--seed", 0);
    let jobs = arguments.number("--jobs", 1_000);
    println!("seed {seed}");
    for seed in seed..seed + jobs {
        let case = generate::case(seed);
        for &program in &programs {
            if differs(program, &case) {
                report(program, seed, &case);
                std::process::exit(1);
            }
        }
    }
    let names: Vec<&str> = programs.iter().map(|program| program.0).collect();
    println!("{jobs} jobs through {}, no difference", names.join(" and "));
}

fn differs((_, path, wanted): Program, case: &Case) -> bool {
    let got = path.map(|path| printed(path, &case.bytes));
    got.is_some_and(|got| got != Ok(wanted(&case.bytes)))
}

fn report(program: Program, seed: u64, case: &Case) {
    let (name, path, wanted) = program;
    let small = shrink::case(case, &|case| differs(program, case));
    println!("{name} differs from the reference, seed {seed}; the smallest job that shows it");
    println!("{}", print::case(&small));
    println!("expected {:#?}", wanted(&small.bytes));
    println!("got {:#?}", path.map(|path| printed(path, &small.bytes)));
}
