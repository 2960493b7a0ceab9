//! The same work under a smaller and a larger budget: jobs through a portal, and
//! whole outcomes of `replay`, `history` and `rounds` where they are named.
//!
//! Exit status: 0 nothing said was changed, 1 something was, 2 bad usage.

use std::ops::Range;

use harness::arguments::Arguments;
use harness::budgets::{through_history, through_portal, through_replay, through_rounds, Tally};
use harness::histories;
use harness::portal::Portal;
use harness::replay::Replay;
use harness::search::{each_found, planted, Bounds};
use reference::mistake::Mistake;

const USAGE: &str =
    "budgets [--portal linked|fast|reference | --no-portal] [--replay PATH] [--history PATH] [--rounds PATH]
    [--jobs N] [--seconds S] [--seed N] [--mistake NAME] [--each-mistake]
    --jobs: of a portal and of replay; a fifth of it histories, a fiftieth orders of newcomers and turns";

const KNOWN: [&str; 10] = [
    "--portal",
    "--no-portal",
    "--replay",
    "--history",
    "--rounds",
    "--jobs",
    "--seconds",
    "--seed",
    "--mistake",
    "--each-mistake",
];

const MANY: u64 = 20_000;

/// Seeds for one call of what is compared.
const BATCH: u64 = 200;

type Compared<'a> = Box<dyn Fn(Range<u64>, &mut Tally) -> Result<(), String> + 'a>;

fn main() {
    let arguments = Arguments::read(USAGE, &KNOWN);
    let good = match arguments.has("--each-mistake") {
        true => each_mistake(&arguments),
        false => compare(&arguments),
    };
    std::process::exit(if good { 0 } else { 1 });
}

/// True where no larger budget changed what was said.
fn compare(arguments: &Arguments) -> bool {
    let program = |name: &str| {
        let path = arguments.text(name)?;
        Some(Replay { path: path.into() })
    };
    let mut all: Vec<(String, u64, Compared)> = Vec::new();
    if !arguments.has("--no-portal") {
        let portal = arguments.portal(arguments.mistake());
        let each = move |seeds: Range<u64>, tally: &mut Tally| {
            seeds
                .into_iter()
                .try_for_each(|seed| through_portal(portal, seed, tally))
        };
        all.push((portal.name(), 1, Box::new(each)));
    }
    if let Some(replay) = program("--replay") {
        let name = replay.path.clone();
        let some = move |seeds, tally: &mut Tally| through_replay(&replay, seeds, tally);
        all.push((name, 1, Box::new(some)));
    }
    if let Some(history) = program("--history") {
        let name = history.path.clone();
        let through = histories::Through::Program(history);
        let some = move |seeds, tally: &mut Tally| through_history(&through, seeds, tally);
        all.push((name, 5, Box::new(some)));
    }
    if let Some(rounds) = program("--rounds") {
        let name = rounds.path.clone();
        let some = move |seeds, tally: &mut Tally| through_rounds(&rounds, seeds, tally);
        all.push((name, 50, Box::new(some)));
    }
    all.iter().all(|(name, part, compared)| {
        let bounds = Bounds::read(arguments, "--jobs", MANY);
        one(name, &bounds, bounds.most / part, compared)
    })
}

fn one(name: &str, bounds: &Bounds, most: u64, compared: &Compared) -> bool {
    println!("through {name}, seed {}", bounds.seed);
    let mut tally = Tally::default();
    let mut done = 0;
    while bounds.go_on(done) && done < most {
        let first = bounds.seed + done;
        let count = BATCH.min(most - done);
        if let Err(wrong) = compared(first..first + count, &mut tally) {
            println!("a larger budget changes what was said\n{wrong}");
            return false;
        }
        done += count;
    }
    let Tally {
        same,
        spent,
        more_lines,
    } = tally;
    println!("{done} under two budgets: {same} outcomes that did not end with 25, {spent} that did, {more_lines} with more lines then");
    if 10 * same < done || 10 * spent < done || 100 * more_lines < done {
        println!("too few of them could have shown anything");
        return false;
    }
    println!("nothing said was changed, in {:.1} s", bounds.seconds());
    true
}

/// Whether each planted mistake shows, in the reference as a portal.
fn each_mistake(arguments: &Arguments) -> bool {
    let bounds = Bounds::read(arguments, "--jobs", MANY);
    let all = planted(Mistake::SPENDING, "the reference", |mistake| {
        let portal = Portal::Reference(mistake);
        let found = (bounds.seed..bounds.seed + bounds.most)
            .find(|&seed| through_portal(portal, seed, &mut Tally::default()).is_err());
        found.map(|seed| format!("seed {seed}"))
    });
    each_found("mistake", all)
}
