//! The leak test over histories.
//!
//! Exit status: 0 no leak, 1 a leak, 2 bad usage.

use harness::arguments::{fail, Arguments};
use harness::histories::{Player, Through};
use harness::history_pairs::{try_histories, Tally};
use harness::replay::Replay;
use harness::search::{each_leak, no_leak, Bounds};
use reference::mistake::Mistake;

const USAGE: &str =
    "history_pairs --history PATH | --player fast|reference [--mistake NAME] | --each-mistake
    [--pairs N] [--seconds S] [--seed N] [--forever]";

const KNOWN: [&str; 8] = [
    "--history",
    "--player",
    "--mistake",
    "--each-mistake",
    "--pairs",
    "--seconds",
    "--seed",
    "--forever",
];

const MANY: u64 = 20_000;

/// Pairs for one process.
const BATCH: u64 = 100;

fn main() {
    let arguments = Arguments::read(USAGE, &KNOWN);
    let good = match arguments.has("--each-mistake") {
        true => each_mistake(&arguments),
        false => search(&arguments),
    };
    std::process::exit(if good { 0 } else { 1 });
}

fn through(arguments: &Arguments) -> Through {
    match (arguments.text("--history"), arguments.text("--player")) {
        (Some(path), None) => Through::Program(Replay { path: path.into() }),
        (None, Some("fast")) => Through::Player(Player::Fast),
        (None, Some("reference")) => Through::Player(Player::Reference(arguments.mistake())),
        _ => fail(&format!("usage: {USAGE}")),
    }
}

/// True where no pair gave anything away.
fn search(arguments: &Arguments) -> bool {
    let through = through(arguments);
    println!("{}", through.name());
    let bounds = Bounds::read(arguments, "--pairs", MANY);
    let some = |seed, most, tally: &mut Tally| {
        try_histories(&through, seed..seed + BATCH.min(most), tally)
    };
    no_leak("history_pairs", bounds, some, |found| {
        found.smallest(&through)
    })
}

fn each_mistake(arguments: &Arguments) -> bool {
    let mistakes = Mistake::LEAKING_ON.into_iter().chain(Mistake::LEAKING);
    let bounds = Bounds::read(arguments, "--pairs", MANY);
    each_leak(bounds, mistakes, |mistake, seed| {
        let through = Through::Player(Player::Reference(mistake));
        try_histories(&through, seed..seed + 1, &mut Tally::default()).is_err()
    })
}
