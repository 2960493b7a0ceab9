//! The leak test over a portal, or over `replay`.
//!
//! Exit status: 0 no leak, 1 a leak, 2 bad usage.

use harness::arguments::{fail, Arguments};
use harness::leaks::{try_pair, try_replay, Found, Pairs, Tally};
use harness::portal::Portal;
use harness::replay::Replay;
use harness::search::{each_leak, no_leak, Bounds};
use reference::job::command;
use reference::mistake::{Mistake, RULED_COMMANDS};

const USAGE: &str =
    "leak [--portal linked|fast|reference | --replay PATH] [--mistake NAME] [--pairs N] [--seconds S]
    [--seed N] [--command N] [--forever] [--each-mistake]
    --command: only pairs in which a side carries it out";

const KNOWN: [&str; 9] = [
    "--portal",
    "--replay",
    "--mistake",
    "--pairs",
    "--seconds",
    "--seed",
    "--command",
    "--forever",
    "--each-mistake",
];

fn main() {
    let arguments = Arguments::read(USAGE, &KNOWN);
    let good = match arguments.has("--each-mistake") {
        true => each_mistake(&arguments),
        false => search(&arguments),
    };
    std::process::exit(if good { 0 } else { 1 });
}

/// What the pairs go through.
enum Through {
    Portal(Portal),
    Replay(Replay),
}

const MANY: u64 = 20_000;

/// Pairs for one process.
const BATCH: u64 = 500;

impl Through {
    fn read(arguments: &Arguments) -> Through {
        match arguments.text("--replay") {
            Some(path) => Through::Replay(Replay { path: path.into() }),
            None => Through::Portal(arguments.portal(arguments.mistake())),
        }
    }

    fn name(&self) -> String {
        match self {
            Through::Portal(portal) => format!("portal: {}", portal.name()),
            Through::Replay(replay) => format!("replay: {}", replay.path),
        }
    }

    fn try_some(
        &self,
        pairs: Pairs,
        seed: u64,
        most: u64,
        tally: &mut Tally,
    ) -> Result<(), Box<Found>> {
        match self {
            Through::Portal(portal) => try_pair(*portal, pairs, seed, tally),
            Through::Replay(replay) => {
                try_replay(replay, pairs, seed..seed + BATCH.min(most), tally)
            }
        }
    }

    fn smallest(&self, found: &Found) -> Found {
        match self {
            Through::Portal(portal) => found.smallest(*portal),
            Through::Replay(replay) => found.smallest_replayed(replay),
        }
    }
}

/// True where no pair gave anything away.
fn search(arguments: &Arguments) -> bool {
    let through = Through::read(arguments);
    println!("{}", through.name());
    let bounds = Bounds::read(arguments, "--pairs", MANY);
    let pairs = pairs(arguments);
    let some = |seed, most, tally: &mut Tally| through.try_some(pairs, seed, most, tally);
    no_leak("leak", bounds, some, |found| through.smallest(found))
}

/// `--command N`.
fn pairs(arguments: &Arguments) -> Pairs {
    match arguments.number("--command", u64::MAX) {
        u64::MAX => Pairs::Any,
        number if number < command::COUNT as u64 => Pairs::With(number as u8),
        other => fail(&format!("no command {other}")),
    }
}

fn each_mistake(arguments: &Arguments) -> bool {
    let rules = RULED_COMMANDS.map(Mistake::NoRule);
    let bounds = Bounds::read(arguments, "--pairs", MANY);
    each_leak(
        bounds,
        Mistake::LEAKING.into_iter().chain(rules),
        |mistake, seed| {
            let portal = Portal::Reference(mistake);
            try_pair(portal, Pairs::Any, seed, &mut Tally::default()).is_err()
        },
    )
}
