//! Generated histories through the `history` program and through the fast
//! version, compared with the reference.
//!
//! Exit status: 0 no difference, 1 a difference, 2 bad usage.

use harness::arguments::{fail, Arguments};
use harness::histories::{beginning, check, cut_is_told, show, Player, Through, Told, Wrong};
use harness::progress::Progress;
use harness::replay::Replay;
use harness::search::{each_found, planted, Bounds};
use reference::coverage::Coverage;
use reference::generate;
use reference::history::Event;
use reference::mistake::Mistake;
use reference::shrink;

const USAGE: &str =
    "histories [--history PATH | --no-history] [--no-fast] [--histories N] [--seconds S] [--seed N]
    [--forever] [--mistake NAME] [--each-mistake] [--coverage] [--moved]

--moved: histories in which nodes are removed, and what stands is written, loaded and gone on with";

const KNOWN: [&str; 11] = [
    "--history",
    "--no-history",
    "--no-fast",
    "--histories",
    "--seconds",
    "--seed",
    "--forever",
    "--mistake",
    "--each-mistake",
    "--coverage",
    "--moved",
];

/// Enough to reach everything.
const MANY: u64 = 10_000;

/// Histories for one process.
const BATCH: u64 = 100;

fn main() {
    let arguments = Arguments::read(USAGE, &KNOWN);
    let mut sides = Vec::new();
    match (arguments.has("--no-history"), arguments.text("--history")) {
        (true, _) => {}
        (false, Some(path)) => sides.push(Through::Program(Replay { path: path.into() })),
        (false, None) => fail("no history: name it by --history, or say --no-history"),
    }
    if !arguments.has("--no-fast") {
        sides.push(Through::Player(Player::Fast));
    }
    for side in &sides {
        println!("compared: {}", side.name());
    }
    let good = match arguments.has("--each-mistake") {
        true => each_mistake(&sides, &arguments),
        false => compare(&sides, &arguments),
    };
    std::process::exit(if good { 0 } else { 1 });
}

/// True where no difference was found.
fn compare(sides: &[Through], arguments: &Arguments) -> bool {
    let bounds = Bounds::read(arguments, "--histories", MANY);
    let seed = bounds.seed;
    let mistake = arguments.mistake();
    let moved = arguments.has("--moved");
    let make = if moved {
        generate::moved
    } else {
        generate::history
    };
    let mut coverage = Coverage::new();
    let mut progress = Progress::new("histories");
    let (mut done, mut events) = (0, 0);
    println!("seed {seed}");
    while bounds.go_on(done) {
        let first = seed + done;
        let histories = generated(make, first, BATCH.min(bounds.most - done));
        for side in sides {
            for (place, told) in told(side, &histories).iter().enumerate() {
                let history = &histories[place];
                if let Err(wrong) = check(history, told, mistake, &mut coverage) {
                    report(side, first + place as u64, history, &wrong, mistake);
                    return false;
                }
            }
        }
        done += histories.len() as u64;
        events += histories.iter().map(Vec::len).sum::<usize>();
        if bounds.forever {
            progress.show(|| format!("{done} histories, no difference"));
        }
    }
    if !cuts(sides, seed) {
        return false;
    }
    if arguments.has("--coverage") {
        println!("{coverage}");
    }
    let missing = coverage.missing_of_histories();
    if !missing.is_empty() && done >= MANY && !moved {
        println!("never reached: {missing:?}");
        return false;
    }
    let seconds = bounds.seconds();
    println!("{done} histories of {events} events in {seconds:.1} s, no difference");
    true
}

fn generated(make: fn(u64) -> Vec<Event>, first: u64, count: u64) -> Vec<Vec<Event>> {
    (first..first + count).map(make).collect()
}

fn told(side: &Through, histories: &[Vec<Event>]) -> Vec<Told> {
    let histories: Vec<&[Event]> = histories.iter().map(Vec::as_slice).collect();
    side.told(&histories)
}

/// The smallest history that shows it.
fn report(side: &Through, seed: u64, history: &[Event], wrong: &Wrong, mistake: Mistake) {
    let wrong_of = |events: &[Event]| {
        check(
            events,
            &side.told_one(events),
            mistake,
            &mut Coverage::new(),
        )
        .err()
    };
    let failing = |events: &[Event]| matches!(wrong_of(events), Some(Wrong::Unlike(..)));
    let small = match wrong {
        Wrong::Open(_) => history.to_vec(),
        Wrong::Unlike(..) => shrink::history(history, &failing),
    };
    println!(
        "{} differs from the reference, seed {seed}\nthe smallest history that shows it\n\n{}",
        side.name(),
        show(&small)
    );
    match wrong_of(&small) {
        Some(Wrong::Unlike(number, unlike)) => println!(
            "event {number}\nexpected\n{}got\n{}",
            beginning(&unlike.expected),
            beginning(&unlike.got)
        ),
        other => println!("{other:?}"),
    }
}

/// Streams whose last event is cut.
fn cuts(sides: &[Through], seed: u64) -> bool {
    let history = generate::history(seed + 3);
    sides.iter().all(|side| match side {
        Through::Program(program) => {
            cut_is_told(program, &history, |before| side.told_one(before).parts)
        }
        Through::Player(_) => true,
    })
}

/// Whether each planted mistake shows in what each side prints.
fn each_mistake(sides: &[Through], arguments: &Arguments) -> bool {
    let bounds = Bounds::read(arguments, "--histories", MANY);
    let histories = generated(generate::history, bounds.seed, bounds.most);
    let mut all = true;
    for side in sides {
        let batches = histories.chunks(BATCH as usize);
        let printed: Vec<Told> = batches.flat_map(|batch| told(side, batch)).collect();
        let mistakes = Mistake::FOLLOWING.into_iter().chain(Mistake::WRITING);
        all &= planted(mistakes, &side.name(), |mistake| {
            let mut pairs = histories.iter().zip(&printed);
            let place = pairs.position(|(history, told)| {
                let wrong = check(history, told, mistake, &mut Coverage::new());
                matches!(wrong, Err(Wrong::Unlike(..)))
            });
            place.map(|place| format!("history {place}"))
        });
    }
    each_found("mistake", all)
}
