//! Random orders of newcomers and turns through the `rounds` program and through the
//! fast version, compared with the reference.
//!
//! Exit status: 0 no difference, 1 a difference, 2 bad usage.

use harness::arguments::{fail, Arguments};
use harness::differential::Unlike;
use harness::histories::{beginning, cut_is_told};
use harness::progress::Progress;
use harness::replay::Replay;
use harness::rounds::{check, show, Through, Told};
use harness::search::{each_found, planted, Bounds};
use reference::coverage::Coverage;
use reference::generate;
use reference::history::Event;
use reference::mistake::Mistake;
use reference::shrink;

const USAGE: &str =
    "rounds [--rounds PATH | --no-rounds] [--no-fast] [--orders N] [--seconds S] [--seed N]
    [--forever] [--mistake NAME] [--each-mistake] [--coverage]";

const KNOWN: [&str; 10] = [
    "--rounds",
    "--no-rounds",
    "--no-fast",
    "--orders",
    "--seconds",
    "--seed",
    "--forever",
    "--mistake",
    "--each-mistake",
    "--coverage",
];

/// Enough to reach everything.
const MANY: u64 = 10_000;

/// Orders for one process.
const BATCH: u64 = 100;

fn main() {
    let arguments = Arguments::read(USAGE, &KNOWN);
    let mut sides = Vec::new();
    match (arguments.has("--no-rounds"), arguments.rounds()) {
        (true, _) => {}
        (false, Some(path)) => sides.push(Through::Program(Replay { path })),
        (false, None) => fail("no rounds: name it by --rounds or ROUNDS, or say --no-rounds"),
    }
    if !arguments.has("--no-fast") {
        sides.push(Through::Fast);
    }
    for side in &sides {
        println!("compared: {}", side.name());
    }
    let good = match arguments.has("--each-mistake") {
        true => each_mistake(&sides, &arguments),
        false => compare(&sides, &arguments),
    };
    std::process::exit(if good { 0 } else { 1 });
}

/// True where no difference was found.
fn compare(sides: &[Through], arguments: &Arguments) -> bool {
    let bounds = Bounds::read(arguments, "--orders", MANY);
    let mistake = arguments.mistake();
    let mut coverage = Coverage::new();
    let mut progress = Progress::new("rounds");
    let (mut done, mut events) = (0, 0);
    println!("seed {}", bounds.seed);
    while bounds.go_on(done) {
        let first = bounds.seed + done;
        let orders = generated(first, BATCH.min(bounds.most - done));
        for side in sides {
            for ((order, told), seed) in orders.iter().zip(told(side, &orders)).zip(first..) {
                if let Err(wrong) = check(order, &told, mistake, &mut coverage) {
                    report(side, seed, order, wrong, mistake);
                    return false;
                }
            }
        }
        done += orders.len() as u64;
        events += orders.iter().map(Vec::len).sum::<usize>();
        if bounds.forever {
            progress.show(|| format!("{done} orders, no difference"));
        }
    }
    if !cuts(sides, bounds.seed) {
        return false;
    }
    if arguments.has("--coverage") {
        println!("{coverage}");
    }
    let missing = coverage.missing_of_rounds();
    if !missing.is_empty() && done >= MANY {
        println!("never reached: {missing:?}");
        return false;
    }
    let seconds = bounds.seconds();
    println!("{done} orders of {events} newcomers and turns in {seconds:.1} s, no difference");
    true
}

fn generated(first: u64, count: u64) -> Vec<Vec<Event>> {
    (first..first + count).map(generate::order).collect()
}

fn told(side: &Through, orders: &[Vec<Event>]) -> Vec<Told> {
    let orders: Vec<&[Event]> = orders.iter().map(Vec::as_slice).collect();
    side.told(&orders)
}

/// The smallest order that shows it; the order as it is, where it does not by itself.
fn report(side: &Through, seed: u64, order: &[Event], wrong: (usize, Unlike), mistake: Mistake) {
    let wrong_of = |events: &[Event]| {
        let told = side.told_one(events);
        check(events, &told, mistake, &mut Coverage::new()).err()
    };
    println!("{} differs from the reference, seed {seed}", side.name());
    let (small, (number, unlike)) = match wrong_of(order) {
        Some(_) => {
            let small = shrink::history(order, &|events| wrong_of(events).is_some());
            let wrong = wrong_of(&small).expect("the smallest order fails too");
            (small, wrong)
        }
        None => {
            println!("only after the orders before it; by itself it does not");
            (order.to_vec(), wrong)
        }
    };
    println!("the smallest order that shows it\n\n{}", show(&small));
    let Unlike { expected, got } = unlike;
    println!(
        "event {number}\nexpected\n{}got\n{}",
        beginning(&expected),
        beginning(&got)
    );
}

/// Streams whose last event is cut.
fn cuts(sides: &[Through], seed: u64) -> bool {
    let mut orders = (seed..seed + 5).map(generate::order);
    orders.all(|order| {
        sides.iter().all(|side| match side {
            Through::Program(program) => {
                cut_is_told(program, &order, |before| side.told_one(before).parts)
            }
            Through::Fast => true,
        })
    })
}

/// Whether each planted mistake shows in what each side prints.
fn each_mistake(sides: &[Through], arguments: &Arguments) -> bool {
    let bounds = Bounds::read(arguments, "--orders", MANY);
    let orders = generated(bounds.seed, bounds.most);
    let mut all = true;
    for side in sides {
        let batches = orders.chunks(BATCH as usize);
        let printed: Vec<Told> = batches.flat_map(|batch| told(side, batch)).collect();
        all &= planted(Mistake::TURNING, &side.name(), |mistake| {
            let mut pairs = orders.iter().zip(&printed);
            let place = pairs.position(|(order, told)| {
                check(order, told, mistake, &mut Coverage::new()).is_err()
            });
            place.map(|place| format!("order {place}"))
        });
    }
    each_found("mistake", all)
}
