//! Generated jobs through `replay`, through a portal and through the fast
//! version, compared with the reference.
//!
//! Exit status: 0 no difference, 1 a difference, 2 bad usage.

use harness::arguments::{all_mistakes, fail, Arguments};
use harness::differential::{portal_unlike, spare, Sides};
use harness::frame::{self, Frame};
use harness::progress::Progress;
use harness::replay::Replay;
use harness::search::{each_found, Bounds};
use reference::coverage::Coverage;
use reference::generate::{self, Case};
use reference::mistake::Mistake;
use reference::run;

const USAGE: &str =
    "differential [--replay PATH | --no-replay] [--portal linked|fast|reference | --no-portal]
    [--no-fast] [--jobs N] [--seconds S] [--seed N] [--forever] [--mistake NAME] [--each-mistake] [--coverage]";

const KNOWN: [&str; 12] = [
    "--replay",
    "--no-replay",
    "--portal",
    "--no-portal",
    "--no-fast",
    "--jobs",
    "--seconds",
    "--seed",
    "--forever",
    "--mistake",
    "--each-mistake",
    "--coverage",
];

/// Enough to reach everything.
const MANY: u64 = 20_000;

/// Cases for one process.
const BATCH: u64 = 500;

fn main() {
    let arguments = Arguments::read(USAGE, &KNOWN);
    let replay = match (arguments.has("--no-replay"), arguments.replay()) {
        (true, _) => None,
        (false, Some(path)) => Some(Replay { path }),
        (false, None) => fail("no replay: name it by --replay or REPLAY, or say --no-replay"),
    };
    let portal = match arguments.has("--no-portal") {
        true => None,
        false => Some(arguments.portal(Mistake::None)),
    };
    let sides = Sides {
        replay,
        portal,
        fast: !arguments.has("--no-fast"),
        mistake: arguments.mistake(),
    };
    describe(&sides);
    let found = match arguments.has("--each-mistake") {
        true => each_mistake(&sides, &arguments),
        false => compare(&sides, &arguments),
    };
    std::process::exit(if found { 0 } else { 1 });
}

fn describe(sides: &Sides) {
    match &sides.replay {
        Some(replay) => println!("replay: {}", replay.path),
        None => println!("replay: none"),
    }
    match sides.portal {
        Some(portal) => println!("portal: {}", portal.name()),
        None => println!("portal: none"),
    }
    if sides.mistake != Mistake::None {
        println!("mistake in the reference: {:?}", sides.mistake);
    }
}

/// True where no difference was found.
fn compare(sides: &Sides, arguments: &Arguments) -> bool {
    let bounds = Bounds::read(arguments, "--jobs", MANY);
    let seed = bounds.seed;
    let mut coverage = Coverage::new();
    let mut progress = Progress::new("differential");
    let mut done = 0;
    println!("seed {seed}");
    while bounds.go_on(done) {
        let count = BATCH.min(bounds.most - done);
        let first = seed + done;
        if let Err(difference) = sides.batch(first..first + count, &mut coverage) {
            println!("\n{difference}\n");
            println!(
                "the smallest job that shows it\n\n{}",
                sides.smallest(&difference)
            );
            return false;
        }
        done += count;
        if bounds.forever {
            progress.show(|| {
                format!(
                    "{done} jobs, seeds {seed} to {}, no difference",
                    seed + done
                )
            });
        }
    }
    match sides.truncations(seed) {
        Ok(tried) => println!("{tried} streams with a cut frame, no difference"),
        Err(unlike) => {
            println!("expected\n{}\ngot\n{}", unlike.expected, unlike.got);
            return false;
        }
    }
    if arguments.has("--coverage") {
        println!("{coverage}");
    }
    let missing = coverage.missing();
    if !missing.is_empty() && done >= MANY {
        println!("never reached: {missing:?}");
        return false;
    }
    println!("{done} jobs in {:.1} s, no difference", bounds.seconds());
    true
}

/// Whether each planted mistake shows: in what `replay` prints, and in what
/// the portal gives, where it can.
fn each_mistake(sides: &Sides, arguments: &Arguments) -> bool {
    let seed = arguments.number("--seed", 0);
    let jobs = arguments.number("--jobs", MANY);
    let cases: Vec<Case> = (seed..seed + jobs).map(generate::case).collect();
    let varied = |(case, seed)| Frame::varied(case, seed);
    let frames: Vec<Frame> = cases.iter().zip(seed..).map(varied).collect();
    let framed: Vec<Case> = frames.iter().map(Frame::case).collect();
    let batches = frames.chunks(BATCH as usize);
    let printed: Vec<String> = batches.flat_map(|batch| sides.replayed(batch)).collect();
    let mut all = true;
    for mistake in all_mistakes() {
        let by_replay = sides.replay.as_ref().map(|_| {
            framed.iter().zip(&printed).position(|(case, printed)| {
                let wrong = run::outcome_with(&case.bytes, &case.limits, mistake);
                frame::text(&wrong) != *printed
            })
        });
        let by_portal = sides.portal.map(|portal| {
            let call = |job: &[u8], budget, area: &mut [u8]| portal.call(job, budget, area);
            cases
                .iter()
                .zip(seed..)
                .position(|(case, seed)| portal_unlike(&call, case, spare(seed), mistake).is_some())
        });
        println!(
            "{mistake:?}: replay {}, portal {}",
            place(by_replay),
            place(by_portal)
        );
        // The portal tells no steps and no index, and always has 512 places.
        let hidden = matches!(
            mistake,
            Mistake::StopCountsStep | Mistake::TableFullAt512 | Mistake::SpareScriptFirst
        );
        all &= by_replay != Some(None) && (hidden || by_portal != Some(None));
    }
    each_found("mistake", all)
}

fn place<T: std::fmt::Display>(found: Option<Option<T>>) -> String {
    match found {
        None => String::from("not tried"),
        Some(None) => String::from("not found"),
        Some(Some(place)) => format!("found by job {place}"),
    }
}
