//! What the searches over seeds share: how far they go, and what they say.

use std::fmt::Display;
use std::time::{Duration, Instant};

use reference::mistake::Mistake;

use crate::arguments::Arguments;
use crate::progress::Progress;

/// How far a search goes: from a seed on, so many, so long.
#[derive(Clone, Copy, Debug)]
pub struct Bounds {
    pub seed: u64,
    pub most: u64,
    pub limit: Duration,
    pub forever: bool,
    start: Instant,
}

impl Bounds {
    /// `--seed`, `--seconds`, `--forever` and the option that counts.
    pub fn read(arguments: &Arguments, counted: &str, default: u64) -> Bounds {
        let forever = arguments.has("--forever");
        let or = |number| if forever { u64::MAX } else { number };
        Bounds {
            seed: arguments.number("--seed", 0),
            most: arguments.number(counted, or(default)),
            limit: arguments.seconds(or(60)),
            forever,
            start: Instant::now(),
        }
    }

    /// Whether there is more to do after so many.
    pub fn go_on(&self, done: u64) -> bool {
        done < self.most && self.start.elapsed() < self.limit
    }

    pub fn seconds(&self) -> f64 {
        self.start.elapsed().as_secs_f64()
    }
}

/// What the tried pairs were like: a test of pairs that print nothing would
/// show nothing.
pub trait Tally: Default + Display {
    fn pairs(&self) -> u64;

    /// Whether enough pairs could have shown something.
    fn telling(&self) -> bool;
}

/// Tries pairs, some from a seed on at a time, until one gives something away.
/// True where none does.
pub fn no_leak<T: Tally, F: Display>(
    name: &'static str,
    bounds: Bounds,
    some: impl Fn(u64, u64, &mut T) -> Result<(), Box<F>>,
    smallest: impl Fn(&F) -> F,
) -> bool {
    println!("seed {}", bounds.seed);
    let mut tally = T::default();
    let mut progress = Progress::new(name);
    while bounds.go_on(tally.pairs()) {
        let done = tally.pairs();
        if let Err(found) = some(bounds.seed + done, bounds.most - done, &mut tally) {
            let smallest = smallest(&found);
            println!("\n{found}\nthe smallest pair that shows it\n\n{smallest}");
            return false;
        }
        if bounds.forever {
            progress.show(|| format!("{tally}, no leak"));
        }
    }
    println!("{tally}");
    if !tally.telling() {
        println!("too few pairs could have shown a leak");
        return false;
    }
    println!("no leak in {:.1} s", bounds.seconds());
    true
}

/// Whether a seed is found for each mistake, in the reference with that
/// mistake, that gives something away.
pub fn each_leak(
    bounds: Bounds,
    mistakes: impl Iterator<Item = Mistake>,
    leaks: impl Fn(Mistake, u64) -> bool,
) -> bool {
    let mut all = true;
    for mistake in mistakes {
        let found = (bounds.seed..bounds.seed + bounds.most).find(|&seed| leaks(mistake, seed));
        match found {
            Some(seed) => println!("{mistake:?}: leak at seed {seed}"),
            None => println!("{mistake:?}: NOT FOUND in {} pairs", bounds.most),
        }
        all &= found.is_some();
    }
    each_found("leak", all)
}

/// Whether each planted mistake is found, by whatever `found_by` says of it.
pub fn planted<F: Display>(
    mistakes: impl IntoIterator<Item = Mistake>,
    side: &str,
    found_by: impl Fn(Mistake) -> Option<F>,
) -> bool {
    let mut all = true;
    for mistake in mistakes {
        match found_by(mistake) {
            Some(place) => println!("{mistake:?}: {side} found by {place}"),
            None => {
                println!("{mistake:?}: {side} NOT FOUND");
                all = false;
            }
        }
    }
    all
}

/// The last word of a search for what was planted.
pub fn each_found(what: &str, all: bool) -> bool {
    match all {
        true => println!("each {what} was found"),
        false => println!("a {what} was not found"),
    }
    all
}
