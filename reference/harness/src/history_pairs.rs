//! The leak test over histories: two sides of the same scripts, from jobs that
//! agree on their public parts, up to and including the first script that stops
//! or is turned away in either.

use std::fmt;

use reference::ending::Ending;
use reference::generate::{self, HistoryPair};
use reference::run::Outcome;
use reference::{print, public, shrink};

use crate::frame;
use crate::histories::{show, Through, Told};
use crate::search;

/// A pair that gives something away, or that could not be tried.
#[derive(Clone, Debug)]
pub struct Found {
    pub seed: u64,
    pub pair: HistoryPair,
    pub reason: String,
}

/// What the tried pairs were like.
#[derive(Clone, Copy, Debug, Default)]
pub struct Tally {
    pub pairs: u64,
    /// Both finished the job and a script at least.
    pub both_went_on: u64,
    /// Lines of a follow-on script in both.
    pub lines_in_both: u64,
    /// A follow-on script ended in two ways.
    pub other_endings: u64,
}

/// Tries the pairs of `seeds`, in one process.
pub fn try_histories(
    through: &Through,
    seeds: std::ops::Range<u64>,
    tally: &mut Tally,
) -> Result<(), Box<Found>> {
    let pairs: Vec<HistoryPair> = seeds.clone().map(generate::history_pair).collect();
    let sides = pairs.iter().flat_map(|pair| [&pair.left[..], &pair.right]);
    let told = through.told(&sides.collect::<Vec<_>>());
    for ((pair, told), seed) in pairs.iter().zip(told.chunks(2)).zip(seeds) {
        match given_away(pair, told) {
            Ok((left, right)) => tally.count(&left, &right),
            Err(reason) => {
                return Err(Box::new(Found {
                    seed,
                    pair: pair.clone(),
                    reason,
                }))
            }
        }
    }
    Ok(())
}

/// The outcomes of both sides, or why they tell more than they may.
fn given_away(pair: &HistoryPair, told: &[Told]) -> Result<(Vec<Outcome>, Vec<Outcome>), String> {
    if !pair.well_formed() {
        return Err(String::from("the pair is not well formed"));
    }
    let count = pair.left.len();
    let (Some(left), Some(right)) = (outcomes(count, &told[0]), outcomes(count, &told[1])) else {
        return Err(String::from("no outcome of each event is told"));
    };
    match public::history_leak(&left, &right, pair.reader) {
        None => Ok((left, right)),
        Some((number, leak)) => {
            let (left, right) = (
                print::outcome(&left[number]),
                print::outcome(&right[number]),
            );
            Err(format!(
                "{leak:?} of event {number} differ\nleft {left}right {right}"
            ))
        }
    }
}

/// The outcomes of so many events.
fn outcomes(count: usize, told: &Told) -> Option<Vec<Outcome>> {
    let outcome = |part: &String| frame::parse(part.split_once('\n')?.1);
    let outcomes: Option<Vec<Outcome>> = told.parts.iter().map(outcome).collect();
    outcomes.filter(|outcomes| outcomes.len() == count)
}

impl Found {
    /// The smallest pair that still gives something away.
    pub fn smallest(&self, through: &Through) -> Found {
        let given =
            |pair: &HistoryPair| given_away(pair, &through.told(&[&pair.left, &pair.right]));
        let pair = shrink::history_pair(&self.pair, &|pair| given(pair).is_err());
        let reason = given(&pair).err().unwrap_or_else(|| self.reason.clone());
        Found {
            pair,
            reason,
            seed: self.seed,
        }
    }
}

impl fmt::Display for Found {
    fn fmt(&self, f: &mut fmt::Formatter) -> fmt::Result {
        let HistoryPair {
            reader,
            left,
            right,
        } = &self.pair;
        writeln!(
            f,
            "leak, seed {}, reader {reader}\nleft\n{}right\n{}{}",
            self.seed,
            show(left),
            show(right),
            self.reason
        )
    }
}

impl Tally {
    fn count(&mut self, left: &[Outcome], right: &[Outcome]) {
        let finished = |outcomes: &[Outcome]| {
            let finished = |outcome: &&Outcome| outcome.ending == Ending::Finished;
            outcomes.iter().take_while(finished).count()
        };
        let compared = (finished(left).min(finished(right)) + 1).min(left.len());
        let scripts = || left.iter().zip(right).take(compared).skip(1);
        let some = |outcome: &Outcome| !outcome.lines.is_empty();
        self.pairs += 1;
        self.both_went_on += (compared > 2) as u64;
        self.lines_in_both += scripts().any(|(left, right)| some(left) && some(right)) as u64;
        self.other_endings += scripts().any(|(left, right)| left.ending != right.ending) as u64;
    }
}

impl search::Tally for Tally {
    fn pairs(&self) -> u64 {
        self.pairs
    }

    fn telling(&self) -> bool {
        10 * self.both_went_on >= self.pairs
            && 10 * self.lines_in_both >= self.pairs
            && 100 * self.other_endings >= self.pairs
    }
}

impl fmt::Display for Tally {
    fn fmt(&self, f: &mut fmt::Formatter) -> fmt::Result {
        write!(
            f,
            "{} pairs of histories; both went on {}, lines of a script in both {}, other endings {}",
            self.pairs, self.both_went_on, self.lines_in_both, self.other_endings
        )
    }
}
