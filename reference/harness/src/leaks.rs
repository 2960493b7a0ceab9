//! The leak test: pairs of accepted jobs with the same script that agree on what is
//! public to a reader. The lines of one run that the reader sees must be the beginning
//! of the other's; where both finish they must be equal. Through `replay`, which tells
//! the last state too, what is public of it must then agree as well.

use std::fmt;

use reference::ending::Ending;
use reference::generate::{self, Pair};
use reference::portal::{line_of, LINE_BYTES};
use reference::random::Random;
use reference::run::{Line, Outcome, MAX_BUDGET};
use reference::{print, public, shrink, within, Level};

use crate::differential::split_jobs;
use crate::frame::{self, Frame};
use crate::portal::Portal;
use crate::replay::Replay;
use crate::search;

/// A budget, and the length of the area for lines in bytes.
#[derive(Clone, Copy, Debug, PartialEq, Eq)]
pub struct Lent {
    pub budget: u64,
    pub area: usize,
}

/// Ending of one run, and the lines that the reader sees.
#[derive(Clone, Debug, PartialEq, Eq)]
pub struct Seen {
    pub ending: u64,
    pub lines: Vec<Line>,
}

/// A pair that gives something away, or that could not be tried.
#[derive(Clone, Debug)]
pub struct Found {
    pub seed: u64,
    pub pair: Pair,
    pub reason: String,
}

/// What the tried pairs were like.
#[derive(Clone, Copy, Debug, Default)]
pub struct Tally {
    pub pairs: u64,
    pub runs: u64,
    pub lines_in_both: u64,
    pub other_endings: u64,
    pub both_finished: u64,
}

/// Pairs by their seeds: any, or those that carry a command out.
#[derive(Clone, Copy, Debug, PartialEq, Eq)]
pub enum Pairs {
    Any,
    With(u8),
}

impl Pairs {
    fn of(self, seed: u64) -> Pair {
        match self {
            Pairs::Any => generate::pair(seed),
            Pairs::With(command) => generate::pair_with(command, seed),
        }
    }
}

/// Tries the pair of `seed`, with its own limits and with others drawn.
pub fn try_pair(
    portal: Portal,
    pairs: Pairs,
    seed: u64,
    tally: &mut Tally,
) -> Result<(), Box<Found>> {
    let pair = pairs.of(seed);
    let found = |pair: &Pair, reason: String| {
        Box::new(Found {
            seed,
            pair: pair.clone(),
            reason,
        })
    };
    if !pair.well_formed() {
        return Err(found(&pair, String::from("the pair is not well formed")));
    }
    let mut random = Random::new(seed ^ 0x6c65_616b);
    let mut others = pair.clone();
    for case in [&mut others.left, &mut others.right] {
        let drawn = drawn(&mut random);
        case.limits.budget = drawn.budget;
        case.limits.lines = drawn.area / LINE_BYTES;
    }
    let mixed = Pair {
        reader: pair.reader,
        left: pair.left.clone(),
        right: others.right.clone(),
    };
    for (place, limited) in [pair, others, mixed].into_iter().enumerate() {
        let (left, right) = (run(portal, &limited, true), run(portal, &limited, false));
        if let Some(reason) = given_away(&left, &right) {
            return Err(found(&limited, reason));
        }
        tally.runs += 2;
        if place == 0 {
            tally.count(&left, &right);
        }
    }
    Ok(())
}

/// Tries the pairs of `seeds`, with their own limits, in one process.
pub fn try_replay(
    replay: &Replay,
    pairs: Pairs,
    seeds: std::ops::Range<u64>,
    tally: &mut Tally,
) -> Result<(), Box<Found>> {
    let pairs: Vec<Pair> = seeds.clone().map(|seed| pairs.of(seed)).collect();
    let outcomes = replayed(replay, &pairs);
    for (place, (pair, seed)) in pairs.iter().zip(seeds).enumerate() {
        let (left, right) = (outcomes.get(2 * place), outcomes.get(2 * place + 1));
        if let Some(reason) = whole_given_away(pair, left, right) {
            return Err(Box::new(Found {
                seed,
                pair: pair.clone(),
                reason,
            }));
        }
        if let (Some(Some(left)), Some(Some(right))) = (left, right) {
            tally.runs += 2;
            tally.count(&Seen::of(left, pair.reader), &Seen::of(right, pair.reader));
        }
    }
    Ok(())
}

/// What `replay` tells of the two jobs of each pair, one after the other.
fn replayed(replay: &Replay, pairs: &[Pair]) -> Vec<Option<Outcome>> {
    let cases = pairs.iter().flat_map(|pair| [&pair.left, &pair.right]);
    let frames: Vec<Frame> = cases.map(Frame::of).collect();
    let printed = replay.run(frame::stream(&frames));
    let outcome = |job: &String| frame::parse(job.split_once('\n')?.1);
    split_jobs(&printed.text).iter().map(outcome).collect()
}

/// Why two whole outcomes tell more than they may, if they do.
fn whole_given_away(
    pair: &Pair,
    left: Option<&Option<Outcome>>,
    right: Option<&Option<Outcome>>,
) -> Option<String> {
    if !pair.well_formed() {
        return Some(String::from("the pair is not well formed"));
    }
    let (Some(Some(left)), Some(Some(right))) = (left, right) else {
        return Some(String::from("replay tells no outcome"));
    };
    if left.ending.turned_back() || right.ending.turned_back() {
        return Some(format!(
            "an accepted job was turned back: {left:?}, {right:?}"
        ));
    }
    let leak = public::leak(left, right, pair.reader)?;
    let (left, right) = (print::outcome(left), print::outcome(right));
    Some(format!("{leak:?} differ\nleft {left}right {right}"))
}

/// Budgets from one step up, areas from none up, of any length.
fn drawn(random: &mut Random) -> Lent {
    let budget = match random.below(4) {
        0 => random.between(1, 40) as u64,
        1 => random.between(1, 2_000) as u64,
        2 => 100_000,
        _ => MAX_BUDGET,
    };
    let area = match random.below(3) {
        0 => random.below(40),
        1 => random.below(1_100),
        _ => 4_096,
    };
    Lent { budget, area }
}

fn run(portal: Portal, pair: &Pair, left: bool) -> Seen {
    let case = if left { &pair.left } else { &pair.right };
    let mut area = vec![0; LINE_BYTES * case.limits.lines];
    let answer = portal.call(&case.bytes, case.limits.budget, &mut area);
    let count = answer as u32 as usize;
    Seen {
        ending: answer >> 32,
        lines: area
            .chunks_exact(LINE_BYTES)
            .take(count)
            .map(line_of)
            .filter(|line| within(line.readers, pair.reader))
            .collect(),
    }
}

fn turned_back(number: u64) -> bool {
    let is_it = |ending: &Ending| u64::from(ending.number()) == number;
    Ending::ALL
        .iter()
        .find(|ending| is_it(ending))
        .is_some_and(|ending| ending.turned_back())
}

/// Why two runs tell more than they may, if they do.
fn given_away(left: &Seen, right: &Seen) -> Option<String> {
    for seen in [left, right] {
        if turned_back(seen.ending) {
            return Some(format!("an accepted job was turned back: {seen:?}"));
        }
    }
    let shown = || format!("left {left:?}\nright {right:?}");
    if !left.lines.starts_with(&right.lines) && !right.lines.starts_with(&left.lines) {
        return Some(format!("neither's lines begin the other's\n{}", shown()));
    }
    if left.ending == 0 && right.ending == 0 && left.lines != right.lines {
        return Some(format!("both finished, with other lines\n{}", shown()));
    }
    None
}

impl Seen {
    fn of(outcome: &Outcome, reader: Level) -> Seen {
        Seen {
            ending: u64::from(outcome.ending.number()),
            lines: outcome.lines_for(reader),
        }
    }
}

impl Found {
    /// The smallest pair for which `replay` still gives something away.
    pub fn smallest_replayed(&self, replay: &Replay) -> Found {
        let reason = |pair: &Pair| {
            let outcomes = replayed(replay, std::slice::from_ref(pair));
            whole_given_away(pair, outcomes.first(), outcomes.get(1))
        };
        self.smallest_by(&reason)
    }

    /// The smallest pair for which a portal still gives something away.
    pub fn smallest(&self, portal: Portal) -> Found {
        let reason = |pair: &Pair| {
            let (left, right) = (run(portal, pair, true), run(portal, pair, false));
            given_away(&left, &right)
        };
        self.smallest_by(&reason)
    }

    fn smallest_by(&self, reason: &dyn Fn(&Pair) -> Option<String>) -> Found {
        if reason(&self.pair).is_none() {
            return self.clone();
        }
        let pair = shrink::pair(&self.pair, &|pair| reason(pair).is_some());
        let reason = reason(&pair).expect("the smallest pair fails too");
        Found {
            pair,
            reason,
            ..*self
        }
    }
}

impl fmt::Display for Found {
    fn fmt(&self, f: &mut fmt::Formatter) -> fmt::Result {
        let (seed, reason) = (self.seed, &self.reason);
        writeln!(f, "leak, seed {seed}\n{}{reason}", print::pair(&self.pair))
    }
}

impl Tally {
    fn count(&mut self, left: &Seen, right: &Seen) {
        self.pairs += 1;
        self.lines_in_both += (!left.lines.is_empty() && !right.lines.is_empty()) as u64;
        self.other_endings += (left.ending != right.ending) as u64;
        self.both_finished += (left.ending == 0 && right.ending == 0) as u64;
    }
}

impl search::Tally for Tally {
    fn pairs(&self) -> u64 {
        self.pairs
    }

    /// A twentieth of them.
    fn telling(&self) -> bool {
        [self.lines_in_both, self.other_endings, self.both_finished]
            .into_iter()
            .all(|count| 20 * count >= self.pairs)
    }
}

impl fmt::Display for Tally {
    fn fmt(&self, f: &mut fmt::Formatter) -> fmt::Result {
        write!(
            f,
            "{} pairs, {} runs; lines in both {}, other endings {}, both finished {}",
            self.pairs, self.runs, self.lines_in_both, self.other_endings, self.both_finished
        )
    }
}
