//! Cases, pairs of cases, histories and orders of newcomers and turns from a seed. The same seed gives the same.

mod budgets;
mod damage;
mod dirty;
mod history;
mod history_pairs;
mod nodes;
mod pairs;
mod rounds;
mod script;
mod shuffled;

pub use budgets::{raised, raised_history, raised_order};
pub use damage::damaged;
pub use dirty::{dirty, full_of_notes};
pub use history::{history, moved};
pub use history_pairs::{history_pair, HistoryPair};
use nodes::Growth;
pub use pairs::{pair, pair_with, Pair};
pub use rounds::order;
pub use shuffled::{shuffled, shuffled_greatest};

use crate::arrange::in_order;
use crate::ending::Ending;
use crate::job::{Job, Record, Variable, MAX_VARIABLES, READS};
use crate::mistake::{Mistake, RULED_COMMANDS};
use crate::random::Random;
use crate::run::{Limits, Monitor, Standing, MAX_BUDGET, MAX_PLACES};
use crate::source::with;
use crate::{apart, Level, HOUSE, PUBLIC};

/// The bytes of a job, with a budget and the sizes of the buffers.
#[derive(Clone, Debug, PartialEq, Eq)]
pub struct Case {
    pub bytes: Vec<u8>,
    pub limits: Limits,
}

/// A valid case three times out of five, else a damaged one; one in twenty with
/// notes in its spare bytes, and one with its nodes in any order.
pub fn case(seed: u64) -> Case {
    match seed % 20 {
        19 => dirty(seed),
        18 => shuffled(seed),
        other if other % 5 < 3 => valid(seed),
        _ => damaged(seed),
    }
}

/// A case that no check turns back.
pub fn valid(seed: u64) -> Case {
    let mut random = Random::new(seed);
    let (job, limits) = valid_job(&mut random);
    Case {
        bytes: job.encode(),
        limits,
    }
}

/// An accepted job, with limits accepted for it.
fn valid_job(random: &mut Random) -> (Job, Limits) {
    let growth = Growth::some(random, Random::value);
    let mut job = Job {
        variables: variables(random, growth.sets),
        nodes: in_order(&nodes::any(random, growth)),
        script: Vec::new(),
    };
    let levels = levels(&job.variables);
    let mistake = likely_mistake(random);
    let standing = Standing::of(&job);
    let goes_on = &mut |script: &[Record]| {
        let ending = trial_ending(&standing, script, mistake);
        ![Ending::Rule, Ending::Missing, Ending::OutOfRange].contains(&ending)
    };
    let script = match (random.below(30), mistake) {
        (0..=5, _) => script::any(random, &levels, &mut |_| true),
        (6..=9, _) => script::at_odds(random, &levels),
        (10..=12, _) => script::endless(random, &levels, goes_on),
        (13..=21, Mistake::NoRule(command)) if script::MOVES.contains(&command) => {
            script::branching(random, &levels, goes_on, command)
        }
        _ => script::short(random, &levels, goes_on),
    };
    job.script = script;
    let limits = limits(random, &job);
    if random.chance(1, 5) {
        go_to_the_edge(random, &mut job, &limits);
    }
    (job, limits)
}

/// Gives one record a result at an end of the 32-bit range: half of the time the
/// record that the run stops at, so that one stop comes before another.
fn go_to_the_edge(random: &mut Random, job: &mut Job, limits: &Limits) {
    let reads = |record: &Record| READS[usize::from(record.command)].expression;
    let readers: Vec<usize> = (0..job.script.len())
        .filter(|&index| reads(&job.script[index]))
        .collect();
    if readers.is_empty() {
        return;
    }
    let (_, stop) = trial_end(&Standing::of(job), &job.script, limits, Mistake::None);
    let place = match readers.contains(&stop) && random.chance(1, 2) {
        true => stop,
        false => random.pick(&readers),
    };
    let record = job.script[place];
    job.script[place] = with(record.command, record.target, script::at_the_edge(random));
}

/// How `script` ends over what stands within a few steps, by a
/// monitor with `mistake`. Scripts that grow by this trial run long, and go on
/// where a wrong monitor would go on.
fn trial_ending(standing: &Standing, script: &[Record], mistake: Mistake) -> Ending {
    trial_end(standing, script, &Limits::ample(400), mistake).0
}

/// How `script` ends within a few steps, and at which record.
fn trial_end(
    standing: &Standing,
    script: &[Record],
    limits: &Limits,
    mistake: Mistake,
) -> (Ending, usize) {
    let limits = Limits {
        budget: limits.budget.min(400),
        ..*limits
    };
    let monitor = Monitor::new(script, standing, &limits, mistake);
    let (ending, index, _) = monitor.run(&mut |_, _| {});
    (ending, index)
}

/// None, or one by which more scripts finish.
fn likely_mistake(random: &mut Random) -> Mistake {
    match random.below(6) {
        0 => Mistake::None,
        1..=3 => random.pick(&Mistake::LEAKING),
        4 => Mistake::BackGoesOn,
        _ => Mistake::NoRule(random.pick(&RULED_COMMANDS)),
    }
}

/// Two sets that the levels of a case are made of: half of the time the first party
/// alone, as before R-12, else mostly two of which neither contains the other.
fn two_sets(random: &mut Random) -> [Level; 2] {
    if random.chance(1, 2) {
        return [HOUSE; 2];
    }
    let set = |random: &mut Random| match random.below(3) {
        0 => random.between(1, 255) as Level,
        1 => random.pick(&[1, 2, 3]),
        _ => 1 << random.below(8),
    };
    loop {
        let sets = [set(random), set(random)];
        if apart(sets[0], sets[1]) || random.chance(1, 8) {
            return sets;
        }
    }
}

/// One of the sets, or both joined.
fn some_of(random: &mut Random, sets: [Level; 2]) -> Level {
    let [first, second] = sets;
    random.pick(&[first, first, second, second, first | second])
}

/// The levels that a script has to do with.
pub struct Palette {
    /// The level of each variable.
    pub variables: Vec<Level>,
    /// Sets of parties for covers, new nodes and readers.
    pub sets: Vec<Level>,
}

impl Palette {
    fn new(variables: Vec<Level>) -> Palette {
        let mut sets: Vec<Level> = variables.clone();
        sets.retain(|&level| level != PUBLIC);
        if sets.is_empty() {
            sets.push(HOUSE);
        }
        Palette { variables, sets }
    }
}

fn variables(random: &mut Random, sets: [Level; 2]) -> Vec<Variable> {
    let count = match random.below(40) {
        0 => 0,
        1 => MAX_VARIABLES,
        2 => random.between(1, MAX_VARIABLES),
        _ => random.between(2, 6),
    };
    let variable = |random: &mut Random| Variable {
        level: match random.chance(1, 2) {
            true => PUBLIC,
            false => some_of(random, sets),
        },
        value: random.value(),
        ..Variable::default()
    };
    (0..count).map(|_| variable(random)).collect()
}

fn levels(variables: &[Variable]) -> Palette {
    Palette::new(variables.iter().map(|variable| variable.level).collect())
}

fn levels_of(variables: &[(Level, i32)]) -> Palette {
    Palette::new(variables.iter().map(|variable| variable.0).collect())
}

/// Limits that are accepted for `job`, some of them tight.
fn limits(random: &mut Random, job: &Job) -> Limits {
    let budget = match random.below(1_000) {
        0..=24 => MAX_BUDGET,
        25..=59 => 100_000,
        60..=349 => random.between(1, 30) as u64,
        _ => 2_000,
    };
    let places = match random.below(4) {
        0 => (job.nodes.len() + random.below(3)).min(MAX_PLACES),
        _ => MAX_PLACES,
    };
    let variables = match random.below(4) {
        0 => job.variables.len(),
        _ => MAX_VARIABLES,
    };
    let lines = match random.below(6) {
        0 => random.below(4),
        _ => 256,
    };
    Limits {
        budget,
        places,
        variables,
        lines,
    }
}
