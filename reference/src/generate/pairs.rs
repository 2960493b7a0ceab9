//! Pairs of accepted cases with the same script that agree on what is public to a
//! reader and differ in values and nodes that are hidden from them.

use super::nodes::Growth;
use super::{levels_of, likely_mistake, limits, nodes, script, some_of, trial_ending};
use super::{Case, Palette};
use crate::arrange::in_order;
use crate::ending::Ending;
use crate::job::{self, Job, Node, Record, Variable};
use crate::mistake::Mistake;
use crate::public::{self, Leak};
use crate::random::Random;
use crate::run::{self, Limits, Standing};
use crate::{within, Level, PUBLIC};

#[derive(Clone, Debug, PartialEq, Eq)]
pub struct Pair {
    /// "The secrecy rule is proved once over the reader's set".
    pub reader: Level,
    pub left: Case,
    pub right: Case,
}

impl Pair {
    /// Whether both jobs are accepted, have the same script and agree on their
    /// public parts.
    pub fn well_formed(&self) -> bool {
        match (
            job::decode(&self.left.bytes),
            job::decode(&self.right.bytes),
        ) {
            (Ok(left), Ok(right)) => {
                public::same_script(&left, &right) && public::agree(&left, &right, self.reader)
            }
            _ => false,
        }
    }

    /// What a monitor with `mistake` gives away on this pair.
    pub fn leak(&self, mistake: Mistake) -> Option<Leak> {
        let outcome = |case: &Case| run::outcome_with(&case.bytes, &case.limits, mistake);
        public::leak(&outcome(&self.left), &outcome(&self.right), self.reader)
    }
}

/// The pair of a seed. Budgets and buffers of the two sides may differ.
pub fn pair(seed: u64) -> Pair {
    let mut random = Random::new(seed ^ 0x7061_6972);
    let (mut left, mut right, reader) = agreeing(&mut random);
    let mistake = likely_mistake(&mut random);
    let sides = [Standing::of(&left), Standing::of(&right)];
    left.script = common_script(&mut random, &sides, reader, mistake);
    right.script = left.script.clone();
    let (left_limits, right_limits) = pair_limits(&mut random, &left, &right);
    Pair {
        reader,
        left: Case {
            bytes: left.encode(),
            limits: left_limits,
        },
        right: Case {
            bytes: right.encode(),
            limits: right_limits,
        },
    }
}

/// A pair of a seed in which a side carries `command` out.
pub fn pair_with(command: u8, seed: u64) -> Pair {
    let seeds = (0..).map(|turn: u64| seed ^ turn.rotate_right(24));
    let carried_out = |case: &Case| {
        let mut found = false;
        run::observed(
            &case.bytes,
            &case.limits,
            Mistake::None,
            &mut |_, record| found |= record.command == command,
        );
        found
    };
    seeds
        .map(pair)
        .find(|pair| carried_out(&pair.left) || carried_out(&pair.right))
        .expect("a pair comes")
}

/// Two jobs without scripts that agree on what is public to a reader, and the reader.
pub fn agreeing(random: &mut Random) -> (Job, Job, Level) {
    let growth = Growth::some(random, Random::value);
    let reader = some_reader(random, growth.sets);
    let mut left = without_script(random, growth, reader);
    let mut right = left.clone();
    redraw_hidden_values(random, &mut right, reader);
    let most = random.between(0, 5);
    for job in [&mut left, &mut right] {
        nodes::add_hidden(random, &mut job.nodes, most, growth, reader);
        job.nodes = in_order(&job.nodes);
    }
    (left, right, reader)
}

/// Nobody, one of the two parties about, or any other who do not have both.
fn some_reader(random: &mut Random, sets: [Level; 2]) -> Level {
    let [first, second] = sets;
    let other = random.byte();
    let reader = random.pick(&[PUBLIC, first, second, first, second, !first, other]);
    match within(first | second, reader) {
        true => PUBLIC,
        false => reader,
    }
}

/// A job without nodes whose existence is hidden. Hidden values are small, so that
/// guards tell them apart; others are not, so that lines do.
fn without_script(random: &mut Random, growth: Growth, reader: Level) -> Job {
    let [first, second] = growth.sets;
    let hidden: Vec<Level> = [first, second, first | second]
        .into_iter()
        .filter(|&level| !within(level, reader))
        .collect();
    let mut levels = vec![random.pick(&hidden)];
    if random.chance(7, 8) {
        levels.push(PUBLIC);
    }
    for _ in 0..random.below(4) {
        let level = some_of(random, growth.sets);
        levels.push(random.pick(&[PUBLIC, level]));
    }
    let nodes = nodes::public(random, growth, reader);
    let variables = levels
        .into_iter()
        .map(|level| variable(random, level, reader))
        .collect();
    Job {
        variables,
        nodes,
        script: Vec::new(),
    }
}

/// A script that a monitor, mostly a wrong one, finishes on both sides; or any.
fn common_script(
    random: &mut Random,
    sides: &[Standing; 2],
    reader: Level,
    mistake: Mistake,
) -> Vec<Record> {
    let levels = levels_for(sides, reader);
    let both_finish = |script: &[Record], mistake: Mistake| both_finish(sides, script, mistake);
    match random.below(16) {
        0 => return script::any(random, &levels, &mut |_| true),
        1 => return script::probing(random, &levels, &mut |_| true),
        2 => return script::short(random, &levels, &mut |script| both_finish(script, mistake)),
        _ => {}
    }
    // A script that the right monitor finishes too says nothing of the mistake.
    let mut script = Vec::new();
    for _ in 0..3 {
        let accept = &mut |script: &[Record]| both_finish(script, mistake);
        script = aimed(random, &levels, accept, mistake);
        if mistake == Mistake::None || !both_finish(&script, Mistake::None) {
            return script;
        }
    }
    script
}

/// The levels about, the reader's set among them.
pub fn levels_for(sides: &[Standing; 2], reader: Level) -> Palette {
    let mut levels = levels_of(&sides[0].variables);
    levels.sets.push(reader);
    levels
}

/// A script that looks for what `mistake` gives away. Few scripts show it of a single
/// move, so some are aimed at it.
pub fn aimed(
    random: &mut Random,
    levels: &Palette,
    accept: script::Accept,
    mistake: Mistake,
) -> Vec<Record> {
    match mistake {
        Mistake::NoRule(command) if script::MOVES.contains(&command) => {
            script::branching(random, levels, accept, command)
        }
        Mistake::MoveRaisesCursorLevel => {
            let command = random.pick(&script::MOVES);
            script::branching(random, levels, accept, command)
        }
        Mistake::LastJoinsExistence | Mistake::LastJoinsNothing => {
            script::going_last(random, levels, accept)
        }
        Mistake::CoverReplaces => script::covering_twice(random, levels, accept),
        Mistake::NeighbourApartUntested | Mistake::InsertionIgnoresNeighbour => {
            script::beside(random, levels, accept)
        }
        _ => script::probing(random, levels, accept),
    }
}

/// Whether a monitor with `mistake` finishes the script over both.
pub fn both_finish(sides: &[Standing; 2], script: &[Record], mistake: Mistake) -> bool {
    let ends = |side: &Standing| trial_ending(side, script, mistake);
    sides.iter().all(|side| ends(side) == Ending::Finished)
}

fn variable(random: &mut Random, level: Level, reader: Level) -> Variable {
    let value = match within(level, reader) {
        true => random.value(),
        false => small_value(random),
    };
    Variable {
        level,
        value,
        ..Variable::default()
    }
}

/// Often 0: what a guard tells apart.
fn small_value(random: &mut Random) -> i32 {
    match random.below(10) {
        0..=3 => 0,
        4..=6 => 1,
        _ => random.value(),
    }
}

/// Other values where the reader may not know them: hidden variables and contents.
/// Mostly a guard tells the new value from the old one.
fn redraw_hidden_values(random: &mut Random, job: &mut Job, reader: Level) {
    let mut other = |old: i32| match (random.chance(2, 3), old) {
        (true, 0) => 1,
        (true, _) => 0,
        (false, _) => small_value(random),
    };
    let hidden_variable = |variable: &&mut Variable| !within(variable.level, reader);
    for variable in job.variables.iter_mut().filter(hidden_variable) {
        variable.value = other(variable.value);
    }
    let hidden_node = |node: &&mut Node| !within(node.content, reader);
    for node in job.nodes.iter_mut().filter(hidden_node) {
        node.value = other(node.value);
    }
}

/// Mostly the same ample limits for both sides, now and then others.
fn pair_limits(random: &mut Random, left: &Job, right: &Job) -> (Limits, Limits) {
    match random.chance(1, 8) {
        true => (limits(random, left), limits(random, right)),
        false => (Limits::ample(2_000), Limits::ample(2_000)),
    }
}
