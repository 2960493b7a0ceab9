//! The paper's trials, endings, edges and example, and the readings of its
//! text.

mod arrange;
mod back;
mod clean;
mod edges;
mod endings;
mod follow;
mod moves;
mod readings;
mod rounds;
mod sets;
mod trials;
mod writer;

use reference::job::{Job, Node, Record};
use reference::run::{self, Limits, Outcome};
use reference::source::*;
use reference::tree::Row;
use reference::Level;

/// Ending's number, index, steps and the numbers of the lines.
type Answer = (u32, usize, u64, Vec<i32>);

fn answer(outcome: &Outcome) -> Answer {
    (
        outcome.ending.number(),
        outcome.index,
        outcome.steps,
        outcome.numbers(),
    )
}

fn run_with(job: &Job, limits: &Limits) -> Outcome {
    run::outcome(&job.encode(), limits)
}

/// Budget 100 and ample buffers.
fn run(job: &Job) -> Outcome {
    run_with(job, &Limits::ample(100))
}

/// "Root 10 and child 3, all levels 0."
fn trial_nodes() -> Vec<Node> {
    vec![root_node([0, 0, 0], 10), node(0, [0, 0, 0], 3)]
}

/// "Variable 0 is public, 0; variable 1 is house, h."
fn trial_job(h: i32, script: &[Record]) -> Job {
    job(
        &[public_variable(0), house_variable(h)],
        &trial_nodes(),
        script,
    )
}

/// Ending's number and index of the job's bytes, under ample limits.
fn refusal(job: &Job) -> (u32, usize) {
    refusal_of(&job.encode())
}

fn refusal_of(bytes: &[u8]) -> (u32, usize) {
    let outcome = run::outcome(bytes, &Limits::ample(100));
    if outcome.ending.turned_back() {
        assert_eq!(
            (outcome.steps, outcome.lines.len(), &outcome.last),
            (0, 0, &None)
        );
    }
    (outcome.ending.number(), outcome.index)
}

const ACCEPTED: (u32, usize) = (0, 0);

fn row(depth: usize, levels: [Level; 3], value: i32) -> Row {
    let [existence, content, list] = levels;
    Row {
        depth,
        existence,
        content,
        list,
        value,
    }
}

fn last_tree(outcome: &Outcome) -> Vec<Row> {
    outcome.last.clone().expect("not turned back").tree
}

fn last_values(outcome: &Outcome) -> Vec<i32> {
    let last = outcome.last.clone().expect("not turned back");
    last.variables.into_iter().map(|(_, value)| value).collect()
}
