//! Nodes in any order that was open before R-10, of a valid case or of a damaged
//! one.

use super::nodes::{self, Growth};
use super::{damaged, valid, valid_job, Case};
use crate::arrange::in_order;
use crate::job::{split, Job, Node, Record, FIRST_READS, MAX_NODES, NO_PARENT};
use crate::random::Random;
use crate::run::{Limits, MAX_PLACES};
use crate::HOUSE;

/// Draws for another order before the nodes stay in order: most trees that have
/// another have many.
const DRAWS: usize = 8;

/// The case of a seed with its nodes in another order, where its tree has one.
pub fn shuffled(seed: u64) -> Case {
    let mut random = Random::new(seed ^ 0x7368_7566_666c_6564);
    let case = match random.below(6) {
        0 | 1 => damaged(seed),
        2..=4 => {
            let count = random.between(5, 100);
            grown(&mut random, count)
        }
        _ => valid(seed),
    };
    // A damaged case may have no nodes that make a tree.
    match split(&case.bytes) {
        Ok(job) if hang(&job.nodes) => reordered(&mut random, job, case.limits),
        _ => case,
    }
}

/// As many nodes as there may be.
pub fn shuffled_greatest(seed: u64) -> Case {
    let mut random = Random::new(seed);
    let case = grown(&mut random, MAX_NODES);
    let job = split(&case.bytes).expect("a whole job");
    reordered(&mut random, job, case.limits)
}

/// Whether each node hangs below an earlier one.
fn hang(nodes: &[Node]) -> bool {
    let below = |(index, node): (usize, &Node)| match index {
        0 => node.parent == NO_PARENT,
        _ => usize::from(node.parent) < index,
    };
    !nodes.is_empty() && nodes.iter().enumerate().all(below)
}

fn reordered(random: &mut Random, job: Job, limits: Limits) -> Case {
    let ordered = in_order(&job.nodes);
    let mut drawn = (0..DRAWS).map(|_| nodes::reorder(random, &job.nodes));
    let nodes = drawn
        .find(|nodes| *nodes != ordered)
        .unwrap_or_else(|| ordered.clone());
    Case {
        bytes: Job { nodes, ..job }.encode(),
        limits,
    }
}

/// A valid case but for its nodes' order, with so many of them, and with nothing that
/// came after the rearranger: no sets of parties.
fn grown(random: &mut Random, count: usize) -> Case {
    let before = |record: &Record| *record == record.over_by(&FIRST_READS, &Record::default());
    let (job, limits) = loop {
        let (job, limits) = valid_job(random);
        let levels = job.variables.iter().all(|variable| variable.level <= HOUSE);
        if levels && job.script.iter().all(before) {
            break (job, limits);
        }
    };
    let growth = Growth {
        sets: [HOUSE; 2],
        ..Growth::some(random, Random::value)
    };
    let nodes = nodes::grown(random, growth, count);
    Case {
        bytes: Job { nodes, ..job }.encode(),
        limits: Limits {
            places: MAX_PLACES,
            ..limits
        },
    }
}
