//! Public parts of a job or state, agreement on them, and what a leak is.

use std::collections::BTreeMap;

use crate::ending::Ending;
use crate::job::Job;
use crate::run::Outcome;
use crate::tree::{Path, Row, Tree};
use crate::{within, Level};

/// "the number and levels of all variables, the values of level 0 variables;
/// every node of existence 0 with its parent, its place among its siblings,
/// its three levels, and its value where content is 0", where "a level being public
/// where it is contained in" the reader's set (R-12)
#[derive(Clone, Debug, PartialEq, Eq)]
pub struct PublicParts {
    pub variables: Vec<(Level, Option<i32>)>,
    /// "Nodes are matched by the sibling places on the way from the root".
    pub nodes: BTreeMap<Path, PublicNode>,
}

#[derive(Clone, Copy, Debug, PartialEq, Eq)]
pub struct PublicNode {
    pub existence: Level,
    pub content: Level,
    pub list: Level,
    pub value: Option<i32>,
}

/// What is public to a reader of variables (level and value) and a tree in preorder.
pub fn parts(variables: &[(Level, i32)], tree: &[Row], reader: Level) -> PublicParts {
    let seen = |level: Level, value: i32| within(level, reader).then_some(value);
    let mut nodes = BTreeMap::new();
    for (path, row) in paths(tree).into_iter().zip(tree) {
        if within(row.existence, reader) {
            let value = seen(row.content, row.value);
            nodes.insert(
                path,
                PublicNode {
                    existence: row.existence,
                    content: row.content,
                    list: row.list,
                    value,
                },
            );
        }
    }
    PublicParts {
        variables: variables
            .iter()
            .map(|&(level, value)| (level, seen(level, value)))
            .collect(),
        nodes,
    }
}

/// The path of each node of a tree in preorder.
fn paths(tree: &[Row]) -> Vec<Path> {
    let mut path = Path::new();
    let mut all = Vec::new();
    for row in tree {
        if row.depth > path.len() {
            path.push(0);
        } else if row.depth > 0 {
            path.truncate(row.depth);
            path[row.depth - 1] += 1;
        }
        all.push(path.clone());
    }
    all
}

/// What is public to a reader of an accepted job.
pub fn job_parts(job: &Job, reader: Level) -> PublicParts {
    let variables: Vec<_> = job.variables.iter().map(|v| (v.level, v.value)).collect();
    let tree = Tree::from_records(&job.nodes).preorder();
    parts(&variables, &tree, reader)
}

/// "Two jobs or states agree on their public parts where all of these are
/// equal and neither has a node of existence 0 that the other lacks."
pub fn agree(left: &Job, right: &Job, reader: Level) -> bool {
    job_parts(left, reader) == job_parts(right, reader)
}

/// "Two scripts are the same where they have as many records, alike in command
/// and in every field that is read."
pub fn same_script(left: &Job, right: &Job) -> bool {
    let plain = |job: &Job| {
        job.script
            .iter()
            .map(|record| record.plain())
            .collect::<Vec<_>>()
    };
    plain(left) == plain(right)
}

/// What two runs of one script, from jobs that agree on the parts public to a
/// reader, give away to them.
#[derive(Clone, Copy, Debug, PartialEq, Eq)]
pub enum Leak {
    /// Of the lines that the reader sees, neither run's are the beginning of the
    /// other's.
    Lines,
    /// Both finished, with other lines or other public parts at the end.
    LastState,
}

/// The leak between two outcomes, if there is one. Budgets, places and line
/// buffers of the two runs may differ.
pub fn leak(left: &Outcome, right: &Outcome, reader: Level) -> Option<Leak> {
    let (left_lines, right_lines) = (left.lines_for(reader), right.lines_for(reader));
    if !left_lines.starts_with(&right_lines) && !right_lines.starts_with(&left_lines) {
        return Some(Leak::Lines);
    }
    let finished = |outcome: &Outcome| outcome.ending == Ending::Finished;
    if !finished(left) || !finished(right) {
        return None;
    }
    let last_parts = |outcome: &Outcome| {
        let last = outcome.last.as_ref()?;
        Some(parts(&last.variables, &last.tree, reader))
    };
    let alike = left_lines == right_lines && last_parts(left) == last_parts(right);
    (!alike).then_some(Leak::LastState)
}

/// The leak between two histories of the same scripts, and the script that
/// gives it: they are compared "up to and including the first script that stops
/// or is turned away in either".
pub fn history_leak(left: &[Outcome], right: &[Outcome], reader: Level) -> Option<(usize, Leak)> {
    for (number, (left, right)) in left.iter().zip(right).enumerate() {
        if let Some(leak) = leak(left, right, reader) {
            return Some((number, leak));
        }
        let finished = |outcome: &Outcome| outcome.ending == Ending::Finished;
        if !finished(left) || !finished(right) {
            return None;
        }
    }
    None
}
