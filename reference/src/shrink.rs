//! The smallest failing case, or pair, for a predicate: takes the first
//! smaller one that still fails, until there is none.

use crate::arrange::{in_order, renumbered};
use crate::generate::{Case, HistoryPair, Pair};
use crate::history::{self, Event};
use crate::job::{
    self, command, kind, operator, Block, Job, Node, Record, Target, Variable, READS,
};
use crate::mistake::Mistake;
use crate::run::Limits;
use crate::{within, Level};

/// Shrinks `start`, for which `failing` holds.
pub fn case(start: &Case, failing: &dyn Fn(&Case) -> bool) -> Case {
    let mut best = start.clone();
    loop {
        let found = smaller_cases(&best).find(failing);
        match found {
            Some(smaller) => best = smaller,
            None => return best,
        }
    }
}

/// Shrinks `start`, for which `failing` holds; what comes out is a pair still.
pub fn pair(start: &Pair, failing: &dyn Fn(&Pair) -> bool) -> Pair {
    let mut best = start.clone();
    loop {
        let found = smaller_pairs(&best).find(|pair| pair.well_formed() && failing(pair));
        match found {
            Some(smaller) => best = smaller,
            None => return best,
        }
    }
}

/// One way to make a job smaller.
#[derive(Clone, Copy, Debug)]
enum Edit {
    RemoveRecords {
        first: usize,
        count: usize,
    },
    /// If, else and end, or while and end, without what is inside.
    RemoveFrame(Block),
    SetRecord(usize, Record),
    /// With its subtree.
    RemoveNode(usize),
    SetNode(usize, Node),
    RemoveVariable(usize),
    SetVariable(usize, Variable),
}

fn smaller_cases(case: &Case) -> Box<dyn Iterator<Item = Case> + '_> {
    let limits = smaller_limits(&case.limits).into_iter();
    let limited = limits.map(|limits| Case {
        limits,
        bytes: case.bytes.clone(),
    });
    match job::split(&case.bytes) {
        Ok(job) => {
            let edited = edits(&job).into_iter().flat_map(move |edit| {
                let smaller = apply(&job, edit);
                // With as many free places as before, or with more.
                let removed = job.nodes.len() - smaller.nodes.len();
                let places = case.limits.places.saturating_sub(removed);
                [places, case.limits.places].map(|places| Case {
                    bytes: smaller.encode(),
                    limits: Limits {
                        places,
                        ..case.limits
                    },
                })
            });
            Box::new(edited.chain(limited))
        }
        Err(_) => {
            let bytes = smaller_bytes(&case.bytes).into_iter();
            let cut = bytes.map(|bytes| Case {
                bytes,
                limits: case.limits,
            });
            Box::new(cut.chain(limited))
        }
    }
}

/// Edits of both sides, then of one. Nodes that are hidden from the reader come last
/// in both while they are edited, so that one that is not has the same index on the
/// left and on the right.
fn smaller_pairs(pair: &Pair) -> Box<dyn Iterator<Item = Pair> + '_> {
    let reader = pair.reader;
    let sorted = |case: &Case| public_first(&job::split(&case.bytes).expect("accepted"), reader);
    let (left, right) = (sorted(&pair.left), sorted(&pair.right));
    let build = |left: &Job, right: &Job| Pair {
        reader: pair.reader,
        left: Case {
            bytes: hanging(left).encode(),
            limits: pair.left.limits,
        },
        right: Case {
            bytes: hanging(right).encode(),
            limits: pair.right.limits,
        },
    };
    let (left_edits, right_edits) = (edits(&left), edits(&right));
    let edited = left_edits
        .clone()
        .into_iter()
        .map(|edit| (Some(edit), Some(edit)))
        .chain(left_edits.into_iter().map(|edit| (Some(edit), None)))
        .chain(right_edits.into_iter().map(|edit| (None, Some(edit))))
        .map(move |(on_left, on_right)| {
            let edit = |job: &Job, edit: Option<Edit>| match edit {
                Some(edit) if fits(job, edit) => apply(job, edit),
                _ => job.clone(),
            };
            build(&edit(&left, on_left), &edit(&right, on_right))
        });
    let limited = smaller_limits(&pair.left.limits).into_iter().map(|limits| {
        let mut smaller = pair.clone();
        smaller.left.limits = limits;
        smaller.right.limits = limits;
        smaller
    });
    Box::new(
        edited
            .chain(limited)
            .filter(move |candidate| candidate != pair),
    )
}

/// The job with its nodes in the order of R-10.
fn hanging(job: &Job) -> Job {
    Job {
        nodes: in_order(&job.nodes),
        ..job.clone()
    }
}

/// The nodes of existence 0 before all others.
fn public_first(job: &Job, reader: Level) -> Job {
    let (seen, hidden): (Vec<usize>, Vec<usize>) =
        (0..job.nodes.len()).partition(|&index| within(job.nodes[index].existence, reader));
    Job {
        nodes: renumbered(&job.nodes, &[seen, hidden].concat()),
        ..job.clone()
    }
}

fn edits(job: &Job) -> Vec<Edit> {
    let mut edits = Vec::new();
    let length = job.script.len();
    let mut count = length;
    while count > 0 {
        let starts = (0..=length - count).step_by(count.div_ceil(4));
        edits.extend(starts.map(|first| Edit::RemoveRecords { first, count }));
        count /= 2;
    }
    for block in job::pair_blocks(&job.script, Mistake::None).unwrap_or_default() {
        let count = block.end - block.opening + 1;
        edits.push(Edit::RemoveRecords {
            first: block.opening,
            count,
        });
        edits.push(Edit::RemoveFrame(block));
    }
    edits.extend((0..job.nodes.len()).rev().map(Edit::RemoveNode));
    edits.extend((0..job.variables.len()).rev().map(Edit::RemoveVariable));
    for (index, record) in job.script.iter().enumerate() {
        edits.extend(
            simpler_records(record)
                .into_iter()
                .map(|r| Edit::SetRecord(index, r)),
        );
    }
    for (index, node) in job.nodes.iter().enumerate() {
        edits.extend(
            simpler_nodes(node)
                .into_iter()
                .map(|n| Edit::SetNode(index, n)),
        );
    }
    for (index, variable) in job.variables.iter().enumerate() {
        let simpler = simpler_variables(variable).into_iter();
        edits.extend(simpler.map(|v| Edit::SetVariable(index, v)));
    }
    edits
}

/// Whether the edit's indexes exist in `job`, which may be the other side of
/// the pair that the edit was made for.
fn fits(job: &Job, edit: Edit) -> bool {
    match edit {
        Edit::RemoveNode(index) | Edit::SetNode(index, _) => index < job.nodes.len(),
        _ => true,
    }
}

fn apply(job: &Job, edit: Edit) -> Job {
    let mut job = job.clone();
    match edit {
        Edit::RemoveRecords { first, count } => drop(job.script.drain(first..first + count)),
        Edit::RemoveFrame(block) => {
            job.script.remove(block.end);
            if let Some(otherwise) = block.otherwise {
                job.script.remove(otherwise);
            }
            job.script.remove(block.opening);
        }
        Edit::SetRecord(index, record) => job.script[index] = record,
        Edit::RemoveNode(index) => job.nodes = without_subtree(&job.nodes, index),
        Edit::SetNode(index, node) => {
            let parent = job.nodes[index].parent;
            job.nodes[index] = Node { parent, ..node };
        }
        Edit::RemoveVariable(index) => remove_variable(&mut job, index),
        Edit::SetVariable(index, variable) => job.variables[index] = variable,
    }
    job
}

fn without_subtree(nodes: &[Node], index: usize) -> Vec<Node> {
    let mut removed = vec![index];
    for (later, node) in nodes.iter().enumerate().skip(index + 1) {
        if removed.contains(&(node.parent as usize)) {
            removed.push(later);
        }
    }
    let kept: Vec<usize> = (0..nodes.len()).filter(|i| !removed.contains(i)).collect();
    renumbered(nodes, &kept)
}

/// Takes a variable away; the indexes above it in the script go down by one.
fn remove_variable(job: &mut Job, index: usize) {
    job.variables.remove(index);
    for record in &mut job.script {
        let target = READS.get(record.command as usize).map(|reads| reads.target);
        if target == Some(Target::Variable) && record.target as usize > index {
            record.target -= 1;
        }
        if record.left_kind == kind::VARIABLE && record.left as usize > index {
            record.left -= 1;
        }
        if record.right_kind == kind::VARIABLE && record.right as usize > index {
            record.right -= 1;
        }
    }
}

fn simpler_records(record: &Record) -> Vec<Record> {
    let mut simpler = vec![record.plain()];
    let opens = matches!(
        record.command,
        command::IF | command::WHILE | command::IF_BACK
    );
    // An if that comes back is simpler as an if, and what is done to the first child
    // needs no move before.
    let plainer = match record.command {
        command::IF_BACK => Some(command::IF),
        command::NEW_RIGHT_SIBLING => Some(command::NEW_FIRST_CHILD),
        command::REMOVE_RIGHT_SIBLING => Some(command::REMOVE_FIRST_CHILD),
        command::LAST_CHILD => Some(command::FIRST_CHILD),
        _ => None,
    };
    simpler.extend(plainer.map(|command| Record { command, ..*record }));
    if !opens && !matches!(record.command, command::ELSE | command::END) {
        simpler.push(Record {
            command: command::NOTHING,
            ..Record::default()
        });
    }
    // A line for all, and no sets.
    if record.command == command::PRINT {
        simpler.push(Record {
            target: 0,
            ..*record
        });
    }
    for sets in [[0, 0], [record.sets[0], 0], [0, record.sets[1]]] {
        simpler.push(Record { sets, ..*record });
    }
    if READS
        .get(record.command as usize)
        .is_some_and(|reads| reads.expression)
    {
        simpler.extend(simpler_expressions(record));
    }
    simpler.retain(|candidate| candidate != record);
    simpler
}

fn simpler_expressions(record: &Record) -> Vec<Record> {
    let mut simpler = Vec::new();
    if record.operator != operator::LEFT {
        let swapped = Record {
            left_kind: record.right_kind,
            left: record.right,
            ..*record
        };
        for side in [*record, swapped] {
            simpler.push(Record {
                operator: operator::LEFT,
                right_kind: 0,
                right: 0,
                ..side
            });
        }
    }
    // The other operand in place of a variable.
    if record.operator != operator::LEFT && record.left_kind != record.right_kind {
        if record.left_kind == kind::VARIABLE {
            simpler.push(Record {
                left_kind: record.right_kind,
                left: record.right,
                ..*record
            });
        }
        if record.right_kind == kind::VARIABLE {
            simpler.push(Record {
                right_kind: record.left_kind,
                right: record.left,
                ..*record
            });
        }
    }
    for number in smaller_numbers(record.left_kind, record.left) {
        simpler.push(Record {
            left_kind: kind::CONSTANT,
            left: number,
            ..*record
        });
    }
    if record.operator != operator::LEFT {
        for number in smaller_numbers(record.right_kind, record.right) {
            simpler.push(Record {
                right_kind: kind::CONSTANT,
                right: number,
                ..*record
            });
        }
    }
    simpler
}

fn smaller_numbers(kind: u8, number: u32) -> Vec<u32> {
    match (kind, number) {
        (kind::CONSTANT, 0) => vec![],
        (kind::CONSTANT, 1) => vec![0],
        _ => vec![0, 1],
    }
}

fn simpler_nodes(node: &Node) -> Vec<Node> {
    let mut simpler = vec![
        Node {
            spare: [0; 3],
            ..*node
        },
        Node { value: 0, ..*node },
        Node {
            existence: 0,
            ..*node
        },
        Node {
            content: 0,
            ..*node
        },
        Node { list: 0, ..*node },
        Node {
            existence: 0,
            content: 0,
            list: 0,
            ..*node
        },
    ];
    simpler.retain(|candidate| candidate != node);
    simpler
}

fn simpler_variables(variable: &Variable) -> Vec<Variable> {
    let mut simpler = vec![
        Variable {
            spare: [0; 3],
            ..*variable
        },
        Variable {
            level: 0,
            ..*variable
        },
        Variable {
            value: 0,
            ..*variable
        },
    ];
    if variable.value != 0 {
        simpler.push(Variable {
            value: 1,
            ..*variable
        });
    }
    simpler.retain(|candidate| candidate != variable);
    simpler
}

/// Ample buffers, and lower budgets.
fn smaller_limits(limits: &Limits) -> Vec<Limits> {
    let ample = Limits::ample(limits.budget);
    let mut smaller = vec![
        Limits {
            places: ample.places,
            ..*limits
        },
        Limits {
            variables: ample.variables,
            ..*limits
        },
        Limits {
            lines: ample.lines,
            ..*limits
        },
        Limits {
            budget: limits.budget.min(100),
            ..*limits
        },
        Limits {
            budget: limits.budget / 2,
            ..*limits
        },
        Limits {
            budget: limits.budget.saturating_sub(1),
            ..*limits
        },
    ];
    smaller.retain(|candidate| candidate != limits);
    smaller
}

/// Fewer bytes, or a byte set to 0.
fn smaller_bytes(bytes: &[u8]) -> Vec<Vec<u8>> {
    let mut smaller = Vec::new();
    let mut count = bytes.len();
    while count > 0 {
        for first in (0..=bytes.len() - count).step_by(count) {
            smaller.push([&bytes[..first], &bytes[first + count..]].concat());
        }
        count /= 2;
    }
    for place in (0..bytes.len()).filter(|&place| bytes[place] != 0) {
        let mut zeroed = bytes.to_vec();
        zeroed[place] = 0;
        smaller.push(zeroed);
    }
    smaller
}

/// Shrinks a history, for which `failing` holds: fewer events, fewer entries of
/// a poke, smaller jobs and scripts.
pub fn history(start: &[Event], failing: &dyn Fn(&[Event]) -> bool) -> Vec<Event> {
    let mut best = start.to_vec();
    loop {
        let found = smaller_histories(&best).find(|events| failing(events));
        match found {
            Some(smaller) => best = smaller,
            None => return best,
        }
    }
}

fn smaller_histories(events: &[Event]) -> Box<dyn Iterator<Item = Vec<Event>> + '_> {
    let removed = (0..events.len()).rev().map(move |place| {
        let mut fewer = events.to_vec();
        fewer.remove(place);
        fewer
    });
    let changed = (0..events.len()).flat_map(move |place| {
        smaller_events(&events[place]).map(move |event| {
            let mut changed = events.to_vec();
            changed[place] = event;
            changed
        })
    });
    Box::new(removed.chain(changed))
}

fn smaller_events(event: &Event) -> Box<dyn Iterator<Item = Event> + '_> {
    let with_body = move |body: Vec<u8>| Event {
        body,
        ..event.clone()
    };
    match event.kind {
        history::kind::POKE => Box::new(without_parts(&event.body, 8).map(with_body)),
        history::kind::SCRIPT => Box::new(
            without_parts(&event.body, job::RECORD_BYTES)
                .chain(simpler_sections(&event.body))
                .map(with_body),
        ),
        history::kind::JOB => {
            let case = Case {
                bytes: event.body.clone(),
                limits: event.limits(),
            };
            let bodies: Vec<Vec<u8>> = smaller_cases(&case)
                .map(|smaller| smaller.bytes)
                .filter(|bytes| *bytes != event.body)
                .collect();
            Box::new(bodies.into_iter().map(with_body))
        }
        history::kind::WRITE if !event.body.is_empty() => {
            Box::new(std::iter::once(with_body(Vec::new())))
        }
        _ => Box::new(std::iter::empty()),
    }
}

/// The bytes without some of their parts of `size`: many at first, then one.
fn without_parts(bytes: &[u8], size: usize) -> Box<dyn Iterator<Item = Vec<u8>> + '_> {
    let parts = bytes.len().div_ceil(size);
    let halves = std::iter::successors(Some(parts), |count| Some(count / 2));
    let counts = halves.take_while(|&count| count > 0);
    Box::new(counts.flat_map(move |count| {
        (0..parts).step_by(count).map(move |first| {
            let end = ((first + count) * size).min(bytes.len());
            [&bytes[..first * size], &bytes[end..]].concat()
        })
    }))
}

fn simpler_sections(section: &[u8]) -> Box<dyn Iterator<Item = Vec<u8>> + '_> {
    if section.len() % job::RECORD_BYTES != 0 {
        return Box::new(std::iter::empty());
    }
    let script = job::records(section);
    let places = 0..script.len();
    Box::new(places.flat_map(move |place| {
        let script = script.clone();
        simpler_records(&script[place])
            .into_iter()
            .map(move |record| {
                let mut simpler = script.clone();
                simpler[place] = record;
                job::section(&simpler)
            })
    }))
}

/// Shrinks a pair of histories, for which `failing` holds; what comes out is one still.
pub fn history_pair(start: &HistoryPair, failing: &dyn Fn(&HistoryPair) -> bool) -> HistoryPair {
    let mut best = start.clone();
    loop {
        let found = smaller_history_pairs(&best)
            .find(|histories| histories.well_formed() && failing(histories));
        match found {
            Some(smaller) => best = smaller,
            None => return best,
        }
    }
}

/// Fewer scripts; scripts with fewer or simpler records on both sides, which
/// have the same ones where nothing stands in bytes that nobody reads; and
/// smaller pairs of jobs.
fn smaller_history_pairs(histories: &HistoryPair) -> Box<dyn Iterator<Item = HistoryPair> + '_> {
    let count = histories.left.len();
    let with = move |change: &dyn Fn(&mut Vec<Event>)| {
        let mut changed = histories.clone();
        change(&mut changed.left);
        change(&mut changed.right);
        changed
    };
    let fewer = (1..count)
        .rev()
        .map(move |place| with(&|events| drop(events.remove(place))));
    let plain = (1..count).map(move |place| {
        let records = job::records(&histories.left[place].body);
        let plain: Vec<Record> = records.iter().map(Record::plain).collect();
        with(&|events| events[place].body = job::section(&plain))
    });
    let simpler = (1..count).flat_map(move |place| {
        smaller_events(&histories.left[place])
            .map(move |event| with(&|events| events[place].body = event.body.clone()))
    });
    let job = |events: &[Event]| Case {
        bytes: events[0].body.clone(),
        limits: events[0].limits(),
    };
    let pair = Pair {
        reader: histories.reader,
        left: job(&histories.left),
        right: job(&histories.right),
    };
    let jobs: Vec<Pair> = smaller_pairs(&pair).collect();
    let jobs = jobs.into_iter().map(move |pair| {
        let mut changed = histories.clone();
        changed.left[0].body = pair.left.bytes;
        changed.right[0].body = pair.right.bytes;
        changed
    });
    let all = fewer.chain(plain).chain(simpler).chain(jobs);
    Box::new(all.filter(move |changed| changed != histories))
}
