//! The jobs that are measured. Each is bytes and a budget; both sides get the
//! same.

use fast::follow::Record as LentRecord;
use reference::arrange::in_order;
use reference::history::store;
use reference::job::{Job, Node, Record, Variable, MAX_NODES, MAX_RECORDS, MAX_VARIABLES};
use reference::source::*;
use reference::table::Lent;
use reference::tree::Tree;

use crate::histories::records;

/// What a row's time is divided by.
#[derive(Clone, Copy, Debug, PartialEq, Eq)]
pub enum Unit {
    /// Nanoseconds a step, the checks of the job included.
    Step,
    /// Microseconds a call.
    Call,
}

/// Which call it is.
#[derive(Clone, Copy, Debug, PartialEq, Eq)]
pub enum Task {
    /// A job.
    Run,
    /// A follow-on script over a lent table.
    Follow,
    /// What stands in a lent table, written as a job.
    Write,
}

pub struct Workload {
    pub name: String,
    pub task: Task,
    /// A job, or a bare script section.
    pub job: Vec<u8>,
    /// The lent records; none for a job.
    pub table: Vec<LentRecord>,
    pub budget: u64,
    /// Bytes lent for lines, or for the job that is written.
    pub area: usize,
    pub unit: Unit,
}

/// Long enough that the checks are a small part, short enough that most
/// samples are not interrupted.
const STEPS: u64 = 250_000;

const PLAIN: [u8; 3] = [0, 0, 0];

fn long(name: &str, variables: &[Variable], nodes: &[Node], script: &[Record]) -> Workload {
    Workload {
        name: String::from(name),
        job: job(variables, nodes, script).encode(),
        task: Task::Run,
        table: Vec::new(),
        budget: STEPS,
        area: 0,
        unit: Unit::Step,
    }
}

/// `body` again and again, until the budget is used up.
fn endless(body: &[Record]) -> Vec<Record> {
    [&[repeat(1)], body, &[end()]].concat()
}

/// The rows of the table.
pub fn table() -> Vec<Workload> {
    vec![
        counting(),
        walk(MAX_NODES),
        siblings("left to right", first_child(), right_sibling()),
        siblings("right to left", last_child(), left_sibling()),
        chain_walk(),
        churn(20),
        sibling_churn(),
        children_read(500),
        children_read(1),
        children_read(511),
        subtrees(),
        guards(),
        below_chain(MAX_NODES - 1),
        subtrees_back(MAX_NODES),
        nested_back(20),
        checking(
            "checking a small job (20 nodes, 29 records)",
            &small_parts(),
        ),
        checking(
            "checking a full job, all nodes below the root",
            &full(|_| 0),
        ),
        checking(
            "checking a full job, each node below the last",
            &full(|index| index - 1),
        ),
        checking(
            "checking a full job, two nodes below each node",
            &full(|index| (index - 1) / 2),
        ),
        checking(
            "checking a full job, a chain of 256 nodes with a leaf for each",
            &full(leaves_of_a_chain),
        ),
        small_job(),
        once("1,024 records, insert and remove", &insertions(512)),
        once(
            "1,024 records, insert and remove inside sixteen nested ifs that come back",
            &nested(16).repeat(30),
        ),
        standing(
            "a script of no records over 512 nodes, all below the root",
            |_| 0,
        ),
        standing(
            "a script of no records over 512 nodes, each below the last",
            |index| index - 1,
        ),
        written(
            "512 scattered nodes written as a job, all below the root",
            |_| 0,
        ),
        written(
            "512 scattered nodes written as a job, each below the last",
            |index| index - 1,
        ),
    ]
}

/// Runs without an end: a loop of few steps, and a walk over a full table.
pub fn long_runs() -> [Workload; 2] {
    let body = [assign(0, sum(variable(1), constant(1)))];
    let variables = [public_variable(0), public_variable(7)];
    [
        long("loop of three steps", &variables, &wide(2), &endless(&body)),
        walk(MAX_NODES),
    ]
}

/// The same work at three sizes.
pub struct Growth {
    pub name: &'static str,
    pub sizes: [usize; 3],
    pub workloads: [Workload; 3],
}

impl Growth {
    fn new(name: &'static str, sizes: [usize; 3], workload: impl Fn(usize) -> Workload) -> Growth {
        Growth {
            name,
            sizes,
            workloads: sizes.map(workload),
        }
    }
}

/// From 8 to 512 nodes, with the same script or one of the same length.
pub fn by_nodes() -> Vec<Growth> {
    let sizes = [8, 64, 512];
    vec![
        Growth::new("walk of all nodes", sizes, walk),
        Growth::new("insert and remove, one place free", sizes, |nodes| {
            churn(nodes - 1)
        }),
        Growth::new("children read at the root", sizes, |nodes| {
            children_read(nodes - 1)
        }),
        Growth::new(
            "insert and remove below a chain, inside an if that comes back",
            sizes,
            |nodes| below_chain(nodes - 1),
        ),
        Growth::new(
            "build and drop all nodes, inside an if that comes back",
            sizes,
            subtrees_back,
        ),
        Growth::new(
            "insert and remove inside fifteen nested ifs that come back",
            sizes,
            |nodes| nested_back(nodes - 1),
        ),
    ]
}

/// From 1 to 511 children, which is all that a root can have.
pub fn by_children() -> Vec<Growth> {
    let sizes = [1, 64, 511];
    vec![Growth::new(
        "children read at the root",
        sizes,
        children_read,
    )]
}

/// From 10 to 1,000 records, the loop's two included.
pub fn by_records() -> Vec<Growth> {
    let sizes = [10, 100, 1_000];
    let add_one = |index: usize| assign(index % 8, sum(variable(index % 8), constant(1)));
    vec![
        Growth::new("assignments to eight variables", sizes, |records| {
            straight("assignments", records, add_one)
        }),
        Growth::new("moves to the root", sizes, |records| {
            straight("moves to the root", records, |_| root())
        }),
    ]
}

fn wide(count: usize) -> Vec<Node> {
    let mut nodes = vec![root_node(PLAIN, 10)];
    nodes.resize(count, node(0, PLAIN, 3));
    nodes
}

fn counting() -> Workload {
    let script = [
        repeat(less(variable(0), constant(STEPS as i32 / 3))),
        assign(0, sum(variable(0), constant(1))),
        end(),
    ];
    long("counting loop", &[public_variable(0)], &wide(2), &script)
}

/// Groups of seven siblings, each group below the last node of the one before.
/// A turn of the loop makes as many moves for few nodes as for many.
fn walk(count: usize) -> Workload {
    let groups = (count - 1) / 7;
    let mut nodes = vec![root_node(PLAIN, 0)];
    for group in 0..groups {
        let parent = 7 * group as u16;
        nodes.resize(nodes.len() + 7, node(parent, PLAIN, 1));
    }
    let most = (MAX_NODES - 1) / 7;
    let mut body = Vec::new();
    for turn in 1..=most {
        body.push(first_child());
        body.extend([right_sibling(); 6]);
        if turn % groups == 0 || turn == most {
            body.push(root());
        }
    }
    long(
        &format!("walk of {count} nodes"),
        &[],
        &nodes,
        &endless(&body),
    )
}

/// Over 500 siblings from one end to the other.
fn siblings(way: &str, begin: Record, go_on: Record) -> Workload {
    let body = [&[begin][..], &[go_on; 499], &[up()]].concat();
    long(
        &format!("walk over 500 siblings, {way}"),
        &[],
        &wide(501),
        &endless(&body),
    )
}

/// Each node below the last.
fn chain(count: usize) -> Vec<Node> {
    let mut nodes = vec![root_node(PLAIN, 0)];
    nodes.extend((0..count as u16 - 1).map(|parent| node(parent, PLAIN, 1)));
    nodes
}

/// A chain down to its end and up again.
fn chain_walk() -> Workload {
    let nodes = chain(MAX_NODES);
    let half = [first_child(); MAX_NODES - 1];
    let body = [&half[..], &[up(); MAX_NODES - 1]].concat();
    long(
        "walk down a chain of 512 nodes and up",
        &[],
        &nodes,
        &endless(&body),
    )
}

fn insertions(times: usize) -> Vec<Record> {
    [new_first_child(0, 7), remove_first_child()].repeat(times)
}

fn churn(count: usize) -> Workload {
    let body = insertions(100);
    let name = format!("insert and remove, {count} other nodes");
    long(&name, &[], &wide(count), &endless(&body))
}

fn sibling_churn() -> Workload {
    let body = [new_right_sibling(0, 7), remove_right_sibling()].repeat(100);
    let script = [vec![first_child()], endless(&body)].concat();
    long("insert and remove a right sibling", &[], &wide(20), &script)
}

fn children_read(count: usize) -> Workload {
    let body = [assign(0, children())].repeat(100);
    let name = match count {
        1 => String::from("children read, 1 child"),
        _ => format!("children read, {count} children"),
    };
    long(
        &name,
        &[public_variable(0)],
        &wide(count + 1),
        &endless(&body),
    )
}

/// A chain of 50 nodes with 50 leaves, built and dropped whole.
fn subtrees() -> Workload {
    let mut body = vec![new_first_child(0, 0), first_child()];
    for depth in 0..50 {
        body.extend([
            new_first_child(0, depth),
            new_first_child(0, 1),
            first_child(),
        ]);
    }
    body.extend([root(), remove_first_child()]);
    long(
        "build and drop subtrees of 101 nodes",
        &[],
        &wide(20),
        &endless(&body),
    )
}

/// Down a chain to its end, and there in and out of an if that comes back, with
/// a removal in it: whoever asks at its end by walking up pays for the chain.
fn below_chain(count: usize) -> Workload {
    let down = [repeat(children()), first_child(), end()];
    let body = [vec![come_back(1)], insertions(1), vec![end()]].concat();
    let name =
        format!("insert and remove below a chain of {count} nodes, inside an if that comes back");
    let script = [&down[..], &endless(&body.repeat(100))].concat();
    long(&name, &[], &chain(count), &script)
}

/// All nodes but the root built, one below another or beside it, and dropped
/// whole inside an if that comes back: each must be known to be gone. A turn of
/// the loop makes as many steps for few nodes as for many, but for some.
fn subtrees_back(count: usize) -> Workload {
    let mut body = vec![come_back(1), new_first_child(0, 0), first_child()];
    for depth in 0..(count as i32 - 2) / 2 {
        body.extend([
            new_first_child(0, depth),
            new_first_child(0, 1),
            first_child(),
        ]);
    }
    body.extend([root(), remove_first_child(), end()]);
    let most = 3 * (MAX_NODES - 2) / 2 + 6;
    let name = format!(
        "build and drop subtrees of {} nodes, inside an if that comes back",
        count - 1
    );
    let turns = body.repeat(most / body.len());
    long(&name, &[], &wide(1), &endless(&turns))
}

/// An insertion and a removal inside so many ifs that come back.
fn nested(depth: usize) -> Vec<Record> {
    [vec![come_back(1); depth], insertions(1), vec![end(); depth]].concat()
}

/// The loop around them is the sixteenth block.
fn nested_back(count: usize) -> Workload {
    let name =
        format!("insert and remove inside fifteen nested ifs that come back, {count} other nodes");
    let body = nested(15).repeat(30);
    long(&name, &[], &wide(count), &endless(&body))
}

/// A script of 1,024 records, once through: sixteen blocks leave none for a loop.
fn once(name: &str, script: &[Record]) -> Workload {
    let mut script = script.to_vec();
    script.resize(MAX_RECORDS, nothing());
    Workload {
        name: String::from(name),
        job: job(&[], &wide(20), &script).encode(),
        task: Task::Run,
        table: Vec::new(),
        budget: STEPS,
        area: 0,
        unit: Unit::Call,
    }
}

fn guards() -> Workload {
    let body = [
        when(less(variable(0), value())),
        set_value(mean(value(), variable(0))),
        otherwise(),
        set_value(sum(value(), constant(7))),
        end(),
        when(mean(value(), constant(-3))),
        assign(0, difference(variable(0), value())),
        end(),
        when(variable(1)),
        assign(1, mean(variable(1), value())),
        end(),
    ]
    .repeat(10);
    let variables = [public_variable(5), house_variable(1 << 20)];
    long(
        "guards with means and sets",
        &variables,
        &wide(20),
        &endless(&body),
    )
}

fn straight(what: &str, records: usize, record: impl Fn(usize) -> Record) -> Workload {
    let body: Vec<Record> = (0..records - 2).map(record).collect();
    long(
        &format!("{records} records, {what}"),
        &[public_variable(0); 8],
        &wide(8),
        &endless(&body),
    )
}

/// A budget of 0 is turned back after every check of the bytes.
fn checking(name: &str, parts: &Job) -> Workload {
    Workload {
        name: String::from(name),
        job: parts.encode(),
        task: Task::Run,
        table: Vec::new(),
        budget: 0,
        area: 0,
        unit: Unit::Call,
    }
}

/// As many of everything as there may be; the nodes in the order of R-10.
fn full(parent: fn(u16) -> u16) -> Job {
    let mut nodes = vec![root_node(PLAIN, 0)];
    nodes.extend((1..MAX_NODES as u16).map(|index| node(parent(index), PLAIN, 1)));
    let nodes = in_order(&nodes);
    let some = [
        assign(0, sum(variable(0), variable(63))),
        when(less(value(), children())),
        set_value(mean(value(), variable(1))),
        end(),
    ];
    job(
        &[public_variable(1); MAX_VARIABLES],
        &nodes,
        &some.repeat(MAX_RECORDS / 4),
    )
}

/// A chain, then a leaf for each of its nodes, the last parent first. Who searches
/// back, record by record, from each leaf to its left sibling passes 65,025 others.
fn leaves_of_a_chain(index: u16) -> u16 {
    const CHAIN: u16 = 256;
    match index {
        0..CHAIN => index - 1,
        _ => 2 * CHAIN - 1 - index,
    }
}

/// Twenty nodes below three parents, and a script that counts to eight.
fn small_parts() -> Job {
    let mut nodes = vec![root_node(PLAIN, 10)];
    nodes.extend([node(0, PLAIN, 1), node(0, PLAIN, 2), node(0, PLAIN, 3)]);
    nodes.extend((4..20).map(|index| node(1 + index % 3, PLAIN, i32::from(index))));
    let nodes = in_order(&nodes);
    let mut script = vec![
        repeat(less(variable(0), constant(8))),
        assign(0, sum(variable(0), constant(1))),
        end(),
        first_child(),
        first_child(),
        print(value()),
        right_sibling(),
        print(value()),
        up(),
        right_sibling(),
        print(children()),
        new_first_child(0, sum(value(), constant(1))),
        new_right_sibling(1, value()),
        remove_first_child(),
        root(),
        set_value(mean(value(), variable(0))),
        when(value()),
        print(value()),
        end(),
        cover(),
        when(variable(1)),
        first_child(),
        otherwise(),
        first_child(),
        end(),
        root(),
        print(variable(0)),
    ];
    script.resize(29, nothing());
    job(&[public_variable(0), house_variable(1)], &nodes, &script)
}

/// Twenty nodes, fifty steps, five lines.
pub fn small_job() -> Workload {
    Workload {
        name: String::from("whole small job (20 nodes, 50 steps)"),
        job: small_parts().encode(),
        task: Task::Run,
        table: Vec::new(),
        budget: 100,
        area: 64,
        unit: Unit::Call,
    }
}

/// A follow-on script of no records: the checks of the lent table alone.
fn standing(name: &str, parent: fn(u16) -> u16) -> Workload {
    Workload {
        name: String::from(name),
        task: Task::Follow,
        job: Vec::new(),
        table: lent(parent, (0..MAX_NODES).collect()),
        budget: 1,
        area: 0,
        unit: Unit::Call,
    }
}

/// 512 nodes whose places are scattered, written as a job.
fn written(name: &str, parent: fn(u16) -> u16) -> Workload {
    // 387 is prime to 512, so that each place comes once.
    let scattered = (0..MAX_NODES).map(|index| 387 * index % MAX_NODES);
    Workload {
        name: String::from(name),
        task: Task::Write,
        job: Vec::new(),
        table: lent(parent, scattered.collect()),
        budget: 1,
        area: 12 * MAX_NODES + 8,
        unit: Unit::Call,
    }
}

/// A tree of 512 nodes at these places, in preorder.
fn lent(parent: fn(u16) -> u16, places: Vec<usize>) -> Vec<LentRecord> {
    let tree = Tree::from_records(&full(parent).nodes);
    let mut table = vec![Lent::default(); MAX_NODES];
    store(&tree, &places, &mut table);
    records(&table)
}
