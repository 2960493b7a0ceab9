//! Both sides of every edge.

use super::*;
use reference::job::{Variable, MAX_BYTES};

/// A root of list 0 with as many children as make `count` nodes.
fn wide(count: usize) -> Vec<Node> {
    let mut nodes = vec![root_node([0, 0, 0], 0)];
    nodes.resize(count, node(0, [0, 0, 0], 0));
    nodes
}

fn sized(variables: usize, nodes: usize, records: usize) -> Job {
    job(
        &vec![Variable::default(); variables],
        &wide(nodes),
        &vec![nothing(); records],
    )
}

/// The ending under a budget that the script does not use up.
fn ending(job: &Job) -> u32 {
    run_with(job, &Limits::ample(2_000)).ending.number()
}

#[test]
fn variables() {
    assert_eq!(ending(&sized(64, 1, 0)), 0);
    assert_eq!(ending(&sized(65, 1, 0)), 3);
}

#[test]
fn nodes() {
    assert_eq!(ending(&sized(0, 0, 0)), 3);
    assert_eq!(ending(&sized(0, 1, 0)), 0);
    assert_eq!(ending(&sized(0, 512, 0)), 0);
    assert_eq!(ending(&sized(0, 513, 0)), 3);
}

#[test]
fn records() {
    let outcome = run_with(&sized(0, 1, 1_024), &Limits::ample(2_000));
    assert_eq!(answer(&outcome), (0, 0, 1_024, vec![]));
    assert_eq!(ending(&sized(0, 1, 1_025)), 3);
}

#[test]
fn sizes() {
    assert_eq!(refusal_of(&[0; 7]), (1, 0));
    assert_eq!(refusal_of(&[0; 8]), (3, 0));
    let largest = sized(64, 512, 1_024).encode();
    assert_eq!(largest.len(), MAX_BYTES);
    assert_eq!(MAX_BYTES, 23_048);
    let outcome = run::outcome(&largest, &Limits::ample(2_000));
    assert_eq!(answer(&outcome), (0, 0, 1_024, vec![]));
    let over = [vec![0], largest].concat();
    assert_eq!(over.len(), 23_049);
    assert_eq!(refusal_of(&over), (1, 0));
}

/// `depth` blocks, one inside the other.
fn nested(opening: Record, depth: usize) -> Job {
    let script = [vec![opening; depth], vec![end(); depth]].concat();
    job(&[], &wide(1), &script)
}

#[test]
fn nested_blocks() {
    for opening in [when(1), when(0), repeat(0)] {
        assert_eq!(ending(&nested(opening, 16)), 0);
        assert_eq!(refusal(&nested(opening, 17)), (8, 16));
    }
    assert_eq!(answer(&run(&nested(when(1), 16))), (0, 0, 32, vec![]));
    // One after the other there may be more than 16.
    let script = [when(1), end()].repeat(40);
    assert_eq!(
        answer(&run(&job(&[], &wide(1), &script))),
        (0, 0, 80, vec![])
    );
}

#[test]
fn budgets() {
    let endless = job(&[], &wide(1), &[repeat(1), end()]);
    let with = |budget| answer(&run_with(&endless, &Limits::ample(budget)));
    assert_eq!(with(0), (9, 0, 0, vec![]));
    assert_eq!(with(1), (25, 1, 1, vec![]));
    assert_eq!(with(1_000_000), (25, 0, 1_000_000, vec![]));
    assert_eq!(with(1_000_001), (9, 0, 0, vec![]));
}

#[test]
fn places() {
    let full = job(&[], &wide(512), &[new_first_child(0, 1)]);
    assert_eq!(answer(&run(&full)), (23, 0, 0, vec![]));
    let room = job(
        &[],
        &wide(511),
        &[new_first_child(0, 1), new_first_child(0, 1)],
    );
    assert_eq!(answer(&run(&room)), (23, 1, 1, vec![]));
}

/// A removed subtree gives back all of its places.
#[test]
fn places_of_a_subtree() {
    let nodes = [
        root_node([0, 0, 0], 0),
        node(0, [0, 0, 0], 1),
        node(1, [0, 0, 0], 2),
    ];
    let insert = new_first_child(0, 9);
    let script = [remove_first_child(), insert, insert, insert];
    let limits = Limits {
        places: 3,
        ..Limits::ample(100)
    };
    assert_eq!(
        answer(&run_with(&job(&[], &nodes, &script), &limits)),
        (23, 3, 3, vec![])
    );
}

#[test]
fn numbers() {
    let (most, least) = (constant(i32::MAX), constant(i32::MIN));
    for (expression, expected) in [
        (sum(most, constant(0)), i32::MAX),
        (sum(constant(i32::MAX - 1), constant(1)), i32::MAX),
        (sum(most, least), -1),
        (sum(least, constant(0)), i32::MIN),
        (sum(constant(i32::MIN + 1), constant(-1)), i32::MIN),
        (difference(constant(-1), most), i32::MIN),
        (difference(constant(-1), least), i32::MAX),
        (difference(least, least), 0),
        (difference(constant(3), constant(5)), -2),
        (mean(most, most), i32::MAX),
        (mean(least, least), i32::MIN),
        (mean(most, least), -1),
        (mean(constant(-1), constant(0)), -1),
        (mean(constant(1), constant(0)), 0),
        (mean(constant(-3), constant(-4)), -4),
        (equal(most, most), 1),
        (equal(most, least), 0),
        (less(least, most), 1),
        (less(most, least), 0),
        (less(constant(-1), constant(0)), 1),
        (less(constant(4), constant(4)), 0),
    ] {
        let outcome = run(&job(&[], &wide(1), &[print(expression)]));
        assert_eq!(outcome.numbers(), [expected], "{expression:?}");
    }
}
