//! R-7, the later moves: left sibling and last child.

use super::*;
use reference::clean;
use reference::generate::{Case, Pair};
use reference::mistake::Mistake;
use reference::public::Leak;

/// Root 10 with the children 3, 4 and 5, all levels 0.
fn three() -> Vec<Node> {
    let mut nodes = vec![root_node([0, 0, 0], 10)];
    nodes.extend([3, 4, 5].map(|value| node(0, [0, 0, 0], value)));
    nodes
}

fn over(nodes: &[Node], h: i32, script: &[Record]) -> Answer {
    let variables = [public_variable(0), house_variable(h)];
    answer(&run(&job(&variables, nodes, script)))
}

/// "Command 18 moves to the left sibling", "Command 19 moves to the last child".
#[test]
fn where_they_go() {
    let script = [
        last_child(),
        print(value()),
        left_sibling(),
        print(value()),
        left_sibling(),
        print(value()),
    ];
    assert_eq!(over(&three(), 0, &script), (0, 0, 6, vec![5, 4, 3]));
    // Of an only child first and last are one.
    let only = [
        last_child(),
        print(value()),
        up(),
        first_child(),
        print(value()),
    ];
    assert_eq!(answer(&run(&trial_job(0, &only))), (0, 0, 5, vec![3, 3]));
    // As the tree stands then: after an insertion in front and one behind.
    let changed = [
        new_first_child(0, 2),
        last_child(),
        new_right_sibling(0, 6),
        up(),
        last_child(),
        print(value()),
        left_sibling(),
        remove_right_sibling(),
        up(),
        last_child(),
        print(value()),
        left_sibling(),
        left_sibling(),
        left_sibling(),
        print(value()),
    ];
    assert_eq!(over(&three(), 0, &changed), (0, 0, 15, vec![6, 5, 2]));
}

/// "22 where the node does not exist": left of a first child, left of the root, the
/// last child of a leaf; and 22 before 21.
#[test]
fn what_is_not_there() {
    let first = [first_child(), left_sibling()];
    assert_eq!(over(&three(), 0, &first), (22, 1, 1, vec![]));
    assert_eq!(over(&three(), 0, &[left_sibling()]), (22, 0, 0, vec![]));
    let leaf = [first_child(), last_child()];
    assert_eq!(over(&three(), 0, &leaf), (22, 1, 1, vec![]));
    let guarded = [when(variable(1)), left_sibling(), end()];
    assert_eq!(over(&three(), 1, &guarded), (22, 1, 1, vec![]));
    let guarded = [first_child(), when(variable(1)), last_child(), end()];
    assert_eq!(over(&three(), 1, &guarded), (22, 2, 2, vec![]));
}

/// "Both need the context not above the cursor level."
#[test]
fn their_rule() {
    let last = [when(variable(1)), last_child(), end()];
    assert_eq!(over(&three(), 1, &last), (21, 1, 1, vec![]));
    assert_eq!(over(&three(), 0, &last), (0, 0, 2, vec![]));
    let left = [last_child(), when(variable(1)), left_sibling(), end()];
    assert_eq!(over(&three(), 1, &left), (21, 2, 2, vec![]));
    let covered = [
        cover(),
        when(variable(1)),
        last_child(),
        left_sibling(),
        end(),
    ];
    assert_eq!(over(&three(), 1, &covered), (0, 0, 5, vec![]));
}

/// 19 "joins the parent's list level, because a house child may stand last in one
/// run only": also where the last child is public. 18 joins the existence of the
/// left sibling, which the cursor level has already.
#[test]
fn what_they_join() {
    let mut nodes = three();
    nodes[0].list = 1;
    let last = [last_child(), print(value())];
    assert_eq!(over(&nodes, 0, &last), (21, 1, 1, vec![]));
    let first = [first_child(), print(value())];
    assert_eq!(over(&nodes, 0, &first), (0, 0, 2, vec![3]));
    let back = [
        first_child(),
        right_sibling(),
        left_sibling(),
        print(value()),
    ];
    assert_eq!(over(&nodes, 0, &back), (0, 0, 4, vec![3]));
    // From a house node to a public one: the cursor level stays.
    nodes.push(node(0, [1, 1, 1], 6));
    let from_house = [last_child(), left_sibling(), print(value())];
    assert_eq!(over(&nodes, 0, &from_house), (21, 2, 2, vec![]));
    let to_root = [last_child(), left_sibling(), root(), print(value())];
    assert_eq!(over(&nodes, 0, &to_root), (0, 0, 4, vec![10]));
}

/// The leak that the list level closes: a house child stands last on one side only,
/// and the set that follows is allowed on both.
#[test]
fn the_leak() {
    let mut nodes = vec![root_node([0, 0, 1], 10), node(0, [0, 0, 0], 3)];
    let script = [
        last_child(),
        set_value(7),
        root(),
        first_child(),
        print(value()),
    ];
    let case = |nodes: &[Node]| Case {
        bytes: job(&[], nodes, &script).encode(),
        limits: Limits::ample(100),
    };
    let left = case(&nodes);
    nodes.push(node(0, [1, 1, 1], 4));
    let right = case(&nodes);
    let pair = Pair {
        reader: 0,
        left,
        right,
    };
    assert!(pair.well_formed());
    assert_eq!(pair.leak(Mistake::LastJoinsExistence), Some(Leak::Lines));
    assert_eq!(pair.leak(Mistake::None), None);
}

/// "7 begins at 20", and to the cleaner of R-4 at 17.
#[test]
fn the_checks() {
    let with = |command: u8| refusal(&trial_job(0, &[bare(command)]));
    assert_eq!(with(18), (22, 0));
    assert_eq!(with(19), ACCEPTED);
    assert_eq!(with(20), (7, 0));
    for command in [18, 19] {
        let bytes = trial_job(0, &[bare(command)]).encode();
        let output = clean::output(&bytes, Mistake::None);
        assert_eq!(output.standard_error, "refused 7 at 0\n");
    }
}
