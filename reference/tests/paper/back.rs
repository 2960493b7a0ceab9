//! R-6, an if that comes back.

use super::*;
use reference::clean;
use reference::mistake::Mistake;

/// "Its end brings both back": after a look at a neighbour under a house guard a
/// public line may come.
#[test]
fn both_are_brought_back() {
    let script = [
        come_back(variable(1)),
        first_child(),
        end(),
        print(value()),
        first_child(),
        print(value()),
    ];
    assert_eq!(answer(&run(&trial_job(1, &script))), (0, 0, 6, vec![10, 3]));
    assert_eq!(answer(&run(&trial_job(0, &script))), (0, 0, 5, vec![10, 3]));
}

/// "from either side of an else", and "joins the context, with its guard, to the
/// cursor level", whatever the guard's value: the move in the else goes on.
#[test]
fn from_either_side_of_an_else() {
    let script = [
        come_back(variable(1)),
        cover(),
        otherwise(),
        first_child(),
        end(),
        print(value()),
    ];
    assert_eq!(answer(&run(&trial_job(1, &script))), (0, 0, 5, vec![10]));
    assert_eq!(answer(&run(&trial_job(0, &script))), (0, 0, 4, vec![10]));
}

/// The cursor level in the block is the context's: nothing public is read there.
#[test]
fn the_level_in_the_block() {
    let script = [come_back(variable(1)), assign(0, value()), end()];
    assert_eq!(answer(&run(&trial_job(1, &script))), (21, 1, 1, vec![]));
    // The guard around it joins too.
    let around = [
        when(variable(1)),
        come_back(1),
        first_child(),
        end(),
        end(),
        print(value()),
    ];
    assert_eq!(answer(&run(&trial_job(1, &around))), (0, 0, 6, vec![10]));
    // The guard is evaluated with the old cursor level.
    let guard = [come_back(value()), print(value()), end()];
    assert_eq!(answer(&run(&trial_job(1, &guard))), (0, 0, 3, vec![10]));
}

/// "If the remembered node was removed meanwhile, the end stops with 22, also
/// where its place now holds another node"; the end's index, and no step.
#[test]
fn a_removed_node() {
    let removed = [
        first_child(),
        come_back(1),
        up(),
        remove_first_child(),
        end(),
    ];
    assert_eq!(answer(&run(&trial_job(0, &removed))), (22, 4, 4, vec![]));
    let replaced = [
        first_child(),
        come_back(1),
        up(),
        remove_first_child(),
        new_first_child(0, 5),
        end(),
    ];
    assert_eq!(answer(&run(&trial_job(0, &replaced))), (22, 5, 5, vec![]));
    // An ancestor of it.
    let above = [
        first_child(),
        new_first_child(0, 4),
        first_child(),
        come_back(1),
        root(),
        remove_first_child(),
        end(),
    ];
    assert_eq!(answer(&run(&trial_job(0, &above))), (22, 6, 6, vec![]));
}

/// Insertions and removals among siblings do not disturb it.
#[test]
fn a_node_among_other_siblings() {
    let script = [
        first_child(),
        come_back(1),
        up(),
        new_first_child(0, 5),
        new_first_child(0, 6),
        first_child(),
        remove_right_sibling(),
        end(),
        print(value()),
        new_right_sibling(0, 7),
        right_sibling(),
        print(value()),
    ];
    assert_eq!(answer(&run(&trial_job(0, &script))), (0, 0, 12, vec![3, 7]));
}

/// One in another, and one in a while: each brings back its own.
#[test]
fn nested() {
    let script = [
        come_back(1),
        first_child(),
        come_back(variable(1)),
        up(),
        end(),
        print(value()),
        end(),
        print(value()),
    ];
    assert_eq!(answer(&run(&trial_job(1, &script))), (0, 0, 8, vec![3, 10]));
    let turns = [
        repeat(less(variable(0), constant(2))),
        come_back(variable(1)),
        first_child(),
        end(),
        assign(0, sum(variable(0), constant(1))),
        end(),
        print(value()),
    ];
    assert_eq!(answer(&run(&trial_job(1, &turns))), (0, 0, 14, vec![10]));
}

/// Sixteen, each a node further down a chain than the one around it: each brings
/// back its own.
#[test]
fn sixteen_deep() {
    let mut nodes = vec![root_node([0, 0, 0], 0)];
    nodes.extend((0..16).map(|parent| node(parent, [0, 0, 0], i32::from(parent) + 1)));
    let down = [come_back(1), first_child()].repeat(16);
    let back = [end(), print(value())].repeat(16);
    let outcome = run(&job(&[], &nodes, &[down, back].concat()));
    let lines = (0..16).rev().collect();
    assert_eq!(answer(&outcome), (0, 0, 64, lines));
}

/// 27 as of an if: nothing is remembered, and it is no step.
#[test]
fn a_guard_outside_the_range() {
    let script = [come_back(sum(constant(i32::MAX), constant(1))), end()];
    assert_eq!(answer(&run(&trial_job(0, &script))), (27, 0, 0, vec![]));
}

/// "That cannot happen where the guard raised the cursor level": a removal under
/// the guard is stopped before it could take the remembered node away.
#[test]
fn a_guard_that_raised_the_level() {
    let script = [
        first_child(),
        come_back(variable(1)),
        up(),
        remove_first_child(),
        end(),
    ];
    assert_eq!(answer(&run(&trial_job(1, &script))), (21, 3, 3, vec![]));
}

/// 7 began at 18 with R-6; to the cleaner of R-4 it begins at 17.
#[test]
fn the_checks() {
    let with = |script: &[Record]| refusal(&trial_job(0, script));
    assert_eq!(with(&[come_back(1), end()]), ACCEPTED);
    assert_eq!(with(&[come_back(1), otherwise(), end()]), ACCEPTED);
    assert_eq!(
        with(&[come_back(1), otherwise(), otherwise(), end()]),
        (8, 2)
    );
    assert_eq!(with(&[come_back(1)]), (8, 1));
    assert_eq!(with(&[come_back(variable(2)), end()]), (7, 0));
    let deep = |depth: usize| {
        let mut script = vec![come_back(1); depth];
        script.extend(vec![end(); depth]);
        script
    };
    assert_eq!(with(&deep(16)), ACCEPTED);
    assert_eq!(with(&deep(17)), (8, 16));
    let bytes = trial_job(0, &[come_back(1), end()]).encode();
    let output = clean::output(&bytes, Mistake::None);
    assert_eq!(output.standard_error, "refused 7 at 0\n");
}
