//! the nodes' order, the order of its check, and the rearranger.

use super::*;
use reference::arrange::{arranged, output};
use reference::generate;
use reference::job::{decode, decode_unordered, NO_PARENT};
use reference::mistake::Mistake;
use reference::tree::Tree;

/// A job of nodes below these parents, from record 1 on; each value is the record's
/// index.
fn below(parents: &[u16]) -> Job {
    let mut nodes = vec![root_node([0, 0, 0], 0)];
    nodes.extend(
        (1..)
            .zip(parents)
            .map(|(value, &parent)| node(parent, [0, 0, 0], value)),
    );
    job(&[], &nodes, &[])
}

/// Values and parents of the rearranged job.
fn moved(parents: &[u16]) -> (Vec<i32>, Vec<u16>) {
    let bytes = arranged(&below(parents).encode(), Mistake::None).expect("accepted so far");
    let nodes = decode(&bytes).expect("accepted").nodes;
    let rows = nodes.iter().map(|node| (node.value, node.parent));
    rows.unzip()
}

/// "a node after record 0 whose parent is neither the record before it nor an
/// ancestor of that record"
#[test]
fn ending_13_order() {
    let with = |parents: &[u16]| refusal(&below(parents));
    assert_eq!(with(&[]), ACCEPTED);
    assert_eq!(with(&[0, 0, 0]), ACCEPTED);
    assert_eq!(with(&[0, 1, 2]), ACCEPTED);
    assert_eq!(with(&[0, 1, 0]), ACCEPTED);
    assert_eq!(with(&[0, 0, 2]), ACCEPTED);
    assert_eq!(with(&[0, 0, 1]), (13, 3));
    // Each of the way up from record 4, and two that are not on it.
    for (parent, expected) in [
        (4, ACCEPTED),
        (3, ACCEPTED),
        (1, ACCEPTED),
        (0, ACCEPTED),
        (2, (13, 5)),
    ] {
        assert_eq!(with(&[0, 1, 1, 3, parent]), expected, "parent {parent}");
    }
    assert_eq!(with(&[0, 0, 0, 3, 1]), (13, 5));
    // "with the first such record as index"
    assert_eq!(with(&[0, 0, 1, 0, 2]), (13, 3));
    // A node that hangs on where no node may hang any more.
    assert_eq!(with(&[0, 0, 1, 3]), (13, 3));
}

/// "checked after 5 and before 6"
#[test]
fn order_of_the_checks() {
    let mut job = below(&[0, 0, 1, 0]);
    job.nodes[1].existence = 1;
    assert_eq!(refusal(&job), (13, 3));
    job.nodes[3].parent = 0;
    assert_eq!(refusal(&job), (6, 1));
    job.nodes[3].parent = 1;
    job.nodes[4].parent = 4;
    assert_eq!(refusal(&job), (5, 4));
    job.nodes[4].parent = 0;
    job.script = vec![bare(20)];
    job.nodes[2].spare = [0, 1, 0];
    assert_eq!(refusal(&job), (13, 3));
}

/// "each node is followed at once by its whole subtree, children from left to
/// right"
#[test]
fn level_after_level_is_rearranged() {
    //      0
    //    1   2
    //   3 4 5
    assert_eq!(
        moved(&[0, 0, 1, 1, 2]),
        (vec![0, 1, 3, 4, 2, 5], vec![NO_PARENT, 0, 1, 1, 0, 4])
    );
    // Two chains, in turn.
    assert_eq!(
        moved(&[0, 0, 1, 2, 3, 4]),
        (vec![0, 1, 3, 5, 2, 4, 6], vec![NO_PARENT, 0, 1, 2, 0, 4, 5])
    );
    // The last parent's child first.
    assert_eq!(
        moved(&[0, 0, 0, 3, 2, 1]),
        (vec![0, 1, 6, 2, 5, 3, 4], vec![NO_PARENT, 0, 1, 0, 3, 0, 5])
    );
}

/// "it moves whole node records, renumbers parents and changes nothing else"
#[test]
fn nothing_else_changes() {
    let nodes = [
        root_node([0, 0, 1], 10),
        node(0, [0, 1, 1], -1),
        node(0, [1, 1, 1], i32::MIN),
        node(1, [1, 1, 1], 7),
    ];
    let variables = [public_variable(5), house_variable(-6)];
    let script = [first_child(), last_child(), print(variable(0))];
    let old = job(&variables, &nodes, &script).encode();
    let nodes = [nodes[0], nodes[1], node(1, [1, 1, 1], 7), nodes[2]];
    let new = job(&variables, &nodes, &script).encode();
    let written = output(&old, Mistake::None);
    assert_eq!(written.standard_output, new);
    assert_eq!(written.standard_error, "");
    // "a job already in this order comes out byte for byte equal"
    assert_eq!(arranged(&new, Mistake::None), Ok(new));
}

/// "a job turned back so far gets its number and index": 12 among them, and not 13.
#[test]
fn a_refused_job() {
    let said = |job: &Job| output(&job.encode(), Mistake::None);
    let mut job = below(&[0, 0, 1]);
    assert_eq!(said(&job).standard_error, "");
    job.script = vec![bare(20)];
    assert_eq!(said(&job).standard_error, "refused 7 at 0\n");
    job.script = vec![come_back(1), left_sibling(), end(), last_child(), end()];
    assert_eq!(said(&job).standard_error, "refused 8 at 4\n");
    job.nodes[3].spare = [0, 0, 1];
    assert_eq!(said(&job).standard_error, "refused 12 at 3\n");
    job.nodes[1].content = 2;
    assert_eq!(said(&job).standard_error, "refused 6 at 1\n");
    job.nodes[3].parent = 3;
    assert_eq!(said(&job).standard_error, "refused 5 at 3\n");
    assert_eq!(said(&job).standard_output, []);
    assert_eq!(
        output(&[1; 7], Mistake::None).standard_error,
        "refused 1 at 0\n"
    );
}

/// "so the same tree comes out"
#[test]
fn generated_jobs_keep_their_trees() {
    let (mut moved, mut stayed) = (0, 0);
    for seed in 0..2_000 {
        let case = generate::shuffled(seed);
        let Ok(old) = decode_unordered(&case.bytes, Mistake::None) else {
            continue;
        };
        let bytes = arranged(&case.bytes, Mistake::None).expect("accepted so far");
        let new = decode(&bytes).expect("accepted");
        assert_eq!(
            Tree::from_records(&new.nodes),
            Tree::from_records(&old.nodes)
        );
        assert_eq!((&new.variables, &new.script), (&old.variables, &old.script));
        assert_eq!(arranged(&bytes, Mistake::None).as_ref(), Ok(&bytes));
        // By the rules of today a job stays, or is turned back with 13 alone.
        match decode(&case.bytes) {
            Ok(_) => assert_eq!(bytes, case.bytes),
            Err(refusal) => assert_eq!(refusal.ending.number(), 13),
        }
        moved += (bytes != case.bytes) as u32;
        stayed += (bytes == case.bytes) as u32;
    }
    println!("{moved} rearranged, {stayed} were in order");
    assert!(moved > 500 && stayed > 50);
}

#[test]
fn as_many_nodes_as_there_may_be() {
    for seed in 0..10 {
        let case = generate::shuffled_greatest(seed);
        let bytes = arranged(&case.bytes, Mistake::None).expect("accepted so far");
        assert_eq!(decode(&bytes).expect("accepted").nodes.len(), 512);
    }
}
