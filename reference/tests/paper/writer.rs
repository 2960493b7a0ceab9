//! what stands, written as a job.

use super::*;
use reference::follow;
use reference::generate;
use reference::history::{kind, store, Event, Expected, Model, RECORDS, ROOT};
use reference::job::{command, decode};
use reference::mistake::Mistake;
use reference::public;
use reference::run::Standing;
use reference::table::Lent;
use reference::tree::Tree;
use reference::writer::{write, written};

const VARIABLES: [(Level, i32); 2] = [(0, -1), (1, 7)];

fn leaf(value: i32, levels: [Level; 3]) -> Tree {
    let [existence, content, list] = levels;
    Tree {
        value,
        existence,
        content,
        list,
        children: Vec::new(),
    }
}

/// Root 10 with children 3 and 4, of which 3 has children 5 and 6; 4 is a house
/// node.
fn tree() -> Tree {
    let mut three = leaf(3, [0, 1, 0]);
    three.children = vec![leaf(5, [0, 0, 0]), leaf(6, [0, 0, 0])];
    let mut tree = leaf(10, [0, 0, 1]);
    tree.children = vec![three, leaf(-4, [1, 1, 1])];
    tree
}

/// The tree at these places of so many, in preorder.
fn table(places: &[usize], count: usize) -> Vec<Lent> {
    let free = Lent {
        value: 99,
        ..Lent::default()
    };
    let mut table = vec![free; count];
    store(&tree(), places, &mut table);
    table
}

/// The answer and the area of so many bytes, each 170 before.
fn wrote(table: &[Lent], variables: &[(Level, i32)], length: usize) -> (usize, Vec<u8>) {
    let standing = follow::standing(table, variables, Mistake::None);
    let mut area = vec![170; length];
    let answer = write(&standing, table.len(), &mut area, Mistake::None);
    (answer, area)
}

/// Byte for byte, by the layout of paper 01: 16 bytes of variables, 60 of nodes, the
/// trailer.
const JOB: &str = "00 000000 ffffffff  01 000000 07000000 \
    ffff 00 00 01 000000 0a000000 \
    0000 00 01 00 000000 03000000 \
    0100 00 00 00 000000 05000000 \
    0100 00 00 00 000000 06000000 \
    0000 01 01 01 000000 fcffffff \
    0000 1000 4c00 4c00";

fn bytes(hexadecimal: &str) -> Vec<u8> {
    let digits: String = hexadecimal.split_whitespace().collect();
    (0..digits.len())
        .step_by(2)
        .map(|at| u8::from_str_radix(&digits[at..at + 2], 16).expect("hexadecimal"))
        .collect()
}

/// "Write the variables and live nodes as a job with an empty script, the nodes closed
/// up in the order R-10 fixes." "Two states with the same variables and the same tree
/// give the same bytes, however their places are filled."
#[test]
fn the_bytes() {
    for (places, count) in [
        ([0, 1, 2, 3, 4], 5),
        ([0, 6, 2, 5, 1], 7),
        ([0, 511, 3, 2, 1], 512),
    ] {
        let (answer, area) = wrote(&table(&places, count), &VARIABLES, 84);
        assert_eq!((answer, area), (84, bytes(JOB)));
    }
    let (answer, area) = wrote(&[ROOT], &[], 20);
    let root = "ffff 00 00 00 000000 00000000 0000 0000 0c00 0c00";
    assert_eq!((answer, area), (20, bytes(root)));
}

/// "Bytes of the area beyond the job are untouched."
#[test]
fn the_rest_of_the_area() {
    let (answer, area) = wrote(&table(&[0, 1, 2, 3, 4], 5), &VARIABLES, 100);
    assert_eq!(answer, 84);
    assert_eq!(area, [bytes(JOB), vec![170; 16]].concat());
}

/// "14, the output area is shorter than the job, checked after 11 and 10 for the state
/// as in R-1; all three leave the area untouched."
#[test]
fn numbers() {
    let five = [0, 1, 2, 3, 4];
    let untouched = |answer: (usize, Vec<u8>)| {
        assert!(answer.1.iter().all(|&byte| byte == 170));
        answer.0
    };
    let whole = table(&five, 5);
    for length in [0, 1, 19, 83] {
        assert_eq!(untouched(wrote(&whole, &VARIABLES, length)), 14);
    }
    assert_eq!(wrote(&whole, &VARIABLES, 84).0, 84);
    // 10, before 14.
    let long = table(&five, RECORDS);
    for length in [0, 83, 84, 1_000] {
        assert_eq!(untouched(wrote(&long, &VARIABLES, length)), 10);
    }
    // 11, before 10 and 14: no root, a wrong count, too many variables.
    let mut counted = table(&five, RECORDS);
    counted[0].children = 3;
    let many = [(0, 0); 65];
    for length in [0, 1_000] {
        assert_eq!(untouched(wrote(&[], &VARIABLES, length)), 11);
        assert_eq!(untouched(wrote(&counted, &VARIABLES, length)), 11);
        assert_eq!(untouched(wrote(&long, &many, length)), 11);
    }
    // The greatest job that is written: 64 variables and 512 nodes.
    let standing = Ok(Standing {
        variables: vec![(0, 0); 64],
        tree: Tree {
            children: vec![leaf(1, [0, 0, 0]); 511],
            ..leaf(0, [0, 0, 0])
        },
        cursor: Vec::new(),
    });
    let mut area = vec![170; 6_664];
    assert_eq!(write(&standing, 512, &mut area, Mistake::None), 6_664);
    assert_eq!(write(&standing, 512, &mut area[1..], Mistake::None), 14);
}

/// "Loading it gives the same variables and the same tree."
#[test]
fn loading_gives_it_back() {
    for seed in 0..2_000 {
        let mut model = Model::new(Mistake::None);
        for event in generate::history(seed) {
            model.expect(&event);
            if model.hidden_tree().is_none() {
                continue;
            }
            let Some(Ok(standing)) = model.standing(RECORDS) else {
                continue;
            };
            let job = decode(&written(&standing)).expect("accepted");
            assert!(job.script.is_empty());
            let loaded = Standing::of(&job);
            assert_eq!(loaded.variables, standing.variables, "seed {seed}");
            assert_eq!(loaded.tree, standing.tree, "seed {seed}");
        }
    }
}

/// "The public parts of the written job depend only on the public parts of the state."
#[test]
fn public_parts() {
    for seed in 0..2_000 {
        let pair = generate::pair(seed);
        let job = |bytes: &[u8]| {
            let standing = Standing::of(&decode(bytes).expect("accepted"));
            decode(&written(&standing)).expect("accepted")
        };
        let (left, right) = (job(&pair.left.bytes), job(&pair.right.bytes));
        assert!(public::agree(&left, &right, pair.reader), "seed {seed}");
    }
}

/// What the histories of R-11 are: nodes are removed, what stands is written whole, and
/// the next job is what was written.
#[test]
fn moved_histories() {
    for seed in 0..2_000 {
        let mut model = Model::new(Mistake::None);
        let (mut removed, mut moved) = (false, 0);
        let mut last = None;
        for event in generate::moved(seed) {
            let expected = model.observe(&event, &mut |_, record| {
                let commands = [command::REMOVE_FIRST_CHILD, command::REMOVE_RIGHT_SIBLING];
                removed |= commands.contains(&record.command);
            });
            match (event.kind, expected) {
                (kind::WRITE, Expected::Written { answer, area }) => {
                    last = Some(area[..answer].to_vec());
                }
                (kind::JOB, Expected::Outcome(outcome)) => {
                    assert_eq!(outcome.ending.number(), 0, "seed {seed}");
                    moved += usize::from(last.as_ref() == Some(&event.body));
                }
                (kind::SCRIPT, Expected::Outcome(_)) => {}
                (kind::DUMP, Expected::Table { .. }) => show(&mut model),
                (kind, other) => panic!("seed {seed}: {kind} gives {other:?}"),
            }
        }
        assert!(removed && moved > 0, "seed {seed}");
    }
}

/// A program might show its nodes in preorder.
fn show(model: &mut Model) {
    let mut table = model.held.table.clone();
    if let Some(tree) = model.hidden_tree() {
        let places: Vec<usize> = (0..tree.count()).collect();
        store(tree, &places, &mut table);
    }
    model.learn(&table).expect("the tree that stands");
}

/// "an area of `budget` bytes (at most 24,000), each of which was 170 before"
#[test]
fn the_area_of_an_event() {
    let with = |budget| Event {
        kind: kind::WRITE,
        budget,
        ..Event::default()
    };
    assert_eq!(with(0).area(), []);
    assert_eq!(with(3).area(), [170; 3]);
    assert_eq!(with(24_000).area().len(), 24_000);
    assert_eq!(with(u32::MAX).area().len(), 24_000);
}
