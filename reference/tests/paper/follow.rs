//! follow-on scripts over a lent table and lent variables.

use super::*;
use reference::follow;
use reference::history::{store, Entry, Event, Held, RECORDS, ROOT};
use reference::job::{section, MAX_RECORDS, MAX_VARIABLES};
use reference::mistake::Mistake;
use reference::run::Standing;
use reference::table::{self, Fault, Lent, NO_LINK};
use reference::tree::Tree;

type Lending<'a> = (&'a [Lent], &'a [(Level, i32)]);

const VARIABLES: [(Level, i32); 2] = [(0, 0), (1, 7)];

fn follow_with(lent: Lending, body: &[u8], limits: &Limits) -> (Outcome, Option<Standing>) {
    let standing = follow::standing(lent.0, lent.1, Mistake::None);
    let limits = Limits {
        places: lent.0.len(),
        ..*limits
    };
    follow::follow(&standing, body, &limits, Mistake::None, &mut |_, _| {})
}

/// Ending and index of a section over what is lent, with a budget.
fn answer_of(lent: Lending, body: &[u8], budget: u64) -> (u32, usize) {
    let (outcome, after) = follow_with(lent, body, &Limits::ample(budget));
    assert_eq!(outcome.ending.turned_back(), after.is_none());
    (outcome.ending.number(), outcome.index)
}

/// Root 10 with children 3 and 4, of which 3 has a child 5, at places 0, 6, 2
/// and 4 of seven; a free place holds what would be a ring.
fn lent_table() -> Vec<Lent> {
    let leaf = |value| Tree {
        value,
        existence: 0,
        content: 0,
        list: 0,
        children: Vec::new(),
    };
    let mut three = leaf(3);
    three.children = vec![leaf(5)];
    let mut tree = leaf(10);
    tree.children = vec![three, leaf(4)];
    let ring = Lent {
        first: 1,
        right: 1,
        parent: 1,
        existence: 9,
        ..Lent::default()
    };
    let mut table = vec![ring; 7];
    store(&tree, &[0, 6, 2, 4], &mut table);
    assert_eq!(table::tree(&table, Mistake::None), Ok(tree));
    table
}

fn fault(change: impl Fn(&mut Vec<Lent>)) -> Fault {
    let mut table = lent_table();
    change(&mut table);
    let fault = table::tree(&table, Mistake::None).expect_err("a fault");
    // Before a 7, an 8, a 9 and a 10.
    let body = section(&[bare(20), end()]);
    assert_eq!(answer_of((&table, &VARIABLES), &body, 0), (11, 0));
    fault
}

#[test]
fn places_of_the_tree() {
    let table = lent_table();
    let script = [
        first_child(),
        print(value()),
        first_child(),
        print(value()),
        up(),
        right_sibling(),
        print(value()),
        root(),
        print(children()),
    ];
    let (outcome, after) =
        follow_with((&table, &VARIABLES), &section(&script), &Limits::ample(100));
    assert_eq!(answer(&outcome), (0, 0, 9, vec![3, 5, 4, 2]));
    assert_eq!(
        after.unwrap().tree,
        table::tree(&table, Mistake::None).unwrap()
    );
}

/// R-6 over a standing tree: "A stopped script leaves the tree as its stop left
/// it", and the next one begins with nothing remembered.
#[test]
fn an_if_that_comes_back() {
    let lent: Lending = (&lent_table(), &VARIABLES);
    let gone = [
        first_child(),
        first_child(),
        come_back(1),
        root(),
        remove_first_child(),
        new_first_child(0, 6),
        end(),
    ];
    let (outcome, after) = follow_with(lent, &section(&gone), &Limits::ample(100));
    assert_eq!(answer(&outcome), (22, 6, 6, vec![]));
    let plain = [0, 0, 0];
    let tree = [row(0, plain, 10), row(1, plain, 6), row(1, plain, 4)];
    let after = after.expect("run");
    assert_eq!(after.tree.preorder(), tree);
    let look = [
        come_back(variable(1)),
        first_child(),
        end(),
        print(children()),
    ];
    let (outcome, _) = follow::follow(
        &Ok(after),
        &section(&look),
        &Limits::ample(100),
        Mistake::None,
        &mut |_, _| {},
    );
    assert_eq!(answer(&outcome), (0, 0, 4, vec![2]));
}

/// what free places hold is nobody's business.
#[test]
fn links_of_free_places() {
    let mut table = lent_table();
    for place in [1, 3, 5] {
        (table[place].left, table[place].last) = (u32::MAX, 6);
    }
    let back = [last_child(), left_sibling(), print(value())];
    let (outcome, _) = follow_with((&table, &VARIABLES), &section(&back), &Limits::ample(100));
    assert_eq!(answer(&outcome), (0, 0, 3, vec![3]));
}

#[test]
fn an_empty_section_finishes() {
    let lent: Lending = (&[ROOT], &[]);
    assert_eq!(answer_of(lent, &[], 1), (0, 0));
}

#[test]
fn sections_that_are_11() {
    let lent: Lending = (&[ROOT], &[]);
    let full = section(&vec![nothing(); MAX_RECORDS]);
    assert_eq!(answer_of(lent, &full, 2_000), (0, 0));
    assert_eq!(
        answer_of(lent, &section(&vec![nothing(); MAX_RECORDS + 1]), 2_000),
        (11, 0)
    );
    for length in [1, 15, 17, 16_383] {
        assert_eq!(answer_of(lent, &full[..length], 2_000), (11, 0));
    }
}

#[test]
fn variables_that_are_11() {
    let table = [ROOT];
    let many = vec![(1, 5); MAX_VARIABLES + 1];
    assert_eq!(answer_of((&table, &many[1..]), &[], 1), (0, 0));
    assert_eq!(answer_of((&table, &many), &[], 1), (11, 0));
    // Every byte is a level.
    assert_eq!(answer_of((&table, &[(0, 0), (255, 0)]), &[], 1), (0, 0));
}

#[test]
fn tables_that_are_11() {
    assert_eq!(fault(|table| table.clear()), Fault::NoPlaces);
    assert_eq!(fault(|table| table[0] = Lent::default()), Fault::RootParent);
    assert_eq!(fault(|table| table[0].parent = 0), Fault::RootParent);
    assert_eq!(fault(|table| table[0].right = 4), Fault::RootSibling);
    assert_eq!(fault(|table| table[2].first = 6), Fault::Cycle);
    assert_eq!(fault(|table| table[2].first = 0), Fault::Cycle);
    assert_eq!(fault(|table| table[4].right = 6), Fault::Shared);
    assert_eq!(fault(|table| table[4].right = 4), Fault::Shared);
    assert_eq!(fault(|table| table[4].first = 2), Fault::Shared);
    for link in [7, 512, 65_534, 65_536, 65_536 + 2, u32::MAX] {
        assert_eq!(fault(|table| table[4].right = link), Fault::Link);
        assert_eq!(fault(|table| table[4].first = link), Fault::Link);
    }
    for parent in [1, 4, 7, NO_LINK, 65_536, u32::MAX] {
        assert_eq!(fault(|table| table[2].parent = parent), Fault::Parent);
    }
    for children in [0, 1, 3, 65_538] {
        assert_eq!(fault(|table| table[0].children = children), Fault::Count);
    }
    // the left sibling of 4 is 3, and no other has one; the last child of the root is 4,
    // that of 3 is 5, and no other has one.
    for left in [0, 1, 2, 4, 7, NO_LINK, 65_536, 65_536 + 6, u32::MAX] {
        assert_eq!(fault(|table| table[4].left = left), Fault::Left);
    }
    for left in [0, 2, 65_534, u32::MAX] {
        for place in [0, 2, 6] {
            assert_eq!(fault(|table| table[place].left = left), Fault::Left);
        }
    }
    for last in [0, 1, 2, 6, 7, NO_LINK, 65_536 + 4] {
        assert_eq!(fault(|table| table[0].last = last), Fault::Last);
    }
    for last in [0, 4, 5, 6, 65_534, 65_536] {
        for place in [2, 4, 6] {
            assert_eq!(fault(|table| table[place].last = last), Fault::Last);
        }
    }
}

/// "the root has existence 0; content and list are not below existence; a
/// child's existence is not below its parent's existence, not above its
/// parent's list level, and not below that of the sibling to its left."
#[test]
fn tree_rules_that_are_11() {
    let house = |record: &mut Lent| (record.existence, record.content, record.list) = (1, 1, 1);
    let rule = |change: &dyn Fn(&mut Vec<Lent>)| {
        assert_eq!(fault(change), Fault::Rule);
    };
    rule(&|table| house(&mut table[0]));
    rule(&|table| (table[0].list, table[4].existence, table[4].list) = (1, 1, 1));
    rule(&|table| (table[0].list, table[4].existence, table[4].content) = (1, 1, 1));
    rule(&|table| house(&mut table[4]));
    rule(&|table| {
        table[0].list = 1;
        house(&mut table[6]);
    });
    rule(&|table| {
        table[0].list = 1;
        house(&mut table[6]);
        house(&mut table[2]);
    });
    let mut table = lent_table();
    table[0].list = 1;
    house(&mut table[4]);
    assert_eq!(answer_of((&table, &VARIABLES), &[], 1), (0, 0));
}

/// A subtree that is cut off is free, if the count says so.
#[test]
fn what_is_not_reached_is_free() {
    let mut table = lent_table();
    table[6].first = NO_LINK;
    table[6].last = NO_LINK;
    table[6].children = 0;
    let (outcome, after) = follow_with(
        (&table, &VARIABLES),
        &section(&[new_first_child(0, 1); 5]),
        &Limits::ample(100),
    );
    // Three nodes stand in seven places.
    assert_eq!(answer(&outcome), (23, 4, 4, vec![]));
    assert_eq!(after.unwrap().tree.count(), 7);
}

/// "checked first, before 7, 8 and 9; after them 10"; 12 (R-4) "after 7 and before 8"
#[test]
fn order_of_the_numbers() {
    let mut table = vec![ROOT; 513];
    let wrong = section(&[end(), bare(20)]);
    let spare = section(&[
        end(),
        Record {
            target: 1,
            ..root()
        },
    ]);
    let blocks = section(&[end()]);
    let one = |table: &[Lent], body: &[u8], budget| answer_of((table, &VARIABLES), body, budget);
    assert_eq!(one(&table, &wrong, 0), (7, 1));
    assert_eq!(one(&table, &spare, 0), (12, 1));
    assert_eq!(one(&table, &blocks, 0), (8, 0));
    assert_eq!(one(&table, &[], 0), (9, 0));
    assert_eq!(one(&table, &[], 1_000_001), (9, 0));
    assert_eq!(one(&table, &[], 1), (10, 0));
    assert_eq!(one(&table[..512], &[], 1), (0, 0));
    table[0].children = 1;
    assert_eq!(one(&table, &wrong, 0), (11, 0));
    // The lent variables decide which index is out of range.
    let third = section(&[assign(2, 1)]);
    assert_eq!(one(&[ROOT], &third, 1), (7, 0));
}

/// More than 512 live nodes are 11; 512 of them in 513 records are 10.
#[test]
fn one_node_more() {
    let chain = |places: &[usize]| {
        let mut table = vec![ROOT; RECORDS];
        for pair in places.windows(2) {
            table[pair[0]].first = pair[1] as u32;
            table[pair[0]].last = pair[1] as u32;
            table[pair[0]].children = 1;
            table[pair[1]].parent = pair[0] as u32;
        }
        table
    };
    let all: Vec<usize> = (0..RECORDS).collect();
    assert_eq!(answer_of((&chain(&all), &[]), &[], 1), (11, 0));
    assert_eq!(answer_of((&chain(&all[..512]), &[]), &[], 1), (10, 0));
    assert_eq!(answer_of((&chain(&all[..512])[..512], &[]), &[], 1), (0, 0));
    let last = [&[0][..], &all[2..]].concat();
    assert_eq!(answer_of((&chain(&last), &[]), &[], 1), (10, 0));
    assert_eq!(answer_of((&chain(&last)[..512], &[]), &[], 1), (11, 0));
}

/// "Each starts at the root with cursor level 0. A stopped script leaves the
/// tree as its stop left it."
#[test]
fn scripts_one_after_the_other() {
    let job = trial_job(1, &[first_child(), cover()]);
    let (outcome, after) = run::start(
        &job.encode(),
        &Limits::ample(100),
        Mistake::None,
        &mut |_, _| {},
    );
    assert_eq!(answer(&outcome), (0, 0, 2, vec![]));
    let standing = Ok(after.unwrap());
    let limits = Limits::ample(100);
    let next = |standing: &Result<Standing, Fault>, script: &[Record]| {
        follow::follow(
            standing,
            &section(script),
            &limits,
            Mistake::None,
            &mut |_, _| {},
        )
    };
    let (outcome, after) = next(&standing, &[print(value()), set_value(11), up(), print(1)]);
    assert_eq!(answer(&outcome), (22, 2, 2, vec![10]));
    let (outcome, _) = next(&Ok(after.unwrap()), &[print(value()), print(children())]);
    assert_eq!(answer(&outcome), (0, 0, 2, vec![11, 1]));
}

/// The events' bytes stand where the format says.
#[test]
fn bytes_of_an_event() {
    let event = Event {
        kind: 1,
        budget: 0x0a0b_0c0d,
        places: 0x0203,
        lines: 0x0405,
        body: vec![7; 2],
    };
    let mut bytes = Vec::new();
    event.write(&mut bytes);
    let header = [1, 0, 0, 0, 2, 0, 0, 0, 0x0d, 0x0c, 0x0b, 0x0a, 3, 2, 5, 4];
    assert_eq!(bytes[..16], header);
    assert_eq!(bytes[16..], [7, 7]);
    let entry = Entry::new(3, 0x0102, 0x0a0b_0c0d);
    assert_eq!(entry.bytes(), [3, 0, 2, 1, 0x0d, 0x0c, 0x0b, 0x0a]);
}

/// "An index that is not there is passed over".
#[test]
fn pokes() {
    let mut held = Held::new();
    for place in [0, 512] {
        for entry in Entry::of_record(place, &ROOT) {
            held.poke(&entry);
        }
    }
    assert_eq!((held.table[0], held.table[512]), (ROOT, ROOT));
    let before = held.clone();
    for entry in [(0, 513), (7, 65_535), (8, 65), (9, 65), (11, 0), (15, 0)] {
        held.poke(&Entry::new(entry.0, entry.1, 1));
    }
    assert_eq!(held, before);
    held.poke(&Entry::new(10, 0, 2));
    held.poke(&Entry::new(8, 1, 1));
    held.poke(&Entry::new(9, 1, u32::MAX));
    assert_eq!(held.variables(), [(0, 0), (1, -1)]);
}
