//! a set of parties for each level. The parties of these tests are house (1),
//! alpina (2) and buses (4).

use super::*;
use reference::generate::{Case, Pair};
use reference::mistake::Mistake;
use reference::portal::{board, portal};
use reference::public::{self, Leak};
use reference::run::Line;
use reference::{apart, join, summary, within};

const HOUSE: Level = 1;
const ALPINA: Level = 2;
const BUSES: Level = 4;

/// Ending, index, steps, and each line with its readers.
fn whole(outcome: &Outcome) -> (u32, usize, u64, Vec<(i32, Level)>) {
    let pair = |line: &Line| (line.number, line.readers);
    let (ending, index, steps, _) = answer(outcome);
    (
        ending,
        index,
        steps,
        outcome.lines.iter().map(pair).collect(),
    )
}

/// A variable of nobody, one of alpina and one of buses; the trials' nodes.
fn two_parties(script: &[Record]) -> Job {
    let variables = [
        public_variable(0),
        variable_of(ALPINA, 5),
        variable_of(BUSES, 6),
    ];
    job(&variables, &trial_nodes(), script)
}

fn runs(script: &[Record]) -> (u32, usize, u64, Vec<(i32, Level)>) {
    whole(&run(&two_parties(script)))
}

#[test]
fn union_and_containment() {
    assert_eq!(join(ALPINA, BUSES), 6);
    assert_eq!(join(ALPINA, ALPINA), ALPINA);
    for level in 0..=255 {
        assert!(within(0, level) && within(level, level) && within(level, 255));
        assert_eq!(within(level, 0), level == 0);
    }
    assert!(within(ALPINA, 6) && !within(6, ALPINA));
    assert!(apart(ALPINA, BUSES) && apart(3, 6) && !apart(2, 6) && !apart(0, 4));
}

/// "Command 6 takes its reader set from the target, and L must be contained in it."
#[test]
fn lines_for_readers() {
    let both = sum(variable(1), variable(2));
    assert_eq!(
        runs(&[print_for(ALPINA, variable(1))]),
        (0, 0, 1, vec![(5, 2)])
    );
    assert_eq!(runs(&[print_for(6, both)]), (0, 0, 1, vec![(11, 6)]));
    assert_eq!(runs(&[print_for(255, both)]), (0, 0, 1, vec![(11, 255)]));
    assert_eq!(runs(&[print_for(BUSES, 7)]), (0, 0, 1, vec![(7, 4)]));
    for readers in [0, HOUSE, BUSES, 5] {
        let line = print_for(readers, variable(1));
        assert_eq!(runs(&[line]), (21, 0, 0, vec![]), "{readers}");
    }
    assert_eq!(runs(&[print_for(ALPINA, both)]).0, 21);
    // The context counts too.
    let under = |readers| [when(variable(2)), print_for(readers, variable(1)), end()];
    assert_eq!(runs(&under(6)), (0, 0, 3, vec![(5, 6)]));
    assert_eq!(runs(&under(ALPINA)), (21, 1, 1, vec![]));
}

/// Command 1: "not above means contained in".
#[test]
fn assignments_between_parties() {
    assert_eq!(runs(&[assign(2, variable(1))]).0, 21);
    assert_eq!(runs(&[assign(1, variable(2))]).0, 21);
    assert_eq!(runs(&[assign(1, variable(0))]).0, 0);
    assert_eq!(runs(&[assign(0, variable(1))]).0, 21);
}

/// "Command 16 joins the set in byte 5 to the cursor level, or 1 where it is zero."
#[test]
fn covers_join() {
    let seen =
        |covers: &[Record], readers| runs(&[covers, &[print_for(readers, value())]].concat()).0;
    assert_eq!((seen(&[cover()], 1), seen(&[cover()], 0)), (0, 21));
    let alpina = [cover_with(ALPINA)];
    assert_eq!(
        (seen(&alpina, 2), seen(&alpina, 3), seen(&alpina, 1)),
        (0, 0, 21)
    );
    let both = [cover_with(ALPINA), cover_with(BUSES)];
    assert_eq!(
        (seen(&both, 6), seen(&both, 2), seen(&both, 4)),
        (0, 21, 21)
    );
    let house_too = [cover_with(ALPINA), cover()];
    assert_eq!((seen(&house_too, 3), seen(&house_too, 2)), (0, 21));
    // "as 7": the context lies within the cursor level before the command.
    let under = |first| {
        [
            cover_with(first),
            when(variable(1)),
            cover_with(BUSES),
            end(),
        ]
    };
    assert_eq!(runs(&under(ALPINA)).0, 0);
    assert_eq!(runs(&under(BUSES)), (21, 2, 2, vec![]));
}

/// "Script byte 5 gives a set to join to a new node's content and byte 6 one for its
/// list; the old mark still joins 1."
#[test]
fn new_nodes_with_sets() {
    let levels = |record: Record| {
        let outcome = run(&two_parties(&[record]));
        last_tree(&outcome)[1]
    };
    let with = |sets, mark| levels(with_sets(sets, new_first_child(mark, 9)));
    assert_eq!(with([ALPINA, BUSES], 0), row(1, [0, 2, 4], 9));
    assert_eq!(with([ALPINA, BUSES], 1), row(1, [0, 3, 4], 9));
    assert_eq!(with([ALPINA, BUSES], 2), row(1, [0, 2, 5], 9));
    assert_eq!(with([ALPINA, BUSES], 3), row(1, [0, 3, 5], 9));
    assert_eq!(with([0, 0], 3), row(1, [0, 1, 1], 9));
    // L joins the content.
    let of_alpina = with_sets([BUSES, 0], new_first_child(1, variable(1)));
    assert_eq!(levels(of_alpina), row(1, [0, 7, 0], 5));
}

/// "C not above the list level of the parent, nor the existence of the old first
/// child", where neither of two sets contains the other.
#[test]
fn neighbours_apart() {
    let nodes = |list, existence| [root_node([0, 0, list], 10), node(0, [existence; 3], 3)];
    let insert = |list, existence| {
        let script = [when(variable(0)), new_first_child(0, 1), end()];
        let job = job(&[variable_of(ALPINA, 1)], &nodes(list, existence), &script);
        answer(&run(&job)).0
    };
    assert_eq!(insert(6, ALPINA), 0);
    assert_eq!(insert(6, 6), 0);
    assert_eq!(insert(6, BUSES), 21);
    assert_eq!(insert(6, 0), 21);
    assert_eq!(insert(BUSES, BUSES), 21);
    let remove = |existence| {
        let script = [when(variable(0)), remove_first_child(), end()];
        let job = job(&[variable_of(ALPINA, 1)], &nodes(7, existence), &script);
        answer(&run(&job)).0
    };
    assert_eq!((remove(ALPINA), remove(3), remove(BUSES)), (0, 0, 21));
}

/// "below in the tree rules means not containing"
#[test]
fn tree_rules() {
    let with = |nodes: &[Node]| refusal(&job(&[], nodes, &[]));
    let root = root_node([0, 0, 7], 0);
    assert_eq!(
        with(&[root, node(0, [2; 3], 0), node(0, [6; 3], 0)]),
        ACCEPTED
    );
    // A greater number that does not contain the smaller.
    assert_eq!(
        with(&[root, node(0, [2; 3], 0), node(0, [4; 3], 0)]),
        (6, 2)
    );
    assert_eq!(
        with(&[root, node(0, [1; 3], 0), node(1, [2; 3], 0)]),
        (6, 2)
    );
    assert_eq!(with(&[root, node(0, [2, 4, 2], 0)]), (6, 1));
    assert_eq!(with(&[root, node(0, [2, 2, 4], 0)]), (6, 1));
    assert_eq!(with(&[root_node([0, 0, 6], 0), node(0, [1; 3], 0)]), (6, 1));
    assert_eq!(with(&[root_node([2, 2, 2], 0)]), (6, 0));
    // The cleaner and the rearranger know 0 and 1 alone.
    let new = job(&[], &[root], &[]).encode();
    for program in [reference::clean::output, reference::arrange::output] {
        let said = program(&new, Mistake::None);
        assert_eq!(said.standard_error, "refused 6 at 0\n");
        assert_eq!(said.standard_output, []);
    }
}

/// "the cleaner of R-4 and the tool of R-10 keep their old rules": what R-12 reads is
/// spare to them.
#[test]
fn old_programs_take_sets_for_notes() {
    let sets = with_sets([2, 4], new_first_child(3, 1));
    let script = [cover_with(2), print_for(2, 1), sets];
    let plain = [cover(), print(1), new_first_child(3, 1)];
    let cleaned = reference::clean::output(&trial_job(1, &script).encode(), Mistake::None);
    assert_eq!(cleaned.standard_output, trial_job(1, &plain).encode());
    assert_eq!(
        cleaned.standard_error,
        "2 0 5 2\n2 1 1 2\n2 2 5 2\n2 2 6 4\n"
    );
    for (index, record) in script.into_iter().enumerate() {
        let mut noted = plain;
        noted[index] = record;
        let said = reference::arrange::output(&trial_job(1, &noted).encode(), Mistake::None);
        assert_eq!(said.standard_error, format!("refused 12 at {index}\n"));
    }
}

/// "A line keeps its reader set: the board runner prints it in decimal after the number
/// and a space, and the portal's lines take 5 bytes, the set last."
#[test]
fn lines_as_programs_give_them() {
    let script = [print_for(ALPINA, -1), print(7), print_for(255, 3)];
    let bytes = two_parties(&script).encode();
    assert_eq!(board(&bytes).output, "board\n-1 2\n7 0\n3 255\nend 3\n");
    let mut area = [0xee; 14];
    assert_eq!(portal(&bytes, 100, &mut area), (24 << 32) + 2);
    let wanted = [255, 255, 255, 255, 2, 7, 0, 0, 0, 0, 0xee, 0xee, 0xee, 0xee];
    assert_eq!(area, wanted);
    let mut area = [0xee; 4];
    assert_eq!(portal(&bytes, 100, &mut area), 24 << 32);
    assert_eq!(area, [0xee; 4]);
}

/// "A reader sees the lines whose set lies within their own".
#[test]
fn what_a_reader_sees() {
    let script = [
        print(1),
        print_for(ALPINA, 2),
        print_for(BUSES, 3),
        print_for(6, 4),
    ];
    let outcome = run(&two_parties(&script));
    let seen = |reader| -> Vec<i32> {
        outcome
            .lines_for(reader)
            .iter()
            .map(|line| line.number)
            .collect()
    };
    assert_eq!(seen(0), [1]);
    assert_eq!(seen(ALPINA), [1, 2]);
    assert_eq!(seen(BUSES), [1, 3]);
    assert_eq!(seen(HOUSE), [1]);
    assert_eq!(seen(6), [1, 2, 3, 4]);
}

/// "a level being public where it is contained in that set"
#[test]
fn agreement_for_a_reader() {
    let with = |alpina, buses| {
        let variables = [variable_of(ALPINA, alpina), variable_of(BUSES, buses)];
        job(&variables, &trial_nodes(), &[])
    };
    let (job, other) = (with(1, 1), with(1, 2));
    let agree = |reader| public::agree(&job, &other, reader);
    assert!(agree(0) && agree(ALPINA) && agree(3));
    assert!(!agree(BUSES) && !agree(6) && !agree(255));
}

/// "how many parties each node carries matters of, its three levels joined"
#[test]
fn the_summary() {
    let nodes = [
        root_node([0, 0, 255], 0),
        node(0, [2, 6, 2], 0),
        node(1, [2, 2, 2], 0),
        node(0, [3, 7, 11], 0),
    ];
    let said = |job: &Job| summary::output(&job.encode(), Mistake::None);
    let summed = said(&job(&[], &nodes, &[]));
    assert_eq!(summed.standard_output, b"8\n2\n1\n4\n");
    assert_eq!(summed.standard_error, "");
    let refused = said(&trial_job(0, &[nothing(), end()]));
    assert_eq!(refused.standard_output, []);
    assert_eq!(refused.standard_error, "refused 8 at 1\n");
}

/// The script over some nodes, with another number of alpina's on the two sides.
fn pair_of(reader: Level, nodes: &[Node], script: &[Record]) -> Pair {
    let case = |alpina| {
        let variables = [public_variable(0), variable_of(ALPINA, alpina)];
        Case {
            bytes: job(&variables, nodes, script).encode(),
            limits: Limits::ample(100),
        }
    };
    Pair {
        reader,
        left: case(0),
        right: case(1),
    }
}

/// A cover that replaced the cursor level would show buses where alpina's number led.
#[test]
fn the_leak_of_a_cover_that_replaces() {
    let script = [
        cover_with(ALPINA),
        when(variable(1)),
        first_child(),
        end(),
        cover_with(BUSES),
        print_for(BUSES, value()),
    ];
    let pair = pair_of(BUSES, &trial_nodes(), &script);
    assert!(pair.well_formed());
    assert_eq!(pair.leak(Mistake::None), None);
    assert_eq!(pair.leak(Mistake::CoverReplaces), Some(Leak::Lines));
}

/// A new node of alpina's to the left of one of buses' would move it.
#[test]
fn the_leak_of_a_neighbour_apart() {
    let script = [
        when(variable(1)),
        new_first_child(0, 1),
        end(),
        remove_first_child(),
        first_child(),
        print_for(BUSES, value()),
    ];
    let nodes = [
        root_node([0, 0, 6], 10),
        node(0, [4; 3], 3),
        node(0, [4; 3], 8),
        node(0, [4; 3], 9),
    ];
    let pair = pair_of(BUSES, &nodes, &script);
    assert!(pair.well_formed());
    assert_eq!(pair.leak(Mistake::None), None);
    assert_eq!(
        pair.leak(Mistake::NeighbourApartUntested),
        Some(Leak::Lines)
    );
    // Numbers are no sets: 2 is not above 4.
    assert_eq!(pair.leak(Mistake::SetsCompared), Some(Leak::Lines));
}
