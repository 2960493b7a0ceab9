//! Every row of the endings table that has an example, with its other reasons.

use super::*;
use reference::job::{Variable, NO_PARENT};
use reference::mistake::Mistake;
use reference::portal::{board, portal};
use reference::{arrange, clean};

fn bytes_of(hexadecimal: &str) -> Vec<u8> {
    let digits: Vec<char> = hexadecimal.chars().filter(|c| !c.is_whitespace()).collect();
    let pair = |pair: &[char]| u8::from_str_radix(&String::from_iter(pair), 16).unwrap();
    digits.chunks(2).map(pair).collect()
}

fn example() -> Vec<u8> {
    bytes_of("ffff000000000000 0a000000 0600000200000000 0000000000000000 000000000c001c00")
}

#[test]
fn the_example_in_hexadecimal() {
    let bytes = example();
    assert_eq!(bytes.len(), 36);
    let same = job(&[], &[root_node([0, 0, 0], 10)], &[print(value())]);
    assert_eq!(same.encode(), bytes);
    let written = board(&bytes);
    assert_eq!(written.output, "board\n10 0\nend 1\n");
    assert_eq!(written.error, "finished steps 1\n");
    let mut area = [0xee; 8];
    assert_eq!(portal(&bytes, 100, &mut area), 1);
    assert_eq!(area, [10, 0, 0, 0, 0, 0xee, 0xee, 0xee]);
}

#[test]
fn ending_1_size() {
    assert_eq!(refusal_of(&[0; 7]), (1, 0));
    assert_eq!(refusal_of(&[]), (1, 0));
    assert_eq!(refusal_of(&[0; 23_049]), (1, 0));
}

#[test]
fn ending_2_offsets() {
    let with_offset = |place: usize, offset: u16| {
        let mut bytes = example();
        bytes[28 + 2 * place..30 + 2 * place].copy_from_slice(&offset.to_le_bytes());
        bytes
    };
    assert_eq!(refusal_of(&with_offset(3, 28)), ACCEPTED);
    assert_eq!(refusal_of(&with_offset(3, 27)), (2, 0));
    assert_eq!(refusal_of(&with_offset(3, 29)), (2, 0));
    assert_eq!(refusal_of(&with_offset(0, 1)), (2, 0));
    assert_eq!(refusal_of(&with_offset(1, 13)), (2, 0));
    assert_eq!(refusal_of(&with_offset(2, 11)), (2, 0));
    assert_eq!(refusal_of(&with_offset(2, 29)), (2, 0));
    assert_eq!(refusal_of(&with_offset(2, 0xffff)), (2, 0));
}

#[test]
fn ending_2_part_records() {
    // 4 bytes of variables, then a node short by as many.
    assert_eq!(
        refusal_of(&bytes_of("00000000 0000000000000000 00000400 0c000c00")),
        (2, 0)
    );
    // A node of 4 bytes.
    assert_eq!(refusal_of(&bytes_of("ffff0000 0000000004000400")), (2, 0));
    // A script of 12 bytes.
    let script = "ffff0000000000000a000000 000000000000000000000000 000000000c001800";
    assert_eq!(refusal_of(&bytes_of(script)), (2, 0));
}

#[test]
fn ending_3_counts() {
    assert_eq!(refusal_of(&[0; 8]), (3, 0));
}

#[test]
fn ending_4_variable_level() {
    let variable = |level: u8| Variable {
        level,
        ..Variable::default()
    };
    let with = |level: u8| job(&[variable(1), variable(level)], &trial_nodes(), &[]);
    // "outside those two 4 is never given again"
    for level in 0..=255 {
        assert_eq!(refusal(&with(level)), ACCEPTED);
    }
    let (cleaner, rearranger) = (clean::output, arrange::output);
    for program in [cleaner, rearranger] {
        let error = |level: u8| program(&with(level).encode(), Mistake::None).standard_error;
        assert_eq!(error(1), "");
        assert_eq!(error(2), "refused 4 at 1\n");
        assert_eq!(error(255), "refused 4 at 1\n");
    }
}

#[test]
fn ending_5_parents() {
    let with = |root_parent: u16, parent: u16| {
        let nodes = [
            node(root_parent, [0, 0, 0], 0),
            node(parent, [0, 0, 0], 0),
            node(0, [0, 0, 0], 0),
        ];
        refusal(&job(&[], &nodes, &[]))
    };
    assert_eq!(with(NO_PARENT, 0), ACCEPTED);
    assert_eq!(with(NO_PARENT, 1), (5, 1));
    assert_eq!(with(NO_PARENT, 2), (5, 1));
    assert_eq!(with(NO_PARENT, NO_PARENT), (5, 1));
    assert_eq!(with(0, 0), (5, 0));
    assert_eq!(with(65_534, 0), (5, 0));
}

#[test]
fn ending_6_levels_and_tree_rules() {
    let with = |nodes: &[Node]| refusal(&job(&[], nodes, &[]));
    assert_eq!(with(&[root_node([1, 1, 1], 0)]), (6, 0));
    for (levels, expected) in [
        ([2, 2, 2], (6, 1)),
        // A level above 1 is a set like any other.
        ([0, 2, 0], ACCEPTED),
        ([0, 0, 2], ACCEPTED),
        ([1, 3, 255], ACCEPTED),
        ([1, 2, 1], (6, 1)),
        ([1, 1, 2], (6, 1)),
        ([3, 3, 3], (6, 1)),
        ([1, 0, 1], (6, 1)),
        ([1, 1, 0], (6, 1)),
        ([1, 1, 1], ACCEPTED),
        ([0, 0, 0], ACCEPTED),
        ([0, 1, 0], ACCEPTED),
        ([0, 0, 1], ACCEPTED),
        ([0, 1, 1], ACCEPTED),
    ] {
        assert_eq!(
            with(&[root_node([0, 0, 1], 0), node(0, levels, 0)]),
            expected,
            "{levels:?}"
        );
    }
    // Existence above the parent's list level.
    assert_eq!(
        with(&[root_node([0, 1, 0], 0), node(0, [1, 1, 1], 0)]),
        (6, 1)
    );
    // Existence below the parent's existence.
    let house = [
        root_node([0, 0, 1], 0),
        node(0, [1, 1, 1], 0),
        node(1, [0, 0, 0], 0),
    ];
    assert_eq!(with(&house), (6, 2));
}

#[test]
fn ending_6_left_is_the_nearest_earlier_record_with_the_same_parent() {
    let with = |nodes: &[Node]| refusal(&job(&[], nodes, &[]));
    let (root, public, house) = (root_node([0, 0, 1], 0), [0, 0, 1], [1, 1, 1]);
    assert_eq!(with(&[root, node(0, house, 0), node(0, public, 0)]), (6, 2));
    // Another parent's record in between.
    let apart = [
        root,
        node(0, house, 0),
        node(1, house, 0),
        node(0, public, 0),
    ];
    assert_eq!(with(&apart), (6, 3));
    // A house node of another parent just before.
    let other = [
        root,
        node(0, public, 0),
        node(1, house, 0),
        node(0, public, 0),
    ];
    assert_eq!(with(&other), ACCEPTED);
    // Not the leftmost sibling but the nearest one.
    let nearest = [
        root,
        node(0, public, 0),
        node(0, house, 0),
        node(0, public, 0),
    ];
    assert_eq!(with(&nearest), (6, 3));
}

#[test]
fn ending_7_commands_and_fields() {
    let with = |record: Record| refusal(&trial_job(0, &[nothing(), record]));
    assert_eq!(with(bare(20)), (7, 1));
    assert_eq!(with(bare(255)), (7, 1));
    assert_eq!(with(cover()), ACCEPTED);
    assert_eq!(with(assign(1, 0)), ACCEPTED);
    assert_eq!(with(assign(2, 0)), (7, 1));
    assert_eq!(with(print(variable(0))), ACCEPTED);
    assert_eq!(with(print(variable(2))), (7, 1));
    assert_eq!(with(print(sum(constant(0), variable(2)))), (7, 1));
    assert_eq!(with(new_first_child(3, 0)), ACCEPTED);
    assert_eq!(with(new_first_child(4, 0)), (7, 1));
    assert_eq!(with(new_right_sibling(4, 0)), (7, 1));
    assert_eq!(
        with(Record {
            operator: 5,
            ..print(0)
        }),
        ACCEPTED
    );
    assert_eq!(
        with(Record {
            operator: 6,
            ..print(0)
        }),
        (7, 1)
    );
    assert_eq!(
        with(Record {
            left_kind: 3,
            ..print(0)
        }),
        ACCEPTED
    );
    assert_eq!(
        with(Record {
            left_kind: 4,
            ..print(0)
        }),
        (7, 1)
    );
    assert_eq!(
        with(Record {
            operator: 1,
            right_kind: 3,
            ..print(0)
        }),
        ACCEPTED
    );
    assert_eq!(
        with(Record {
            operator: 1,
            right_kind: 4,
            ..print(0)
        }),
        (7, 1)
    );
    assert_eq!(
        with(Record {
            left_kind: 1,
            left: u32::MAX,
            ..print(0)
        }),
        (7, 1)
    );
    for record in [when(4), repeat(4), set_value(4)] {
        assert_eq!(
            with(Record {
                left_kind: 4,
                ..record
            }),
            (7, 1)
        );
    }
}

#[test]
fn ending_8_blocks() {
    let with = |script: &[Record]| refusal(&trial_job(0, script));
    assert_eq!(with(&[end()]), (8, 0));
    assert_eq!(with(&[nothing(), otherwise()]), (8, 1));
    assert_eq!(with(&[repeat(0), otherwise(), end()]), (8, 1));
    assert_eq!(
        with(&[when(0), repeat(0), otherwise(), end(), end()]),
        (8, 2)
    );
    assert_eq!(with(&[when(0), otherwise(), otherwise(), end()]), (8, 2));
    assert_eq!(with(&[when(0), end(), end()]), (8, 2));
    assert_eq!(with(&[when(0), end(), otherwise()]), (8, 2));
    assert_eq!(with(&[when(0), nothing()]), (8, 2));
    assert_eq!(with(&[when(0), otherwise(), when(0), end()]), (8, 4));
    assert_eq!(
        with(&[when(0), otherwise(), repeat(0), end(), end()]),
        ACCEPTED
    );
}

#[test]
fn ending_9_budget() {
    for (budget, expected) in [(0, 9), (1, 0), (1_000_000, 0), (1_000_001, 9)] {
        let outcome = run_with(&trial_job(0, &[nothing()]), &Limits::ample(budget));
        assert_eq!(
            (outcome.ending.number(), outcome.index),
            (expected, 0),
            "budget {budget}"
        );
    }
}

#[test]
fn ending_10_buffers() {
    let job = trial_job(0, &[nothing()]);
    let ending = |limits: Limits| run_with(&job, &limits).ending.number();
    let ample = Limits::ample(100);
    for (places, expected) in [(0, 10), (1, 10), (2, 0), (512, 0), (513, 10)] {
        assert_eq!(
            ending(Limits { places, ..ample }),
            expected,
            "{places} places"
        );
    }
    for (variables, expected) in [(0, 10), (1, 10), (2, 0), (65, 0)] {
        assert_eq!(
            ending(Limits { variables, ..ample }),
            expected,
            "{variables} variables"
        );
    }
}

#[test]
fn ending_21_rules() {
    let script = [assign(0, variable(1))];
    assert_eq!(answer(&run(&trial_job(7, &script))), (21, 0, 0, vec![]));
    // Each rule, in a house context with a public cursor at the child.
    for record in [
        assign(0, 1),
        print(1),
        root(),
        up(),
        new_first_child(0, 1),
        new_right_sibling(0, 1),
        set_value(1),
        cover(),
    ] {
        let script = [first_child(), when(variable(1)), record, end()];
        assert_eq!(
            answer(&run(&trial_job(1, &script))),
            (21, 2, 2, vec![]),
            "{record:?}"
        );
    }
}

#[test]
fn ending_21_under_cover() {
    // E has the cursor level where it reads value or children, whatever the
    // node's own levels are; 11 to 15 have it in any case.
    for record in [
        assign(0, value()),
        assign(0, children()),
        assign(0, sum(constant(1), value())),
        print(value()),
        print(mean(children(), variable(0))),
        set_value(1),
        new_first_child(0, 1),
        remove_first_child(),
    ] {
        let script = [cover(), record];
        assert_eq!(
            answer(&run(&trial_job(1, &script))),
            (21, 1, 1, vec![]),
            "{record:?}"
        );
    }
    assert_eq!(answer(&run(&trial_job(1, &[cover(), assign(1, 1)]))).0, 0);
}

#[test]
fn ending_21_old_neighbours() {
    // The list level allows it, the old first child or right neighbour does not.
    let nodes = [
        root_node([0, 0, 1], 0),
        node(0, [0, 0, 1], 1),
        node(0, [0, 0, 1], 2),
    ];
    let first = job(&[], &nodes, &[cover(), new_first_child(0, 9)]);
    assert_eq!(answer(&run(&first)), (21, 1, 1, vec![]));
    let right = job(
        &[],
        &nodes,
        &[first_child(), cover(), new_right_sibling(0, 9)],
    );
    assert_eq!(answer(&run(&right)), (21, 2, 2, vec![]));
    // After the last sibling there is no neighbour.
    let script = [
        first_child(),
        right_sibling(),
        cover(),
        new_right_sibling(0, 9),
    ];
    let outcome = run(&job(&[], &nodes, &script));
    assert_eq!(answer(&outcome), (0, 0, 4, vec![]));
    assert_eq!(last_tree(&outcome)[3], row(1, [1, 1, 1], 9));
    // A house neighbour on the right.
    let house = [nodes[0], nodes[1], node(0, [1, 1, 1], 2)];
    let script = [first_child(), cover(), new_right_sibling(0, 9)];
    assert_eq!(answer(&run(&job(&[], &house, &script))), (0, 0, 3, vec![]));
}

#[test]
fn ending_22_missing_nodes() {
    for record in [
        up(),
        right_sibling(),
        remove_right_sibling(),
        new_right_sibling(0, 1),
    ] {
        let outcome = run(&trial_job(1, &[nothing(), record]));
        assert_eq!(answer(&outcome), (22, 1, 1, vec![]), "{record:?}");
    }
    for record in [
        first_child(),
        right_sibling(),
        remove_first_child(),
        remove_right_sibling(),
    ] {
        let outcome = run(&trial_job(1, &[first_child(), record]));
        assert_eq!(answer(&outcome), (22, 1, 1, vec![]), "{record:?}");
    }
}

#[test]
fn ending_23_table_full() {
    let limits = Limits {
        places: 2,
        ..Limits::ample(100)
    };
    let job = trial_job(1, &[new_first_child(0, 1)]);
    assert_eq!(answer(&run_with(&job, &limits)), (23, 0, 0, vec![]));
    let job = trial_job(1, &[first_child(), new_right_sibling(0, 1)]);
    assert_eq!(answer(&run_with(&job, &limits)), (23, 1, 1, vec![]));
    // 21 comes before 23.
    let job = trial_job(1, &[cover(), new_first_child(0, 1)]);
    assert_eq!(answer(&run_with(&job, &limits)), (21, 1, 1, vec![]));
}

#[test]
fn ending_24_lines_full() {
    let job = trial_job(1, &[print(1), print(2), print(3)]);
    let with = |lines| {
        answer(&run_with(
            &job,
            &Limits {
                lines,
                ..Limits::ample(100)
            },
        ))
    };
    assert_eq!(with(0), (24, 0, 0, vec![]));
    assert_eq!(with(2), (24, 2, 2, vec![1, 2]));
    assert_eq!(with(3), (0, 0, 3, vec![1, 2, 3]));
    // 21 comes before 24.
    let job = trial_job(1, &[print(variable(1))]);
    let full = Limits {
        lines: 0,
        ..Limits::ample(100)
    };
    assert_eq!(answer(&run_with(&job, &full)), (21, 0, 0, vec![]));
}

#[test]
fn ending_25_budget_used() {
    let job = trial_job(1, &[repeat(1), end()]);
    for budget in [1, 2, 3, 10] {
        let expected = (25, (budget % 2) as usize, budget, vec![]);
        assert_eq!(answer(&run_with(&job, &Limits::ample(budget))), expected);
    }
}

/// "a sum or difference that leaves the range ends the command, for every
/// command that reads an expression"
#[test]
fn ending_27_out_of_range() {
    let (most, least, one) = (constant(i32::MAX), constant(i32::MIN), constant(1));
    for result in [
        sum(most, one),
        sum(one, most),
        sum(least, constant(-1)),
        sum(least, least),
        difference(least, one),
        difference(least, most),
        difference(most, constant(-1)),
        difference(constant(0), least),
    ] {
        for script in reading(result) {
            let outcome = run(&trial_job(1, &script));
            let stop = (27, 1, 1, vec![]);
            assert_eq!(answer(&outcome), stop, "{result:?}\n{script:?}");
            // Nothing has changed.
            assert_eq!(
                last_tree(&outcome),
                [row(0, [0, 0, 0], 10), row(1, [0, 0, 0], 3)]
            );
            assert_eq!(last_values(&outcome), [0, 1]);
        }
    }
    // "The mean is exact and never does", nor do the others.
    for result in [mean(most, most), equal(most, least), less(least, most)] {
        for script in reading(result) {
            let outcome = run_with(&trial_job(1, &script), &Limits::ample(3));
            assert_ne!(outcome.ending.number(), 27, "{result:?}\n{script:?}");
        }
    }
}

/// A step to the first child, and then each command that reads an expression.
fn reading(result: Expression) -> Vec<Vec<Record>> {
    let commands = [
        assign(0, result),
        print(result),
        new_first_child(0, result),
        new_right_sibling(0, result),
        set_value(result),
    ];
    let blocks = [when(result), repeat(result)];
    let alone = commands.map(|record| vec![first_child(), record]);
    let with_end = blocks.map(|opening| vec![first_child(), opening, end()]);
    alone.into_iter().chain(with_end).collect()
}

/// "22, 21, 27, then 23 or 24".
#[test]
fn order_of_27() {
    let over = sum(constant(i32::MAX), constant(1));
    let full = Limits {
        places: 2,
        lines: 0,
        ..Limits::ample(100)
    };
    let ends = |script: &[Record]| answer(&run_with(&trial_job(1, script), &full)).0;
    // 22, then 21.
    assert_eq!(ends(&[new_right_sibling(0, over)]), 22);
    for record in [new_first_child(0, over), set_value(over)] {
        assert_eq!(ends(&[cover(), record]), 21, "{record:?}");
    }
    let house_over = sum(constant(i32::MAX), variable(1));
    for record in [assign(0, house_over), print(house_over)] {
        assert_eq!(ends(&[record]), 21, "{record:?}");
    }
    assert_eq!(ends(&[assign(1, house_over)]), 27);
    // Then 23 or 24.
    assert_eq!(ends(&[new_first_child(0, over)]), 27);
    assert_eq!(ends(&[new_first_child(0, 1)]), 23);
    assert_eq!(ends(&[first_child(), new_right_sibling(0, over)]), 27);
    assert_eq!(ends(&[first_child(), new_right_sibling(0, 1)]), 23);
    assert_eq!(ends(&[print(over)]), 27);
    assert_eq!(ends(&[print(1)]), 24);
    // 25 comes before the record is looked at.
    let spent = run_with(&trial_job(1, &[nothing(), print(over)]), &Limits::ample(1));
    assert_eq!(answer(&spent), (25, 1, 1, vec![]));
}
