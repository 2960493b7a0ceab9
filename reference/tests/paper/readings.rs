//! The readings of the text, by their numbers, where a run can show them.

use super::*;
use reference::generate;
use reference::job::{decode_first, NO_PARENT};
use reference::mistake::Mistake;
use reference::portal::{board, portal};
use reference::public;
use reference::PUBLIC;

/// The job is turned back for a spare byte of its record 0, and by the rules
/// before R-4 it is accepted.
fn assert_spare(record: Record) {
    let bytes = trial_job(1, &[record]).encode();
    assert_eq!(refusal_of(&bytes), (12, 0), "{record:?}");
    assert!(decode_first(&bytes, Mistake::None).is_ok(), "{record:?}");
}

#[test]
fn reading_1_unread_sides_of_an_expression() {
    let unread = Record {
        right_kind: 9,
        right: 77,
        ..assign(0, 5)
    };
    assert_spare(unread);
    // A house variable on the right side is no part of E, and spare.
    assert_spare(Record {
        right_kind: 1,
        right: 1,
        ..assign(0, 5)
    });
    // Kinds 2 and 3: the number is not read.
    for operand in [value(), children()] {
        assert_spare(Record {
            left: u32::MAX,
            ..print(operand)
        });
        assert_spare(Record {
            right: 1,
            ..print(sum(constant(1), operand))
        });
    }
    // Kind 0: every number is in range.
    let outcome = run(&trial_job(
        1,
        &[Record {
            left: u32::MAX,
            ..print(0)
        }],
    ));
    assert_eq!(outcome.numbers(), [-1]);
    let plain = |record: Record| trial_job(1, &[record]);
    assert!(public::same_script(&plain(unread), &plain(assign(0, 5))));
    assert!(!public::same_script(
        &plain(assign(0, 4)),
        &plain(assign(0, 5))
    ));
}

#[test]
fn reading_2_commands_without_an_expression() {
    let noise = Record {
        command: 0,
        target: 200,
        operator: 99,
        left_kind: 88,
        right_kind: 77,
        sets: [1, 2],
        spare: 3,
        left: 9,
        right: 9,
    };
    for command in [0, 3, 5, 7, 8, 9, 10, 13, 14, 16] {
        let script = match command {
            3 => vec![when(0), Record { command, ..noise }, end()],
            5 => vec![when(0), Record { command, ..noise }],
            _ => vec![Record { command, ..noise }],
        };
        let bytes = trial_job(1, &script).encode();
        let index = (command == 3 || command == 5) as usize;
        assert_eq!(refusal_of(&bytes), (12, index), "command {command}");
        assert!(decode_first(&bytes, Mistake::None).is_ok());
    }
    // The target is not read by 2, 4 and 15; before R-12 not by 6.
    for record in [when(0), repeat(0), set_value(0)] {
        let noted = Record {
            target: 255,
            ..record
        };
        let script = match record.command {
            2 | 4 => vec![noted, end()],
            _ => vec![noted],
        };
        let bytes = trial_job(1, &script).encode();
        assert_eq!(refusal_of(&bytes), (12, 0));
        assert!(decode_first(&bytes, Mistake::None).is_ok());
    }
    let no_variables = job(&[], &trial_nodes(), &[assign(0, 0)]);
    assert_eq!(refusal(&no_variables), (7, 0));
}

#[test]
fn reading_3_each_check_goes_over_its_whole_section() {
    let mut nodes = vec![root_node([0, 0, 0], 0); 1];
    nodes.resize(10, node(0, [0, 0, 0], 0));
    nodes[1].existence = 1;
    assert_eq!(refusal(&job(&[], &nodes, &[])), (6, 1));
    nodes[9].parent = 9;
    assert_eq!(refusal(&job(&[], &nodes, &[])), (5, 9));
    let late = [end(), nothing(), bare(20)];
    assert_eq!(refusal(&trial_job(0, &late)), (7, 2));
    assert_eq!(refusal(&trial_job(0, &late[..2])), (8, 0));
    // Sections in the order of the numbers.
    let mut all = trial_job(0, &late);
    all.nodes[0].existence = 1;
    assert_eq!(refusal(&all), (6, 0));
    all.nodes[1].parent = NO_PARENT;
    assert_eq!(refusal(&all), (5, 1));
}

#[test]
fn reading_4_the_later_of_two_records_is_faulty() {
    // The parent's list level forbids the child: the child is named.
    let nodes = [
        root_node([0, 0, 0], 0),
        node(0, [0, 0, 0], 0),
        node(1, [1, 1, 1], 0),
    ];
    assert_eq!(refusal(&job(&[], &nodes, &[])), (6, 2));
}

#[test]
fn reading_5_a_part_record_comes_before_a_count() {
    // No node at all, and 4 bytes of script.
    let bytes = [0, 0, 0, 0, 0, 0, 0, 0, 0, 0, 4, 0];
    assert_eq!(refusal_of(&bytes), (2, 0));
    assert_eq!(refusal_of(&[0; 8]), (3, 0));
}

#[test]
fn reading_6_blocks_are_in_the_text() {
    // Unreachable code counts.
    let script = [when(0), otherwise(), otherwise(), end()];
    assert_eq!(refusal(&trial_job(0, &script)), (8, 2));
    // Unclosed only if no earlier record is faulty.
    assert_eq!(refusal(&trial_job(0, &[end(), when(0)])), (8, 0));
    assert_eq!(refusal(&trial_job(0, &[when(0), when(0), end()])), (8, 3));
}

#[test]
fn reading_7_budget_and_buffers_come_last() {
    let none = Limits {
        budget: 0,
        places: 0,
        variables: 0,
        lines: 0,
    };
    let with = |job: &Job, limits: &Limits| run_with(job, limits).ending.number();
    let job = trial_job(0, &[]);
    assert_eq!(with(&trial_job(0, &[end()]), &none), 8);
    assert_eq!(with(&job, &none), 9);
    assert_eq!(with(&job, &Limits { budget: 1, ..none }), 10);
    let no_lines = Limits {
        budget: 1,
        places: 2,
        variables: 2,
        lines: 0,
    };
    assert_eq!(with(&job, &no_lines), 0);
    assert_eq!(with(&trial_job(0, &[print(0)]), &no_lines), 24);
    for budget in [1 << 32, (1 << 32) + 1, u64::MAX] {
        assert_eq!(with(&job, &Limits::ample(budget)), 9);
    }
}

#[test]
fn reading_8_end_then_budget_then_record() {
    // The script's end comes first.
    assert_eq!(
        answer(&run_with(&trial_job(0, &[nothing()]), &Limits::ample(1))).0,
        0
    );
    // A record that would stop gives 25 where the budget is used up.
    let job = trial_job(0, &[nothing(), up()]);
    assert_eq!(
        answer(&run_with(&job, &Limits::ample(1))),
        (25, 1, 1, vec![])
    );
    assert_eq!(
        answer(&run_with(&job, &Limits::ample(2))),
        (22, 1, 1, vec![])
    );
}

#[test]
fn reading_9_steps_of_blocks() {
    let steps = |script: &[Record]| {
        let outcome = run(&trial_job(0, script));
        assert_eq!(outcome.ending.number(), 0);
        outcome.steps
    };
    // If and end.
    assert_eq!(steps(&[when(0), nothing(), end()]), 2);
    assert_eq!(steps(&[when(1), nothing(), end()]), 3);
    // If, the else branch, end.
    assert_eq!(steps(&[when(0), nothing(), otherwise(), cover(), end()]), 3);
    // If, then branch, else, end.
    assert_eq!(
        steps(&[when(1), nothing(), otherwise(), nothing(), cover(), end()]),
        4
    );
    assert_eq!(steps(&[repeat(0), nothing(), end()]), 1);
    // Two turns of four records, and the last guard.
    let count = difference(variable(0), constant(1));
    assert_eq!(
        steps(&[assign(0, 2), repeat(variable(0)), assign(0, count), end()]),
        8
    );
}

#[test]
fn reading_9_a_while_is_carried_out_anew_without_its_guard() {
    // The house guard is 1 once, then the loop ends and the context is public.
    let script = [
        repeat(variable(1)),
        assign(1, 0),
        end(),
        assign(0, 5),
        print(variable(0)),
    ];
    assert_eq!(answer(&run(&trial_job(1, &script))), (0, 0, 6, vec![5]));
}

#[test]
fn reading_10_if_and_while_push_e() {
    for opening in [when(1), repeat(variable(0))] {
        let script = [
            assign(0, 1),
            cover(),
            opening,
            root(),
            print(value()),
            assign(0, 0),
            end(),
        ];
        let outcome = run(&trial_job(1, &script));
        assert_eq!(
            (outcome.ending.number(), outcome.numbers()),
            (0, vec![10]),
            "{opening:?}"
        );
    }
    // A value read under cover has level 1, so that E is 1.
    let script = [cover(), when(value()), root(), print(value()), end()];
    assert_eq!(answer(&run(&trial_job(1, &script))), (21, 3, 3, vec![]));
    // Cover under a house guard: the context is above the cursor level before it.
    let script = [when(variable(1)), cover(), end()];
    assert_eq!(answer(&run(&trial_job(1, &script))), (21, 1, 1, vec![]));
    // Root under a house guard, under cover: the cursor level becomes the context.
    let script = [cover(), when(variable(1)), root(), end(), print(value())];
    assert_eq!(answer(&run(&trial_job(1, &script))), (21, 4, 4, vec![]));
}

#[test]
fn reading_11_missing_before_rule() {
    for record in [
        up(),
        right_sibling(),
        remove_right_sibling(),
        new_right_sibling(0, 1),
    ] {
        let script = [when(variable(1)), record, end()];
        assert_eq!(
            answer(&run(&trial_job(1, &script))),
            (22, 1, 1, vec![]),
            "{record:?}"
        );
    }
}

#[test]
fn reading_12_insertions() {
    // The expression is evaluated at the working node before the insertion,
    // and the cursor stays.
    let script = [
        new_first_child(0, children()),
        print(children()),
        print(value()),
    ];
    let outcome = run(&trial_job(1, &script));
    assert_eq!(answer(&outcome), (0, 0, 3, vec![2, 10]));
    let rows = [
        row(0, [0, 0, 0], 10),
        row(1, [0, 0, 0], 1),
        row(1, [0, 0, 0], 3),
    ];
    assert_eq!(last_tree(&outcome), rows);
    // Command 12 puts the node between the working node and its neighbour.
    let script = [
        first_child(),
        new_right_sibling(0, 5),
        new_right_sibling(0, value()),
    ];
    let values: Vec<i32> = last_tree(&run(&trial_job(1, &script)))
        .iter()
        .map(|row| row.value)
        .collect();
    assert_eq!(values, [10, 3, 3, 5]);
    // 12's parent is the working node's parent: its list level counts.
    let nodes = [root_node([0, 0, 0], 0), node(0, [0, 0, 1], 0)];
    let script = [first_child(), cover(), new_right_sibling(0, 5)];
    assert_eq!(answer(&run(&job(&[], &nodes, &script))), (21, 2, 2, vec![]));
    let script = [first_child(), cover(), new_first_child(0, 5)];
    assert_eq!(answer(&run(&job(&[], &nodes, &script))), (0, 0, 3, vec![]));
}

#[test]
fn reading_12_levels_of_new_nodes() {
    let levels = |mark: u8, expression: Expression| {
        let outcome = run(&trial_job(1, &[new_first_child(mark, expression)]));
        let row = last_tree(&outcome)[1];
        [row.existence, row.content, row.list]
    };
    assert_eq!(levels(0, 1.into()), [0, 0, 0]);
    assert_eq!(levels(1, 1.into()), [0, 1, 0]);
    assert_eq!(levels(2, 1.into()), [0, 0, 1]);
    assert_eq!(levels(3, 1.into()), [0, 1, 1]);
    // Content is L, so that a house value is hidden without a mark.
    assert_eq!(levels(0, variable(1).into()), [0, 1, 0]);
    assert_eq!(levels(2, variable(1).into()), [0, 1, 1]);
}

#[test]
fn reading_13_places_lent_decide() {
    let job = trial_job(1, &[new_first_child(0, 1), new_first_child(0, 1)]);
    let with = |places| {
        answer(&run_with(
            &job,
            &Limits {
                places,
                ..Limits::ample(100)
            },
        ))
    };
    assert_eq!(with(3), (23, 1, 1, vec![]));
    assert_eq!(with(4), (0, 0, 2, vec![]));
}

#[test]
fn reading_14_a_stop_leaves_what_stands() {
    let script = [
        print(7),
        assign(0, 4),
        set_value(6),
        new_first_child(0, 8),
        up(),
    ];
    let outcome = run(&trial_job(1, &script));
    assert_eq!(answer(&outcome), (22, 4, 4, vec![7]));
    assert_eq!(last_values(&outcome), [4, 1]);
    let rows = [
        row(0, [0, 0, 0], 6),
        row(1, [0, 0, 0], 8),
        row(1, [0, 0, 0], 3),
    ];
    assert_eq!(last_tree(&outcome), rows);
}

#[test]
fn reading_15_the_shorter_slice_counts() {
    let job = trial_job(0, &[]);
    let with = |variables| {
        run_with(
            &job,
            &Limits {
                variables,
                ..Limits::ample(1)
            },
        )
    };
    assert_eq!(with(1).ending.number(), 10);
    assert_eq!(with(2).ending.number(), 0);
}

#[test]
fn reading_16_the_portal() {
    let bytes = trial_job(1, &[print(-2), print(3)]).encode();
    let mut area = [0xee; 9];
    assert_eq!(portal(&bytes, 100, &mut area), (24 << 32) + 1);
    assert_eq!(area, [0xfe, 0xff, 0xff, 0xff, 0, 0xee, 0xee, 0xee, 0xee]);
    let mut area = [0xee; 11];
    assert_eq!(portal(&bytes, 100, &mut area), 2);
    assert_eq!(area, [0xfe, 0xff, 0xff, 0xff, 0, 3, 0, 0, 0, 0, 0xee]);
    let mut area = [0xee; 8];
    assert_eq!(portal(&bytes, 1, &mut area), (25 << 32) + 1);
    let mut area = [0xee; 8];
    assert_eq!(portal(&bytes, 0, &mut area), 9 << 32);
    assert_eq!(portal(&bytes[1..], 1, &mut area), 2 << 32);
    assert_eq!(area, [0xee; 8]);
}

#[test]
fn reading_17_the_board_runner() {
    let written = board(&trial_job(1, &[print(-2), print(3), up()]).encode());
    assert_eq!(written.output, "board\n-2 0\n3 0\nend 2\n");
    assert_eq!(written.error, "stopped 22 at 2 steps 2\n");
    let written = board(&trial_job(1, &[repeat(1), end()]).encode());
    assert_eq!(written.output, "board\nend 0\n");
    assert_eq!(written.error, "stopped 25 at 0 steps 100000\n");
    let written = board(&trial_job(1, &[repeat(1), print(1), end()]).encode());
    assert_eq!(written.error, "stopped 24 at 1 steps 769\n");
    assert!(written.output.ends_with("end 256\n"));
    let written = board(&[0; 23_049]);
    assert_eq!(
        (written.output.as_str(), written.error.as_str()),
        ("", "refused 1 at 0\n")
    );
    let written = board(&trial_job(1, &[nothing(), end()]).encode());
    assert_eq!(
        (written.output.as_str(), written.error.as_str()),
        ("", "refused 8 at 1\n")
    );
}

#[test]
fn reading_18_other_budgets_leak_nothing() {
    for seed in 0..500 {
        let mut pair = generate::pair(seed);
        for budget in [1, 3, 9, 27] {
            pair.right.limits.budget = budget;
            pair.right.limits.lines = 1 + seed as usize % 5;
            assert_eq!(pair.leak(Mistake::None), None, "seed {seed}");
        }
    }
}

#[test]
fn reading_19_removal_is_tested_against_the_node_removed() {
    let nodes = [root_node([0, 0, 1], 0), node(0, [1, 1, 1], 0)];
    let script = [when(variable(0)), remove_first_child(), end()];
    let job = job(&[house_variable(1)], &nodes, &script);
    assert_eq!(answer(&run(&job)), (0, 0, 3, vec![]));
    let limits = Limits::ample(100);
    let wrong = run::outcome_with(&job.encode(), &limits, Mistake::RemovalTestsWorkingNode);
    assert_eq!(answer(&wrong), (21, 1, 1, vec![]));
}

/// "Nodes are matched by the sibling places on the way from the root, not by
/// record index".
/// R-3: "the cursor level counts only where the expression reads value or
/// children", for commands 1 and 6.
#[test]
fn reading_22_counting_under_cover() {
    // The cursor stands at the root or at the child, by a house number; the
    // count is public all the same.
    let away = [cover(), when(variable(1)), first_child(), end()];
    let count = assign(0, sum(variable(0), constant(1)));
    let script = [&away[..], &[count, count, print(variable(0)), print(7)]].concat();
    assert_eq!(answer(&run(&trial_job(1, &script))), (0, 0, 8, vec![2, 7]));
    assert_eq!(answer(&run(&trial_job(0, &script))), (0, 0, 7, vec![2, 7]));
    // The same with what is read there.
    for record in [assign(0, value()), print(value()), print(children())] {
        let script = [&away[..], &[record]].concat();
        assert_eq!(answer(&run(&trial_job(1, &script))).0, 21, "{record:?}");
        assert_eq!(answer(&run(&trial_job(0, &script))).0, 21, "{record:?}");
    }
    // The context counts as before, under cover too.
    for record in [count, print(7)] {
        let script = [cover(), when(variable(1)), record, end()];
        assert_eq!(answer(&run(&trial_job(1, &script))), (21, 2, 2, vec![]));
    }
    // A house variable takes what is read at a covered cursor.
    let script = [cover(), assign(1, value())];
    assert_eq!(answer(&run(&trial_job(1, &script))), (0, 0, 2, vec![]));
    // "Commands 11, 12 and 15 are not touched": a new node's content is L.
    let nodes = [root_node([0, 0, 1], 0)];
    let outcome = run(&job(&[], &nodes, &[cover(), new_first_child(0, 9)]));
    assert_eq!(last_tree(&outcome)[1], row(1, [1, 1, 1], 9));
}

#[test]
fn agreement_does_not_depend_on_the_record_order() {
    let (a, b) = (node(0, [0, 0, 1], 1), node(0, [0, 0, 0], 2));
    let root = root_node([0, 0, 0], 0);
    let hidden = |parent| node(parent, [1, 1, 1], 5);
    let left = job(&[], &[root, a, hidden(1), b, node(3, [0, 0, 0], 9)], &[]);
    let right = job(&[], &[root, a, b, node(2, [0, 0, 0], 9)], &[]);
    assert!(public::agree(&left, &right, PUBLIC));
    // Another value of content 0, another list level, a public node too many.
    for (index, other) in [(2, node(0, [0, 0, 0], 3)), (2, node(0, [0, 0, 1], 2))] {
        let mut changed = right.clone();
        changed.nodes[index] = other;
        assert!(!public::agree(&left, &changed, PUBLIC));
    }
    let mut longer = right.clone();
    longer.nodes.push(node(3, [0, 0, 0], 0));
    assert!(!public::agree(&left, &longer, PUBLIC));
    // House nodes come after their public siblings, so that places are kept.
    let mut hidden_value = right;
    hidden_value.nodes[0].content = 1;
    assert!(!public::agree(&left, &hidden_value, PUBLIC));
}
