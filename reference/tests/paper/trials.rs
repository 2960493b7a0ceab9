//! The twelve trials, with both halves where a trial has two.

use super::*;

#[test]
fn trial_1_empty_script() {
    let outcome = run(&trial_job(1, &[]));
    assert_eq!(answer(&outcome), (0, 0, 0, vec![]));
    assert_eq!(
        last_tree(&outcome),
        [row(0, [0, 0, 0], 10), row(1, [0, 0, 0], 3)]
    );
    assert_eq!(last_values(&outcome), [0, 1]);
}

#[test]
fn trial_2_print_value() {
    assert_eq!(
        answer(&run(&trial_job(1, &[print(value())]))),
        (0, 0, 1, vec![10])
    );
}

#[test]
fn trial_3_house_into_public() {
    let outcome = run(&trial_job(1, &[assign(0, variable(1))]));
    assert_eq!(answer(&outcome), (21, 0, 0, vec![]));
    assert_eq!(last_values(&outcome), [0, 1]);
}

#[test]
fn trial_4_removal_under_house_guard() {
    let script = [when(variable(1)), remove_first_child(), end()];
    assert_eq!(answer(&run(&trial_job(1, &script))), (21, 1, 1, vec![]));
    assert_eq!(answer(&run(&trial_job(0, &script))), (0, 0, 2, vec![]));
}

#[test]
fn trial_5_move_under_house_guard() {
    let script = [when(variable(1)), first_child(), end()];
    assert_eq!(answer(&run(&trial_job(1, &script))), (21, 1, 1, vec![]));
}

#[test]
fn trial_6_move_under_cover() {
    let script = [
        cover(),
        when(variable(1)),
        first_child(),
        end(),
        root(),
        print(value()),
    ];
    assert_eq!(answer(&run(&trial_job(1, &script))), (0, 0, 6, vec![10]));
    assert_eq!(answer(&run(&trial_job(0, &script))), (0, 0, 5, vec![10]));
}

#[test]
fn trial_7_children_after_insertion() {
    let script = [
        first_child(),
        new_right_sibling(0, 5),
        up(),
        assign(0, children()),
        print(variable(0)),
    ];
    let outcome = run(&trial_job(1, &script));
    assert_eq!(answer(&outcome), (0, 0, 5, vec![2]));
    let rows = [
        row(0, [0, 0, 0], 10),
        row(1, [0, 0, 0], 3),
        row(1, [0, 0, 0], 5),
    ];
    assert_eq!(last_tree(&outcome), rows);
}

#[test]
fn trial_8_insertion_under_cover() {
    let script = [cover(), new_first_child(0, 7)];
    assert_eq!(answer(&run(&trial_job(1, &script))), (21, 1, 1, vec![]));
    let childless = Job {
        nodes: vec![root_node([0, 0, 1], 10)],
        ..trial_job(1, &script)
    };
    let outcome = run(&childless);
    assert_eq!(answer(&outcome), (0, 0, 2, vec![]));
    assert_eq!(
        last_tree(&outcome),
        [row(0, [0, 0, 1], 10), row(1, [1, 1, 1], 7)]
    );
}

#[test]
fn trial_9_endless_loop() {
    let job = trial_job(1, &[repeat(1), end()]);
    assert_eq!(
        answer(&run_with(&job, &Limits::ample(10))),
        (25, 0, 10, vec![])
    );
}

#[test]
fn trial_10_a_freed_place_is_used_again() {
    let job = trial_job(1, &[remove_first_child(), new_first_child(0, 4)]);
    let outcome = run_with(
        &job,
        &Limits {
            places: 2,
            ..Limits::ample(100)
        },
    );
    assert_eq!(answer(&outcome), (0, 0, 2, vec![]));
    assert_eq!(
        last_tree(&outcome),
        [row(0, [0, 0, 0], 10), row(1, [0, 0, 0], 4)]
    );
}

#[test]
fn trial_11_budget_after_one_line() {
    let job = trial_job(1, &[print(value()), print(value())]);
    assert_eq!(
        answer(&run_with(&job, &Limits::ample(1))),
        (25, 1, 1, vec![10])
    );
}

#[test]
fn trial_12_arithmetic() {
    let script = [
        print(mean(constant(-3), constant(0))),
        print(sum(constant(2_147_483_647), constant(1))),
    ];
    assert_eq!(
        answer(&run(&trial_job(1, &script))),
        // "The second half of trial 12 now stops with 27."
        (27, 1, 1, vec![-2])
    );
}
