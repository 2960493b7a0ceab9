use reference::coverage::Coverage;
use reference::ending::Ending;
use reference::generate;
use reference::job::{self, command};
use reference::mistake::Mistake;
use reference::print;
use reference::run::{self, Limits};
use reference::within;

use super::{cases, SEEDS};

#[test]
fn every_command_ending_and_refusal_comes_up() {
    let mut coverage = Coverage::new();
    for case in cases() {
        coverage.add(case);
    }
    println!("{SEEDS} seeds\n{coverage}");
    assert_eq!(coverage.missing(), Vec::<String>::new());
}

#[test]
fn the_same_seed_gives_the_same_case() {
    for seed in 0..200 {
        assert_eq!(generate::case(seed), cases()[seed as usize]);
    }
}

#[test]
fn valid_cases_are_accepted() {
    for seed in 0..SEEDS / 4 {
        let case = generate::valid(seed);
        let outcome = run::outcome(&case.bytes, &case.limits);
        assert!(
            !outcome.ending.turned_back(),
            "seed {seed}\n{}",
            print::case(&case)
        );
    }
}

/// "Every tree, at start and after each step".
#[test]
fn tree_rules_hold_after_each_step() {
    for (seed, case) in cases().iter().enumerate() {
        let limits = Limits {
            budget: case.limits.budget.min(200),
            ..case.limits
        };
        run::observed(&case.bytes, &limits, Mistake::None, &mut |state, _| {
            assert!(
                state.tree.keeps_rules(),
                "seed {seed}\n{}",
                print::case(case)
            );
            assert!(state.tree.count() <= limits.places, "seed {seed}");
            assert!(state.lines.len() <= limits.lines, "seed {seed}");
            // "The cursor level is never below the existence of the working node".
            let working_node = state.tree.at(&state.cursor);
            assert!(
                within(working_node.existence, state.cursor_level),
                "seed {seed}"
            );
        });
    }
}

/// the 22 of an end "cannot happen where the guard raised the cursor level".
#[test]
fn a_raised_guard_never_meets_the_22() {
    let mut stops = 0;
    for (seed, case) in cases().iter().enumerate() {
        let mut raised = Vec::new();
        let outcome = run::observed(&case.bytes, &case.limits, Mistake::None, &mut |state, _| {
            if state.guards.len() < raised.len() {
                raised.pop();
            } else if state.guards.len() > raised.len() {
                let back = state.remembered.last().and_then(Option::as_ref);
                raised.push(back.is_some_and(|back| back.cursor_level != state.cursor_level));
            }
        });
        if outcome.ending == Ending::Missing {
            let script = job::decode(&case.bytes).expect("accepted").script;
            if script[outcome.index].command == command::END {
                assert_eq!(raised.last(), Some(&false), "seed {seed}");
                stops += 1;
            }
        }
    }
    println!("{stops} ends whose node was gone");
    assert!(stops > 0);
}

/// A smaller budget gives the state after that many steps.
#[test]
fn a_smaller_budget_is_a_beginning() {
    for (seed, case) in cases().iter().enumerate().take(4_000) {
        let mut states = Vec::new();
        let limits = Limits {
            budget: case.limits.budget.min(3),
            ..case.limits
        };
        let whole = run::observed(&case.bytes, &limits, Mistake::None, &mut |state, _| {
            states.push((
                state.variables.clone(),
                state.tree.preorder(),
                state.lines.clone(),
            ));
        });
        assert_eq!(whole.steps, states.len() as u64, "seed {seed}");
        for (budget, state) in (1..).zip(states) {
            let part = run::outcome(&case.bytes, &Limits { budget, ..limits });
            let last = part.last.expect("not turned back");
            assert_eq!(
                (last.variables, last.tree, part.lines),
                state,
                "seed {seed}"
            );
        }
    }
}

#[test]
fn accepted_bytes_come_back() {
    for (seed, case) in cases().iter().enumerate() {
        if let Ok(job) = job::decode(&case.bytes) {
            assert_eq!(job.encode(), case.bytes, "seed {seed}");
        }
    }
}
