//! a larger budget changes nothing said.

use std::collections::BTreeMap;

use reference::budgets::{broken, histories_broken};
use reference::ending::Ending;
use reference::generate;
use reference::history::{Event, Expected, Model};
use reference::mistake::Mistake;
use reference::rounds::{Reply, Roof};
use reference::run::{self, Limits, Outcome};

const SEEDS: u64 = 2_000;

/// The outcomes of a seed's case under its two budgets.
fn outcomes(seed: u64, mistake: Mistake) -> [Outcome; 2] {
    let (case, budgets) = generate::raised(seed);
    budgets.map(|budget| {
        let limits = Limits {
            budget,
            ..case.limits
        };
        run::outcome_with(&case.bytes, &limits, mistake)
    })
}

/// Those of a job and of the scripts behind it.
fn history(events: &[Event], mistake: Mistake) -> Vec<Outcome> {
    let mut model = Model::new(mistake);
    let outcome = |event: &Event| match model.expect(event) {
        Expected::Outcome(outcome) => outcome,
        other => panic!("{other:?}"),
    };
    events.iter().map(outcome).collect()
}

/// Those of the runs that took turns, by the event that took them in.
fn answered(events: &[Event], mistake: Mistake) -> BTreeMap<usize, Outcome> {
    let mut roof = Roof::new(mistake);
    let replies = events.iter().map(|event| roof.expect(event));
    let ended = replies.filter_map(|reply| match reply {
        Reply::Turn {
            run,
            ended: Some(outcome),
            ..
        } => Some((run, outcome)),
        _ => None,
    });
    ended.collect()
}

fn job_broken(seed: u64, mistake: Mistake) -> Option<&'static str> {
    let [smaller, larger] = outcomes(seed, mistake);
    broken(&smaller, &larger)
}

fn history_broken(seed: u64, mistake: Mistake) -> Option<(usize, &'static str)> {
    let [smaller, larger] = generate::raised_history(seed).map(|events| history(&events, mistake));
    histories_broken(&smaller, &larger)
}

fn order_broken(seed: u64, mistake: Mistake) -> Option<(usize, &'static str)> {
    let [smaller, larger] = generate::raised_order(seed).map(|events| answered(&events, mistake));
    smaller.iter().find_map(|(run, outcome)| {
        let how = broken(outcome, larger.get(run)?)?;
        Some((*run, how))
    })
}

#[test]
fn a_larger_budget_changes_nothing_said() {
    for seed in 0..5 * SEEDS {
        assert_eq!(job_broken(seed, Mistake::None), None, "seed {seed}");
    }
    for seed in 0..SEEDS {
        assert_eq!(history_broken(seed, Mistake::None), None, "seed {seed}");
    }
    for seed in 0..SEEDS / 8 {
        assert_eq!(order_broken(seed, Mistake::None), None, "seed {seed}");
    }
}

/// Both halves of the claim come up, with something to compare: endings other than 25 under
/// two budgets, and lines that go on behind a 25.
#[test]
fn budgets_are_not_idle() {
    let (mut same, mut goes_on, mut further) = (0, 0, 0);
    for seed in 0..SEEDS {
        let (_, budgets) = generate::raised(seed);
        let [smaller, larger] = outcomes(seed, Mistake::None);
        let spent = smaller.ending == Ending::BudgetUsed;
        let run = !smaller.ending.turned_back();
        same += (run && !spent && budgets[0] < budgets[1]) as u64;
        goes_on += (spent && larger.steps > smaller.steps) as u64;
        further += (spent && larger.lines.len() > smaller.lines.len()) as u64;
    }
    println!("of {SEEDS}: the same {same}, goes on {goes_on}, with more lines {further}");
    assert!(same > SEEDS / 10 && goes_on > SEEDS / 10 && further > SEEDS / 50);
}

#[test]
fn every_mistake_of_budgets_is_found() {
    for mistake in Mistake::SPENDING {
        let job = (0..SEEDS).find(|&seed| job_broken(seed, mistake).is_some());
        let history = (0..SEEDS).find(|&seed| history_broken(seed, mistake).is_some());
        let order = (0..SEEDS).find(|&seed| order_broken(seed, mistake).is_some());
        println!("{mistake:?}: job {job:?}, history {history:?}, order {order:?}");
        assert!(
            job.is_some() && history.is_some() && order.is_some(),
            "{mistake:?}"
        );
    }
}
