//! The same work under two budgets.

use super::{case, history_pair, order, Case};
use crate::history::Event;
use crate::random::Random;
use crate::rounds::{self, MAX_RUNS, TURN_STEPS};
use crate::run::{self, Limits, MAX_BUDGET};

/// Runs that do not end by themselves get no larger budget than this.
const ENDLESS: u64 = 3 * TURN_STEPS;

/// "two budgets from 1 to 1,000,000", the smaller first: mostly near the steps after
/// which the job ends, if it does.
fn two_budgets(random: &mut Random, bytes: &[u8], limits: &Limits) -> [u64; 2] {
    let most = Limits {
        budget: ENDLESS,
        ..*limits
    };
    let steps = run::outcome(bytes, &most).steps;
    let budget = |random: &mut Random| match random.below(6) {
        0 => random.between(1, 30) as u64,
        1 => steps / 2,
        2 => steps.saturating_sub(1),
        3 => steps,
        4 => steps + 1,
        _ => random.between(1, ENDLESS as usize) as u64,
    };
    let [one, other] = [budget(random), budget(random)].map(|budget| budget.max(1));
    let more = match steps < ENDLESS && random.chance(1, 4) {
        true => MAX_BUDGET,
        false => one.max(other),
    };
    [one.min(other), more]
}

/// The case of a seed, and two budgets for it.
pub fn raised(seed: u64) -> (Case, [u64; 2]) {
    let mut random = Random::new(seed ^ 0x0072_6169_7365_6421);
    let case = case(seed);
    let budgets = two_budgets(&mut random, &case.bytes, &case.limits);
    (case, budgets)
}

/// A job and scripts behind it, under smaller and under larger budgets.
pub fn raised_history(seed: u64) -> [Vec<Event>; 2] {
    let mut random = Random::new(seed ^ 0x7261_6973_6564_6869);
    let events = history_pair(seed).left;
    let budgets: Vec<[u32; 2]> = events
        .iter()
        .map(|_| {
            let budget = |random: &mut Random| match random.below(3) {
                0 => random.between(1, 12) as u32,
                _ => random.between(1, 3_000) as u32,
            };
            let [one, other] = [budget(&mut random), budget(&mut random)];
            [one.min(other), one.max(other)]
        })
        .collect();
    [0, 1].map(|side| with_budgets(&events, &budgets, side))
}

fn with_budgets(events: &[Event], budgets: &[[u32; 2]], side: usize) -> Vec<Event> {
    let with = |(event, budgets): (&Event, &[u32; 2])| Event {
        budget: budgets[side],
        ..event.clone()
    };
    events.iter().zip(budgets).map(with).collect()
}

/// An order of newcomers and turns, under smaller and under larger budgets; turns behind
/// it, until nobody can be left.
pub fn raised_order(seed: u64) -> [Vec<Event>; 2] {
    let mut random = Random::new(seed ^ 0x7261_6973_6564_6f72);
    let mut events = order(seed);
    let turn = Event {
        kind: rounds::kind::TURN,
        ..Event::default()
    };
    let turns = MAX_RUNS * (ENDLESS / TURN_STEPS) as usize;
    events.extend(vec![turn; turns]);
    let budgets: Vec<[u32; 2]> = events
        .iter()
        .map(|event| {
            let accepted = event.kind == rounds::kind::NEWCOMER
                && (1..=MAX_BUDGET).contains(&u64::from(event.budget));
            match accepted {
                true => two_budgets(&mut random, &event.body, &event.limits()).map(|b| b as u32),
                false => [event.budget; 2],
            }
        })
        .collect();
    [0, 1].map(|side| with_budgets(&events, &budgets, side))
}
