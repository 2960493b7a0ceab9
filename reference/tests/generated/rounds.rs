use reference::coverage::Coverage;
use reference::generate;
use reference::history::Event;
use reference::mistake::Mistake;
use reference::rounds::{kind, Reply, Roof, MAX_RUNS, TURN_STEPS};
use reference::run;

const SEEDS: u64 = 2_000;

fn replies(events: &[Event], mistake: Mistake) -> Vec<Reply> {
    let mut roof = Roof::new(mistake);
    events.iter().map(|event| roof.expect(event)).collect()
}

#[test]
fn every_case_comes_up() {
    let mut coverage = Coverage::new();
    let mut steps = 0;
    for seed in 0..SEEDS {
        let mut roof = Roof::new(Mistake::None);
        for event in generate::order(seed) {
            if let Reply::Turn { took, .. } = coverage.add_round(&mut roof, &event) {
                steps += took;
            }
        }
        assert_eq!(roof.unended(), 0, "seed {seed}");
    }
    println!("{SEEDS} orders of {steps} steps\n{coverage}");
    assert_eq!(coverage.missing_of_rounds(), Vec::<String>::new());
}

#[test]
fn the_same_seed_gives_the_same_order() {
    for seed in 0..50 {
        assert_eq!(generate::order(seed), generate::order(seed));
    }
}

/// "Each run [...] ends with exactly the ending, steps, lines, variables and tree it
/// has alone, and the turn that ends it hands back its answer."; "A newcomer whose job
/// is turned back" gets the number that it gets alone.
#[test]
fn each_run_ends_as_it_does_alone() {
    for seed in 0..SEEDS {
        let events = generate::order(seed);
        let alone = |place: usize| run::outcome(&events[place].body, &events[place].limits());
        let mut unended = Vec::new();
        for (place, reply) in replies(&events, Mistake::None).into_iter().enumerate() {
            match reply {
                Reply::Taken => unended.push(place),
                Reply::TurnedBack(outcome) if outcome.ending.number() == 15 => {
                    assert_eq!(unended.len(), MAX_RUNS, "seed {seed}");
                }
                Reply::TurnedBack(outcome) => {
                    assert!(unended.len() < MAX_RUNS, "seed {seed}");
                    assert_eq!(outcome, alone(place), "seed {seed}");
                }
                Reply::Turn {
                    run,
                    ended: Some(outcome),
                    ..
                } => {
                    assert_eq!(outcome, alone(run), "seed {seed}");
                    unended.retain(|&name| name != run);
                }
                Reply::Turn { run, .. } => assert!(unended.contains(&run), "seed {seed}"),
                Reply::Idle => assert!(unended.is_empty(), "seed {seed}"),
                Reply::Unknown => {}
            }
        }
        assert!(unended.is_empty(), "seed {seed}");
    }
}

/// "Between two turns of an unended run at most seven others have one, so at most
/// 35,000 steps pass."
#[test]
fn nobody_waits_for_long() {
    let mut longest = 0;
    for seed in 0..SEEDS {
        let events = generate::order(seed);
        let replies = replies(&events, Mistake::None);
        let turns: Vec<(usize, u64, bool)> = replies
            .iter()
            .filter_map(|reply| match reply {
                Reply::Turn { run, took, ended } => Some((*run, *took, ended.is_some())),
                _ => None,
            })
            .collect();
        for (place, &(run, took, ended)) in turns.iter().enumerate() {
            assert!(took <= TURN_STEPS && (ended || took == TURN_STEPS));
            let others = turns[place + 1..].iter().take_while(|turn| turn.0 != run);
            let (count, steps) = others.fold((0, 0), |sum, turn| (sum.0 + 1, sum.1 + turn.1));
            if !ended {
                assert!(count <= 7 && steps <= 35_000, "seed {seed}");
                longest = longest.max(count);
            }
        }
    }
    assert_eq!(longest, 7, "the bound is reached");
}

#[test]
fn every_mistake_of_turns_is_found() {
    for mistake in Mistake::TURNING {
        let found = (0..SEEDS).find(|&seed| {
            let events = generate::order(seed);
            replies(&events, mistake) != replies(&events, Mistake::None)
        });
        println!("{mistake:?}: order {found:?}");
        assert!(found.is_some(), "{mistake:?}");
    }
}

/// Events are counted whatever they are.
#[test]
fn kinds() {
    let event = |kind| Event {
        kind,
        ..Event::default()
    };
    let idle = replies(&[event(kind::TURN), event(2)], Mistake::None);
    assert_eq!(idle, [Reply::Idle, Reply::Unknown]);
}
