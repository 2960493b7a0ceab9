use reference::ending::Ending;
use reference::generate;
use reference::job::{self, Job};
use reference::mistake::{Mistake, RULED_COMMANDS};
use reference::print;
use reference::public::{self, Leak};
use reference::run::{self, Outcome};

use super::{pairs, PAIRS};

#[test]
fn pairs_are_accepted_alike_and_agreeing() {
    for (seed, pair) in pairs().iter().enumerate() {
        assert!(pair.well_formed(), "seed {seed}\n{}", print::pair(pair));
        for case in [&pair.left, &pair.right] {
            let outcome = run::outcome(&case.bytes, &case.limits);
            assert!(!outcome.ending.turned_back(), "seed {seed}");
        }
    }
}

#[test]
fn the_same_seed_gives_the_same_pair() {
    for seed in 0..200 {
        assert_eq!(generate::pair(seed), pairs()[seed as usize]);
    }
}

/// The lines of one run are the beginning of the other's; where both finish,
/// lines and public parts are equal.
#[test]
fn the_reference_leaks_nothing() {
    for (seed, pair) in pairs().iter().enumerate() {
        assert_eq!(
            pair.leak(Mistake::None),
            None,
            "seed {seed}\n{}",
            print::pair(pair)
        );
    }
}

/// The pairs differ where they may, and the runs get somewhere.
#[test]
fn pairs_are_not_idle() {
    let (mut nodes, mut values, mut lines, mut endings, mut finished) = (0, 0, 0, 0, 0);
    let variable_values = |job: &Job| job.variables.iter().map(|v| v.value).collect::<Vec<_>>();
    for pair in pairs() {
        let left = job::decode(&pair.left.bytes).unwrap();
        let right = job::decode(&pair.right.bytes).unwrap();
        let left_run = run::outcome(&pair.left.bytes, &pair.left.limits);
        let right_run = run::outcome(&pair.right.bytes, &pair.right.limits);
        nodes += (left.nodes.len() != right.nodes.len()) as u64;
        values += (variable_values(&left) != variable_values(&right)) as u64;
        let seen = |run: &Outcome| !run.lines_for(pair.reader).is_empty();
        lines += (seen(&left_run) && seen(&right_run)) as u64;
        endings += (left_run.ending != right_run.ending) as u64;
        finished +=
            (left_run.ending == right_run.ending && left_run.ending == Ending::Finished) as u64;
    }
    println!("of {PAIRS} pairs: other hidden nodes {nodes}, other hidden values {values}");
    println!("lines in both {lines}, other endings {endings}, both finished {finished}");
    for count in [nodes, values, lines, endings, finished] {
        assert!(count > PAIRS / 10);
    }
}

/// The planted mistakes that leak, and every command without its rule: each
/// shows in the lines of some pair.
#[test]
fn leaking_mistakes_are_found() {
    for mistake in Mistake::LEAKING
        .into_iter()
        .chain(RULED_COMMANDS.map(Mistake::NoRule))
    {
        let found = pairs()
            .iter()
            .position(|pair| pair.leak(mistake) == Some(Leak::Lines));
        println!("{mistake:?}: pair {found:?}");
        assert!(found.is_some(), "{mistake:?}");
    }
}

/// Of the five traps, testing a removal against the working node only stops
/// too often.
#[test]
fn removal_test_at_the_working_node_leaks_nothing() {
    for (seed, pair) in pairs().iter().enumerate() {
        assert_eq!(
            pair.leak(Mistake::RemovalTestsWorkingNode),
            None,
            "seed {seed}"
        );
    }
}

#[test]
fn agreement_ignores_house_parts_alone() {
    let mut other = job::decode(&pairs()[1].left.bytes).unwrap();
    let job = other.clone();
    other.variables[0].value = other.variables[0].value.wrapping_add(1);
    let reader = pairs()[1].reader;
    assert!(
        public::agree(&job, &other, reader),
        "variable 0 of a pair is hidden"
    );
    other.nodes[0].list ^= 1;
    assert!(
        !public::agree(&job, &other, reader),
        "the root's list level is public"
    );
}

/// Readers of every kind: nobody, the first party, other parties, several at once.
#[test]
fn readers_come_up() {
    let count = |wanted: &dyn Fn(u8) -> bool| {
        let readers = pairs().iter().map(|pair| pair.reader);
        readers.filter(|&reader| wanted(reader)).count() as u64
    };
    let kinds: [&dyn Fn(u8) -> bool; 4] = [
        &|reader| reader == 0,
        &|reader| reader == 1,
        &|reader| reader.count_ones() == 1 && reader != 1,
        &|reader| reader.count_ones() > 1,
    ];
    for wanted in kinds {
        assert!(count(wanted) > PAIRS / 50);
    }
}
