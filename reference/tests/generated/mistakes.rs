use reference::mistake::{Mistake, RULED_COMMANDS};
use reference::run::{self, Outcome};
use reference::{arrange, clean, generate, summary};

use super::cases;

/// Every mistake shows in the outcome of some generated case.
#[test]
fn every_mistake_is_found_by_comparison() {
    let right: Vec<Outcome> = cases()
        .iter()
        .map(|case| run::outcome(&case.bytes, &case.limits))
        .collect();
    for mistake in Mistake::ALL
        .into_iter()
        .chain(RULED_COMMANDS.map(Mistake::NoRule))
    {
        let found = cases().iter().zip(&right).position(|(case, right)| {
            run::outcome_with(&case.bytes, &case.limits, mistake) != *right
        });
        println!("{mistake:?}: case {found:?}");
        assert!(found.is_some(), "{mistake:?}");
    }
}

/// Every mistake of the cleaner shows in what it puts out for some dirty case.
#[test]
fn every_mistake_of_the_cleaner_is_found() {
    for mistake in Mistake::CLEANING {
        let found = (0..2_000).position(|seed| {
            let bytes = generate::dirty(seed).bytes;
            clean::output(&bytes, mistake) != clean::output(&bytes, Mistake::None)
        });
        println!("{mistake:?}: case {found:?}");
        assert!(found.is_some(), "{mistake:?}");
    }
}

/// Every mistake of the rearranger shows in what it puts out for some case whose
/// nodes stand in any order, or that has notes.
#[test]
fn every_mistake_of_the_rearranger_is_found() {
    for mistake in Mistake::ARRANGING {
        let found = (0..2_000).position(|seed| {
            let bytes = match seed % 4 {
                0 => generate::dirty(seed).bytes,
                _ => generate::shuffled(seed).bytes,
            };
            arrange::output(&bytes, mistake) != arrange::output(&bytes, Mistake::None)
        });
        println!("{mistake:?}: case {found:?}");
        assert!(found.is_some(), "{mistake:?}");
    }
}

/// Every mistake of the summary shows in what it puts out for some case.
#[test]
fn every_mistake_of_the_summary_is_found() {
    for mistake in Mistake::SUMMING {
        let found = cases().iter().position(|case| {
            summary::output(&case.bytes, mistake) != summary::output(&case.bytes, Mistake::None)
        });
        println!("{mistake:?}: case {found:?}");
        assert!(found.is_some(), "{mistake:?}");
    }
}

#[test]
fn no_mistake_is_the_default() {
    assert_eq!(Mistake::default(), Mistake::None);
}
