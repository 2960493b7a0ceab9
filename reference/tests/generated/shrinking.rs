use reference::ending::Ending;
use reference::generate::{Case, Pair};
use reference::job;
use reference::mistake::Mistake;
use reference::print;
use reference::public::Leak;
use reference::run;
use reference::shrink;

use super::{cases, pairs};

fn shows(case: &Case, mistake: Mistake) -> bool {
    let wrong = run::outcome_with(&case.bytes, &case.limits, mistake);
    wrong != run::outcome(&case.bytes, &case.limits)
}

#[test]
fn failing_cases_become_small() {
    for mistake in Mistake::ALL {
        let failing = |case: &Case| shows(case, mistake);
        let first = cases().iter().find(|case| failing(case)).expect("found");
        let small = shrink::case(first, &failing);
        println!("{mistake:?}\n{}", print::case(&small));
        assert!(failing(&small));
        let parts = job::split(&small.bytes).expect("a job with sections");
        assert!(
            parts.script.len() <= 34,
            "{mistake:?}\n{}",
            print::case(&small)
        );
    }
}

#[test]
fn leaking_pairs_become_small() {
    for mistake in Mistake::LEAKING {
        let failing = |pair: &Pair| pair.leak(mistake) == Some(Leak::Lines);
        let first = pairs().iter().find(|pair| failing(pair)).expect("found");
        let small = shrink::pair(first, &failing);
        println!("{mistake:?}\n{}", print::pair(&small));
        assert!(small.well_formed() && failing(&small));
        let script = job::decode(&small.left.bytes).unwrap().script;
        assert!(script.len() <= 16, "{mistake:?}\n{}", print::pair(&small));
    }
}

/// Bytes without sections shrink too.
#[test]
fn refused_bytes_become_small() {
    let failing = |case: &Case| run::outcome(&case.bytes, &case.limits).ending == Ending::Layout;
    let first = cases().iter().find(|case| failing(case)).expect("found");
    let small = shrink::case(first, &failing);
    assert!(small.bytes.len() <= 16, "{}", print::case(&small));
}
