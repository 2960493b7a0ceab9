//! A larger budget changes nothing said.

use crate::ending::Ending;
use crate::run::Outcome;

/// How two outcomes of the same job and buffers break it, the first under the smaller of
/// two budgets: "an ending other than 25 under the smaller is the same under the larger,
/// with all lines, variables, steps and the tree. After a 25, the lines are a beginning
/// of those under the larger budget, and the steps are no more."
pub fn broken(smaller: &Outcome, larger: &Outcome) -> Option<&'static str> {
    if smaller.ending != Ending::BudgetUsed {
        return (smaller != larger).then_some("an ending other than 25 is not the same");
    }
    if !larger.lines.starts_with(&smaller.lines) {
        return Some("after a 25 the lines are no beginning");
    }
    (smaller.steps > larger.steps).then_some("after a 25 the steps are more")
}

/// The same of two histories, "up to and including the first 25": the number of the
/// script, and how.
pub fn histories_broken(smaller: &[Outcome], larger: &[Outcome]) -> Option<(usize, &'static str)> {
    for (number, (small, large)) in smaller.iter().zip(larger).enumerate() {
        if let Some(how) = broken(small, large) {
            return Some((number, how));
        }
        if small.ending == Ending::BudgetUsed {
            return None;
        }
    }
    None
}
