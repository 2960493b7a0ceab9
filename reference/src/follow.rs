//! A follow-on script over what stands (R-1): "A follow-on script is a bare
//! script section. Each starts at the root with cursor level 0."

use crate::ending::Ending;
use crate::job::{self, Record, MAX_RECORDS, MAX_VARIABLES, RECORD_BYTES};
use crate::mistake::Mistake;
use crate::run::{self, Limits, Monitor, Observer, Outcome, Standing, MAX_BUDGET, MAX_PLACES};
use crate::table::{self, Fault, Lent};
use crate::Level;

/// The tree and variables that are lent, if an accepted job could hold them.
pub fn standing(
    table: &[Lent],
    variables: &[(Level, i32)],
    mistake: Mistake,
) -> Result<Standing, Fault> {
    if variables.len() > MAX_VARIABLES && mistake != Mistake::LentVariablesUnchecked {
        return Err(Fault::TooManyVariables);
    }
    Ok(Standing {
        variables: variables.to_vec(),
        tree: table::tree(table, mistake)?,
        cursor: Vec::new(),
    })
}

/// The records of a bare section.
pub fn records(section: &[u8], mistake: Mistake) -> Result<Vec<Record>, Fault> {
    if section.len() % RECORD_BYTES != 0 && mistake != Mistake::PartRecordDropped {
        return Err(Fault::PartRecord);
    }
    let records = job::records(section);
    if records.len() > MAX_RECORDS {
        return Err(Fault::TooManyRecords);
    }
    Ok(records)
}

/// The outcome of a section over what stands, and what stands then. `limits`
/// says how many places are lent; all lent variables stand.
pub fn follow(
    standing: &Result<Standing, Fault>,
    section: &[u8],
    limits: &Limits,
    mistake: Mistake,
    observer: Observer,
) -> (Outcome, Option<Standing>) {
    match check(standing, section, limits, mistake) {
        Ok((standing, script)) => {
            let monitor = Monitor::new(&script, standing, limits, mistake);
            let (outcome, after) = monitor.run_to_end(observer);
            let stopped = outcome.ending != Ending::Finished;
            if stopped && mistake == Mistake::StopTakenBack {
                let last = Some(standing.last());
                return (Outcome { last, ..outcome }, Some(standing.clone()));
            }
            (outcome, Some(after))
        }
        Err((ending, index)) => (run::turned_back(ending, index), None),
    }
}

/// "11 [...] checked first, before 7, 8 and 9; after them 10 is given only for
/// a lent table of more than 512 places."; 12 "after 7 and before 8".
fn check<'a>(
    standing: &'a Result<Standing, Fault>,
    section: &[u8],
    limits: &Limits,
    mistake: Mistake,
) -> Result<(&'a Standing, Vec<Record>), (Ending, usize)> {
    let budget = match (1..=MAX_BUDGET).contains(&limits.budget) {
        true => Ok(()),
        false => Err((Ending::Budget, 0)),
    };
    if mistake == Mistake::BudgetBeforeStanding {
        budget?;
    }
    let script = records(section, mistake).map_err(|_| (Ending::Standing, 0))?;
    if mistake == Mistake::PlacesAre11 && limits.places > MAX_PLACES {
        return Err((Ending::Standing, 0));
    }
    let standing = standing.as_ref().map_err(|_| (Ending::Standing, 0))?;
    job::check_script(&script, standing.variables.len(), mistake)
        .map_err(|refusal| (refusal.ending, refusal.index))?;
    if mistake == Mistake::PlacesBeforeBudget && limits.places > MAX_PLACES {
        return Err((Ending::Buffer, 0));
    }
    budget?;
    if limits.places > MAX_PLACES {
        return Err((Ending::Buffer, 0));
    }
    Ok((standing, script))
}
