//! The cleaning program (R-4): "Stored jobs go once through a cleaning program
//! that sets those bytes to zero and prints each change as section, record, byte
//! and old number, in rising order."

use crate::job::{decode_first, Job, Refusal, FIRST_READS, READS};
use crate::job::{NODE_BYTES, RECORD_BYTES, VARIABLE_BYTES};
use crate::mistake::Mistake;

/// What the program puts out.
#[derive(Clone, Debug, PartialEq, Eq)]
pub struct Output {
    pub standard_output: Vec<u8>,
    pub standard_error: String,
}

/// "section 0 for variables, 1 nodes, 2 script: `1 0 5 7` for node 0 whose byte 5
/// was 7"
#[derive(Clone, Copy, Debug, PartialEq, Eq)]
pub struct Change {
    pub section: usize,
    pub record: usize,
    pub byte: usize,
    pub old: u8,
}

/// "A job that the old rules turn back gets its old number (`refused N at I`
/// alone, on standard error), is not cleaned and puts nothing on standard
/// output."
pub fn output(bytes: &[u8], mistake: Mistake) -> Output {
    match clean(bytes, mistake) {
        Ok((cleaned, changes)) => Output {
            standard_output: cleaned,
            standard_error: changes.iter().map(line).collect(),
        },
        Err(refusal) => Output {
            standard_output: Vec::new(),
            standard_error: refusal.line(),
        },
    }
}

fn line(change: &Change) -> String {
    let Change {
        section,
        record,
        byte,
        old,
    } = change;
    format!("{section} {record} {byte} {old}\n")
}

/// The cleaned bytes of a job and what was changed.
pub fn clean(bytes: &[u8], mistake: Mistake) -> Result<(Vec<u8>, Vec<Change>), Refusal> {
    let job = match mistake {
        Mistake::CleanerHasNewRules => crate::job::decode(bytes)?,
        _ => decode_first(bytes, mistake)?,
    };
    // "the cleaner of R-4 and the tool of R-10 keep their old rules"
    let rows = match mistake {
        Mistake::CleanerKeepsSets => &READS,
        _ => &FIRST_READS,
    };
    let cleaned = job.plain(rows, mistake).encode();
    let mut changes = changes(&job, bytes, &cleaned);
    if mistake == Mistake::ReportBackwards {
        changes.reverse();
    }
    Ok((cleaned, changes))
}

fn changes(job: &Job, old: &[u8], new: &[u8]) -> Vec<Change> {
    let mut changes = Vec::new();
    let mut place = 0;
    let sections = [
        (job.variables.len(), VARIABLE_BYTES),
        (job.nodes.len(), NODE_BYTES),
        (job.script.len(), RECORD_BYTES),
    ];
    for (section, (records, size)) in sections.into_iter().enumerate() {
        for record in 0..records {
            for byte in 0..size {
                if old[place] != new[place] {
                    changes.push(Change {
                        section,
                        record,
                        byte,
                        old: old[place],
                    });
                }
                place += 1;
            }
        }
    }
    changes
}
