//! Notes in bytes that nobody reads: in one, in some or in all of them, of
//! a valid case or of a damaged one.

use super::{damaged, valid, valid_job, Case};
use crate::job::{command, split, Job, Node, Record, Rows, Variable};
use crate::job::{FIRST_READS, MAX_NODES, MAX_RECORDS, MAX_VARIABLES, READS};
use crate::mistake::Mistake;
use crate::random::Random;
use crate::run::Limits;
use crate::source::{house_variable, node, nothing, root_node};
use crate::HOUSE;

/// The case of a seed with notes in its spare bytes, or none where it has none.
pub fn dirty(seed: u64) -> Case {
    let mut random = Random::new(seed ^ 0x0064_6972_7479);
    let case = match random.below(5) {
        0 | 1 => damaged(seed),
        2 => valid(seed),
        _ => stored(&mut random),
    };
    // A damaged case may have no sections to write in.
    let Ok(mut job) = split(&case.bytes) else {
        return case;
    };
    let share = random.pick(&[1, 1, 1, 8, 64, 256]);
    let rows = random.pick(&[&READS, &FIRST_READS]);
    annotate(&mut random, &mut job, rows, share);
    if random.chance(1, 4) {
        annotate_one(&mut random, &mut job);
    }
    Case {
        bytes: job.encode(),
        ..case
    }
}

/// The greatest job, with a note in every byte that nobody reads: a cleaner has
/// more than ten thousand changes to print.
pub fn full_of_notes(seed: u64) -> Case {
    let mut random = Random::new(seed);
    let (some, limits) = stored_job(&mut random);
    let mut job = Job {
        variables: vec![house_variable(1); MAX_VARIABLES],
        nodes: vec![node(0, [0, 0, 0], 1); MAX_NODES],
        script: vec![nothing(); MAX_RECORDS],
    };
    job.nodes[0] = root_node([0, 0, 0], 1);
    job.script[..some.script.len()].copy_from_slice(&some.script);
    annotate(&mut random, &mut job, &FIRST_READS, 256);
    Case {
        bytes: job.encode(),
        limits: Limits {
            variables: MAX_VARIABLES,
            places: MAX_NODES,
            ..limits
        },
    }
}

/// A valid case that the cleaner does not turn back.
fn stored(random: &mut Random) -> Case {
    let (job, limits) = stored_job(random);
    Case {
        bytes: job.encode(),
        limits,
    }
}

/// A job with no command and no level that came after the cleaner.
fn stored_job(random: &mut Random) -> (Job, Limits) {
    loop {
        let (job, limits) = valid_job(random);
        let known = |record: &Record| usize::from(record.command) < command::FIRST_COUNT;
        let plain_variable = |variable: &Variable| variable.level <= HOUSE;
        let plain_node = |node: &Node| (node.existence | node.content | node.list) <= HOUSE;
        if job.script.iter().all(known)
            && job.variables.iter().all(plain_variable)
            && job.nodes.iter().all(plain_node)
        {
            return (job, limits);
        }
    }
}

/// A note in `share` of 256 bytes that are spare by the rows of a day.
fn annotate(random: &mut Random, job: &mut Job, rows: &Rows, share: usize) {
    let plain = job.plain(rows, Mistake::None);
    let mut note = || match random.below(256) < share {
        true => random.between(1, 255) as u8,
        false => 0,
    };
    for variable in &mut job.variables {
        variable.spare = [note(), note(), note()];
    }
    for node in &mut job.nodes {
        node.spare = [note(), note(), note()];
    }
    for (record, plain) in job.script.iter_mut().zip(&plain.script) {
        let notes = Record {
            command: 0,
            target: note(),
            operator: note(),
            left_kind: note(),
            right_kind: note(),
            sets: [note(), note()],
            spare: note(),
            left: u32::from_le_bytes([note(), note(), note(), note()]),
            right: u32::from_le_bytes([note(), note(), note(), note()]),
        };
        *record = plain.over_by(rows, &notes);
    }
}

/// A note in one record of the script, which may be the only one.
fn annotate_one(random: &mut Random, job: &mut Job) {
    if job.script.is_empty() {
        return;
    }
    let place = random.below(job.script.len());
    let record = &mut job.script[place];
    let mut notes = Record::default();
    match random.below(7) {
        0 => notes.target = 1,
        1 => notes.operator = 1,
        2 => notes.left_kind = 1,
        3 => notes.right_kind = 1,
        4 => match random.below(3) {
            2 => notes.spare = 1,
            place => notes.sets[place] = 1,
        },
        5 => notes.left = 1 << (8 * random.below(4)),
        _ => notes.right = 1 << (8 * random.below(4)),
    }
    *record = record.plain().over(&notes);
}
