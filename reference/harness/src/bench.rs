//! One workload on one side: the calls that are timed and counted.

use std::hint::black_box;

use fast::follow::{self, Lent, Record};
use fast::{Answer, Buffers, Limits};

use crate::portal::{Lending, Portal};
use crate::workloads::{Task, Unit, Workload};

#[derive(Clone, Copy, Debug, PartialEq, Eq)]
pub enum Side {
    Ours,
    Fast,
}

pub struct Bench {
    pub portal: Portal,
    buffers: Box<Buffers>,
    /// What is lent to a follow-on script, and the workload that lends it.
    table: Vec<Record>,
    lent: String,
}

impl Bench {
    pub fn new(portal: Portal) -> Bench {
        Bench {
            portal,
            buffers: Buffers::new(),
            table: Vec::new(),
            lent: String::new(),
        }
    }

    /// Whether both sides can do it.
    pub fn can(&self, workload: &Workload) -> bool {
        workload.task == Task::Run || self.portal.follows()
    }

    /// The answer for a call of a workload, with a budget, over an area.
    pub fn call(&mut self, side: Side, workload: &Workload, budget: u64, area: &mut [u8]) -> u64 {
        let job = black_box(&workload.job[..]);
        match (side, workload.task) {
            (Side::Ours, Task::Run) => self.portal.call(job, budget, area),
            (Side::Fast, Task::Run) => fast::entry::portal_in(&mut self.buffers, job, budget, area),
            (_, Task::Follow) => self.follow(side, job, workload, budget, area),
            (_, Task::Write) => self.write(side, workload, area),
        }
    }

    /// The records of a workload, which stay from call to call.
    fn lend(&mut self, workload: &Workload) {
        if self.table.len() != workload.table.len() || self.lent != workload.name {
            self.table = workload.table.clone();
            self.lent = workload.name.clone();
        }
    }

    /// What stands, written as a job.
    fn write(&mut self, side: Side, workload: &Workload, area: &mut [u8]) -> u64 {
        self.lend(workload);
        match side {
            Side::Ours => {
                let lent = Lending {
                    words: words(&mut self.table),
                    levels: &[],
                    values: &mut [],
                };
                self.portal.write(lent, area)
            }
            Side::Fast => fast::write::write(&self.table, &[], &[], area) as u64,
        }
    }

    /// The lent table stays from call to call: a script of no records leaves it.
    fn follow(
        &mut self,
        side: Side,
        section: &[u8],
        workload: &Workload,
        budget: u64,
        area: &mut [u8],
    ) -> u64 {
        self.lend(workload);
        let table = &mut self.table[..];
        match side {
            Side::Ours => {
                let lent = Lending {
                    words: words(table),
                    levels: &[],
                    values: &mut [],
                };
                self.portal.follow(section, budget, lent, area)
            }
            Side::Fast => {
                let lent = Lent {
                    table,
                    levels: &mut [],
                    values: &mut [],
                };
                let answer = follow::follow(&mut self.buffers, section, budget, lent, area);
                number(&answer)
            }
        }
    }

    /// Both sides must give the same answer and the same lines.
    pub fn compare(&mut self, workload: &Workload) {
        let area = vec![0xa5; workload.area];
        let [ours, fast] = [Side::Ours, Side::Fast].map(|side| {
            let mut area = area.clone();
            let answer = self.call(side, workload, workload.budget, &mut area);
            (answer, area)
        });
        assert_eq!(ours, fast, "{}", workload.name);
    }

    /// The steps of a call.
    pub fn steps(&mut self, workload: &Workload) -> u32 {
        if workload.task != Task::Run {
            return 0;
        }
        let limits = Limits {
            budget: workload.budget,
            places: fast::MAX_NODES,
            variables: fast::MAX_VARIABLES,
        };
        let mut area = vec![0; workload.area];
        let answer = fast::run::run(&mut self.buffers, &workload.job, limits, &mut area);
        let wanted = match workload.unit {
            Unit::Step => [0, 25],
            Unit::Call => [0, 9],
        };
        assert!(
            wanted.contains(&answer.ending),
            "{}: {answer:?}",
            workload.name
        );
        answer.steps
    }
}

/// Lent records as plain words.
fn words(table: &mut [Record]) -> &mut [u32] {
    let length = 10 * table.len();
    // SAFETY: a record is ten words, with nothing between them.
    unsafe { std::slice::from_raw_parts_mut(table.as_mut_ptr().cast(), length) }
}

fn number(answer: &Answer) -> u64 {
    crate::portal::answer(u32::from(answer.ending), answer.lines as usize)
}
