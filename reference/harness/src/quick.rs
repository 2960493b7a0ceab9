//! Outcomes of the fast version, in the reference's form.

use std::cell::RefCell;

use fast::follow::{Lent, Record};
use fast::{Answer, Buffers, Limits, LINE_BYTES};
use reference::ending::Ending;
use reference::generate::Case;
use reference::portal;
use reference::run::{self, Last, Outcome};
use reference::tree::Row;
use reference::Level;

thread_local! {
    static BUFFERS: RefCell<Box<Buffers>> = RefCell::new(Buffers::new());
}

pub fn outcome(case: &Case) -> Outcome {
    BUFFERS.with(|buffers| outcome_in(&mut buffers.borrow_mut(), case))
}

fn outcome_in(buffers: &mut Buffers, case: &Case) -> Outcome {
    job(buffers, &case.bytes, &case.limits).0
}

/// The outcome of a job, and its last variables where it was run.
pub fn job(
    buffers: &mut Buffers,
    bytes: &[u8],
    limits: &run::Limits,
) -> (Outcome, Option<Vec<(Level, i32)>>) {
    let mut area = vec![0; LINE_BYTES * limits.lines];
    let answer = fast::run::run(buffers, bytes, self::limits(limits), &mut area);
    let outcome = whole(answer, &area, buffers);
    let variables = outcome.last.as_ref().map(|last| last.variables.clone());
    (outcome, variables)
}

/// The outcome of a follow-on script over lent records and variables.
pub fn script(
    buffers: &mut Buffers,
    section: &[u8],
    limits: &run::Limits,
    table: &mut [Record],
    variables: &mut [(Level, i32)],
) -> Outcome {
    let mut area = vec![0; LINE_BYTES * limits.lines];
    let (mut levels, mut values): (Vec<Level>, Vec<i32>) = variables.iter().copied().unzip();
    let lent = Lent {
        table,
        levels: &mut levels,
        values: &mut values,
    };
    let answer = fast::follow::follow(buffers, section, limits.budget, lent, &mut area);
    for (variable, pair) in variables.iter_mut().zip(levels.into_iter().zip(values)) {
        *variable = pair;
    }
    whole(answer, &area, buffers)
}

/// Limits in the fast version's form.
pub fn limits(limits: &run::Limits) -> Limits {
    Limits {
        budget: limits.budget,
        places: limits.places,
        variables: limits.variables,
    }
}

fn ending_of(answer: &Answer) -> Ending {
    let is_ending = |ending: &Ending| ending.number() == u32::from(answer.ending);
    Ending::ALL.into_iter().find(is_ending).expect("an ending")
}

/// The answer to a job turned back.
pub fn turned_back(answer: Answer) -> Outcome {
    run::turned_back(ending_of(&answer), answer.index as usize)
}

/// An answer with its lines and the last state.
pub fn whole(answer: Answer, area: &[u8], buffers: &Buffers) -> Outcome {
    let ending = ending_of(&answer);
    let lines = area.chunks_exact(LINE_BYTES).take(answer.lines as usize);
    Outcome {
        ending,
        index: answer.index as usize,
        steps: u64::from(answer.steps),
        lines: lines.map(portal::line_of).collect(),
        last: (!ending.turned_back()).then(|| last(buffers)),
    }
}

fn last(buffers: &Buffers) -> Last {
    let variables = &buffers.variables[..buffers.variable_count];
    let rows = buffers.arena.preorder();
    Last {
        variables: variables.iter().map(|v| (v.level, v.value)).collect(),
        tree: rows
            .iter()
            .map(|(depth, node)| Row {
                depth: *depth,
                existence: node.existence,
                content: node.content,
                list: node.list,
                value: node.value,
            })
            .collect(),
    }
}
