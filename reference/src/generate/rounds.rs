//! Orders of newcomers and turns, from an empty roof to an empty roof.

use super::{damaged, dirty, levels, script, shuffled, trial_ending, valid_job, Case};
use crate::ending::Ending;
use crate::history::Event;
use crate::job::{Record, MAX_BYTES};
use crate::mistake::Mistake;
use crate::random::Random;
use crate::rounds::{kind, Roof, MAX_RUNS};
use crate::run::{Limits, Standing, MAX_BUDGET, MAX_PLACES};
use crate::source::*;
use crate::HOUSE;

/// The order of a seed.
pub fn order(seed: u64) -> Vec<Event> {
    let mut random = Random::new(seed ^ 0x0072_6f75_6e64_7321);
    let mut writer = Writer {
        random: &mut random,
        roof: Roof::new(Mistake::None),
        events: Vec::new(),
    };
    if writer.random.chance(1, 4) {
        for _ in 0..writer.random.between(MAX_RUNS, MAX_RUNS + 3) {
            writer.newcomer();
        }
    }
    for _ in 0..writer.random.between(1, 12) {
        match writer.random.weighted(&[7, 6, 2, 1]) {
            0 => writer.newcomer(),
            1 => writer.turn(),
            2 => writer.turns(),
            _ => writer.odd_event(),
        }
    }
    while writer.roof.unended() > 0 {
        writer.turn();
    }
    writer.events
}

/// Steps at which something is to happen: mostly the edges of turns.
const EDGES: [u64; 9] = [
    5_000, 5_000, 5_000, 10_000, 10_000, 4_999, 5_001, 9_999, 10_001,
];

struct Writer<'a> {
    random: &'a mut Random,
    roof: Roof,
    events: Vec<Event>,
}

impl Writer<'_> {
    fn push(&mut self, event: Event) {
        self.roof.expect(&event);
        self.events.push(event);
    }

    /// What a turn has besides its kind means nothing.
    fn turn(&mut self) {
        let body = match self.random.below(50) {
            0 => vec![7; self.random.pick(&[1, 16, 40, 70_000])],
            _ => Vec::new(),
        };
        let budget = self.random.pick(&[0, 0, 1, 100]);
        self.push(Event {
            kind: kind::TURN,
            budget,
            body,
            ..Event::default()
        });
    }

    /// Some turns, while there is a run.
    fn turns(&mut self) {
        for _ in 0..self.random.between(2, 9) {
            if self.roof.unended() > 0 {
                self.turn();
            }
        }
    }

    fn odd_event(&mut self) {
        let kind = self.random.pick(&[2, 3, 4, 5, 256, u32::MAX]);
        let body = vec![1; self.random.pick(&[0, 1, 8, 16, 30_000])];
        self.push(Event {
            kind,
            budget: 100,
            places: 512,
            lines: 256,
            body,
        });
    }

    fn newcomer(&mut self) {
        let case = match self.random.weighted(&[8, 4, 1, 3, 1, 1]) {
            0 => self.short(),
            1 => self.refused(),
            2 => self.empty(),
            3 => self.counted(),
            4 => self.endless(),
            _ => self.busy(),
        };
        let Limits {
            budget,
            places,
            lines,
            ..
        } = case.limits;
        self.push(Event {
            kind: kind::NEWCOMER,
            budget: u32::try_from(budget).unwrap_or(u32::MAX),
            places: u16::try_from(places).unwrap_or(u16::MAX),
            lines: u16::try_from(lines).unwrap_or(u16::MAX),
            body: case.bytes,
        });
    }

    /// Any accepted job, with a budget that does not keep everybody waiting.
    fn short(&mut self) -> Case {
        let (job, mut limits) = valid_job(self.random);
        limits.budget = limits.budget.min(6_000);
        Case {
            bytes: job.encode(),
            limits,
        }
    }

    /// A job that some check turns back, mostly.
    fn refused(&mut self) -> Case {
        let seed = self.random.draw();
        let mut case = match self.random.below(4) {
            0 => dirty(seed),
            1 => shuffled(seed),
            _ => damaged(seed),
        };
        match self.random.below(12) {
            0 => case.limits.budget = self.random.pick(&[0, MAX_BUDGET + 1, 1 << 40]),
            1 => case.limits.places = self.random.pick(&[0, 513, 514, 65_535]),
            2 => {
                let length = self
                    .random
                    .pick(&[MAX_BYTES + 1, MAX_BYTES + 2, 30_000, 70_000]);
                case.bytes.resize(length, self.random.byte());
            }
            _ => {}
        }
        if case.limits.budget <= MAX_BUDGET {
            case.limits.budget = case.limits.budget.min(6_000);
        }
        case
    }

    /// "An empty script takes a place and ends in its first turn."
    fn empty(&mut self) -> Case {
        let (mut job, limits) = valid_job(self.random);
        job.script.clear();
        Case {
            bytes: job.encode(),
            limits,
        }
    }

    /// A job that has made so many steps, mostly as many as turns have, when
    /// something happens: its end, a stop, its budget's end, or only more steps.
    fn counted(&mut self) -> Case {
        let steps = match self.random.below(8) {
            0 => self.random.between(50, 12_000) as u64,
            _ => self.random.pick(&EDGES),
        };
        let guarded = self.random.chance(1, 4);
        let (before, opened) = self.opening(guarded);
        // The blocks are closed before the edge, where their ends are steps too, or behind it.
        let closing = vec![end(); opened];
        let (inside, behind) = match self.random.chance(1, 2) {
            true => (closing, Vec::new()),
            false => (Vec::new(), closing),
        };
        let counted = count(steps - inside.len() as u64, before, guarded);
        let script = match self.random.chance(1, 2) {
            true => [counted, inside, behind, self.sequel()].concat(),
            false => [counted, inside, self.sequel(), behind].concat(),
        };
        let nodes = [
            root_node([0, 0, 1], 10),
            node(0, [0, 0, 0], 3),
            node(0, [0, 0, 1], 5),
        ];
        let variables = [public_variable(0), house_variable(0), house_variable(1)];
        let budget = self.random.pick(&[
            steps,
            steps,
            steps - 1,
            steps + 1,
            5_000,
            10_000,
            20_000,
            MAX_BUDGET,
        ]);
        Case {
            bytes: job(&variables, &nodes, &script).encode(),
            limits: Limits {
                budget,
                places: self.random.pick(&[3, 4, MAX_PLACES]),
                lines: self.random.pick(&[0, 1, 2, 256]),
                ..Limits::ample(budget)
            },
        }
    }

    /// Records that are a step each, and how many blocks they leave open.
    fn opening(&mut self, guarded: bool) -> (Vec<Record>, usize) {
        let mut records = Vec::new();
        let mut opened = 0;
        if self.random.chance(1, 3) {
            records.push(print(value()));
        }
        if self.random.chance(1, 2) {
            records.push(first_child());
        }
        if self.random.chance(1, 3) {
            records.push(new_first_child(self.random.below(4) as u8, 7));
            // Gone again, or not.
            records.extend(self.random.chance(1, 2).then(remove_first_child));
        }
        if self.random.chance(1, 3) {
            records.push(cover());
        }
        for _ in 0..self.random.below(3) {
            records.push(
                self.random
                    .pick(&[when(1), come_back(1), come_back(value())]),
            );
            opened += 1;
        }
        if guarded {
            records.push(
                self.random
                    .pick(&[when(variable(2)), come_back(variable(2))]),
            );
            opened += 1;
        }
        (records, opened)
    }

    /// What comes behind the edge.
    fn sequel(&mut self) -> Vec<Record> {
        let stops = [
            up(),
            right_sibling(),
            assign(0, variable(2)),
            print(variable(1)),
            assign(0, sum(constant(i32::MAX), constant(1))),
            new_first_child(0, 1),
            print(constant(7)),
        ];
        match self.random.below(6) {
            0 | 1 => Vec::new(),
            2 | 3 => vec![self.random.pick(&stops)],
            4 => vec![
                print(variable(0)),
                print(value()),
                set_value(1),
                root(),
                up(),
            ],
            _ => vec![
                first_child(),
                print(children()),
                remove_first_child(),
                nothing(),
            ],
        }
    }

    /// A loop that ends by its budget, if not by a stop.
    fn endless(&mut self) -> Case {
        let (mut job, mut limits) = valid_job(self.random);
        let standing = Standing::of(&job);
        let goes_on = &mut |script: &[Record]| {
            let ending = trial_ending(&standing, script, Mistake::None);
            ![Ending::Rule, Ending::Missing, Ending::OutOfRange].contains(&ending)
        };
        job.script = script::endless(self.random, &levels(&job.variables), goes_on);
        limits.budget = match self.random.below(4) {
            0 => self.random.between(1, 20_000) as u64,
            _ => self.random.pick(&EDGES),
        };
        Case {
            bytes: job.encode(),
            limits,
        }
    }

    /// A loop that prints, or that inserts, until there is no room; now and then with
    /// all the budget that there is.
    fn busy(&mut self) -> Case {
        let body = match self.random.below(4) {
            0 => vec![print(sum(value(), variable(0)))],
            1 => vec![new_first_child(1, 4), first_child()],
            2 => vec![print_for(HOUSE, variable(1)), set_value(variable(0))],
            _ => vec![
                new_first_child(2, 4),
                come_back(1),
                first_child(),
                remove_first_child(),
                end(),
            ],
        };
        let count = [assign(0, sum(variable(0), constant(1)))];
        let script = [&[repeat(1)][..], &count, &body, &[end()]].concat();
        let budget = match self.random.below(60) {
            0 => 100_000,
            _ => self.random.between(4_000, 16_000) as u64,
        };
        Case {
            bytes: job(
                &[public_variable(0), house_variable(1)],
                &[root_node([0, 0, 0], 10)],
                &script,
            )
            .encode(),
            limits: Limits {
                lines: self.random.pick(&[300, 1_024, 1_025, 2_000, 65_535]),
                places: self.random.pick(&[100, MAX_PLACES]),
                ..Limits::ample(budget)
            },
        }
    }
}

/// Records of a step each, and a loop and more records behind them that bring the
/// steps to so many: three for each turn of the loop, one for its last guard.
fn count(steps: u64, before: Vec<Record>, guarded: bool) -> Vec<Record> {
    let counter = if guarded { 1 } else { 0 };
    let left = steps.saturating_sub(before.len() as u64 + 1);
    let mut script = before;
    script.extend([
        repeat(less(variable(counter), constant((left / 3) as i32))),
        assign(counter, sum(variable(counter), constant(1))),
        end(),
    ]);
    script.extend(vec![nothing(); (left % 3) as usize]);
    script
}
