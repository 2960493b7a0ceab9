//! Many scripts under one roof: runs that take turns, and the events of the
//! `rounds` program.

use std::collections::VecDeque;

use crate::ending::Ending;
use crate::history::Event;
use crate::mistake::Mistake;
use crate::run::{self, Limits, Monitor, Outcome, State};
use crate::tree::Path;
use crate::PUBLIC;

/// "Up to eight runs".
pub const MAX_RUNS: usize = 8;

/// "take turns in a circle, each of 5,000 steps".
pub const TURN_STEPS: u64 = 5_000;

/// Kinds of events.
pub mod kind {
    pub const NEWCOMER: u32 = 0;
    pub const TURN: u32 = 1;
}

/// What must come of an event.
#[derive(Clone, Debug, PartialEq, Eq)]
pub enum Reply {
    /// A newcomer that joins.
    Taken,
    TurnedBack(Outcome),
    /// A turn where there is no run.
    Idle,
    /// A turn of the run that came with the event of number `run`.
    Turn {
        run: usize,
        took: u64,
        /// "the turn that ends it hands back its answer"
        ended: Option<Outcome>,
    },
    /// Of an event of no kind.
    Unknown,
}

/// An unended run.
struct Active {
    /// The event by which it came.
    name: usize,
    monitor: Monitor<'static>,
}

/// The unended runs, the one whose turn is next first.
pub struct Roof {
    circle: VecDeque<Active>,
    /// How many events there were.
    events: usize,
    mistake: Mistake,
    /// Places that a wrong roof has lost.
    lost: usize,
}

impl Roof {
    /// "from an empty roof"
    pub fn new(mistake: Mistake) -> Roof {
        Roof {
            circle: VecDeque::new(),
            events: 0,
            mistake,
            lost: 0,
        }
    }

    /// How many runs are unended.
    pub fn unended(&self) -> usize {
        self.circle.len()
    }

    /// What stands of the run whose turn comes last.
    pub fn last(&self) -> Option<&State> {
        self.circle.back().map(|run| &run.monitor.state)
    }

    pub fn expect(&mut self, event: &Event) -> Reply {
        let name = self.events;
        self.events += 1;
        match event.kind {
            kind::NEWCOMER => self.newcomer(name, &event.body, &event.limits()),
            kind::TURN => self.turn(),
            _ => Reply::Unknown,
        }
    }

    /// "15, a newcomer while eight runs are unended, checked before the job is read";
    /// "a newcomer joins at the back"; "A newcomer whose job is turned back takes no place."
    fn newcomer(&mut self, name: usize, job: &[u8], limits: &Limits) -> Reply {
        let most = match self.mistake {
            Mistake::NineRuns => MAX_RUNS + 1,
            _ => MAX_RUNS,
        };
        let full = self.circle.len() + self.lost >= most;
        let read_first = self.mistake == Mistake::JobReadBefore15;
        if full && !read_first {
            return Reply::TurnedBack(run::turned_back(Ending::NoPlace, 0));
        }
        let monitor = match run::admitted(job, limits, self.mistake) {
            Ok(monitor) => monitor,
            Err(outcome) => {
                self.lost += (self.mistake == Mistake::TurnedBackTakesAPlace) as usize;
                return Reply::TurnedBack(outcome);
            }
        };
        if full {
            return Reply::TurnedBack(run::turned_back(Ending::NoPlace, 0));
        }
        let run = Active { name, monitor };
        match self.mistake {
            Mistake::NewcomerToTheFront => self.circle.push_front(run),
            _ => self.circle.push_back(run),
        }
        Reply::Taken
    }

    /// "each of 5,000 steps, or fewer only where the run ends; a run at its script's
    /// end or budget after its turn's last step ends in that turn"
    fn turn(&mut self) -> Reply {
        let Some(mut run) = self.circle.pop_front() else {
            return Reply::Idle;
        };
        let before = run.monitor.state.steps;
        let ended = self.steps_of_a_turn(&mut run.monitor);
        let steps = run.monitor.state.steps;
        let reply = |ended| Reply::Turn {
            run: run.name,
            took: match self.mistake {
                Mistake::TookIsSteps => steps,
                _ => steps - before,
            },
            ended,
        };
        let Some(how) = ended else {
            let reply = reply(None);
            match self.mistake {
                Mistake::UnendedToTheFront => self.circle.push_front(run),
                _ => self.circle.push_back(run),
            }
            return reply;
        };
        let reply = reply(Some(run.monitor.ended(how).0));
        self.lost += (self.mistake == Mistake::PlaceNotUsedAgain) as usize;
        reply
    }

    /// How a run ended in its turn, if it did.
    fn steps_of_a_turn(&self, monitor: &mut Monitor<'static>) -> Option<(Ending, usize)> {
        let before = monitor.state.steps;
        let most = match self.mistake {
            Mistake::TurnOf4999 => TURN_STEPS - 1,
            _ => TURN_STEPS,
        };
        match self.mistake {
            Mistake::TurnStartsAtTheRoot => monitor.state.cursor = Path::new(),
            Mistake::TurnForgetsGuards => monitor.state.guards.fill(PUBLIC),
            Mistake::TurnForgetsLines => monitor.state.lines.clear(),
            Mistake::TurnHasTheBudget => monitor.limits.budget += before,
            _ => {}
        }
        let ended = monitor.go_on(most, &mut |_, _| {});
        let whole = monitor.state.steps - before == most;
        match (self.mistake, ended) {
            (Mistake::EndsATurnLate, Some((Ending::Finished, _))) if whole => None,
            (Mistake::SpentATurnLate, Some((Ending::BudgetUsed, _))) if whole => None,
            (Mistake::StopsATurnEarly, None) => {
                let steps = monitor.state.steps;
                let mut next = monitor.clone();
                let ended = next.go_on(1, &mut |_, _| {});
                ended.filter(|_| next.state.steps == steps)
            }
            _ => ended,
        }
    }
}
