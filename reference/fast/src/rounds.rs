//! Runs that take turns: eight buffers, made once, and a queue of them.

use crate::run::{admit, go_on, Paused};
use crate::{ending, Answer, Buffers, Limits};

pub const MAX_RUNS: usize = 8;
pub const TURN_STEPS: u32 = 5_000;

/// One of the eight places.
pub struct Place {
    pub buffers: Box<Buffers>,
    /// Five bytes for each line.
    pub area: Vec<u8>,
    /// By which the caller knows the run.
    pub name: u64,
    paused: Paused,
    budget: u32,
    left: u32,
    places: usize,
}

pub struct Roof {
    pub places: [Place; MAX_RUNS],
    /// The unended runs, the one whose turn is next first; free places behind.
    order: [usize; MAX_RUNS],
    unended: usize,
}

/// A turn: the place, the steps, and the answer where the run has ended.
pub struct Turn {
    pub place: usize,
    pub took: u32,
    pub ended: Option<Answer>,
}

impl Roof {
    pub fn new() -> Roof {
        let place = |_| Place {
            buffers: Buffers::new(),
            area: Vec::new(),
            name: 0,
            paused: Paused::default(),
            budget: 0,
            left: 0,
            places: 0,
        };
        Roof {
            places: std::array::from_fn(place),
            order: std::array::from_fn(|place| place),
            unended: 0,
        }
    }

    /// Nothing where a place is taken, else why the newcomer is turned back.
    pub fn newcomer(
        &mut self,
        name: u64,
        job: &[u8],
        limits: Limits,
        area: usize,
    ) -> Option<Answer> {
        if self.unended == MAX_RUNS {
            return Some(Answer::turned_back(ending::NO_PLACE, 0));
        }
        let place = &mut self.places[self.order[self.unended]];
        if let Err(answer) = admit(&mut place.buffers, job, limits) {
            return Some(answer);
        }
        place.area.clear();
        place.area.resize(area, 0);
        place.name = name;
        place.paused = Paused::default();
        place.budget = limits.budget as u32;
        place.left = place.budget;
        place.places = limits.places;
        self.unended += 1;
        None
    }

    /// Nothing where there is no run.
    pub fn turn(&mut self) -> Option<Turn> {
        if self.unended == 0 {
            return None;
        }
        let place = self.order[0];
        let run = &mut self.places[place];
        let most = run.left.min(TURN_STEPS);
        let Place {
            buffers,
            area,
            paused,
            ..
        } = run;
        let answer = go_on(buffers, paused, most, run.places, area);
        let took = answer.steps;
        run.left -= took;
        self.order[..self.unended].rotate_left(1);
        let unended = answer.ending == ending::BUDGET_USED && run.left > 0;
        let ended = (!unended).then_some(Answer {
            steps: run.budget - run.left,
            ..answer
        });
        self.unended -= ended.is_some() as usize;
        Some(Turn { place, took, ended })
    }
}

impl Default for Roof {
    fn default() -> Roof {
        Roof::new()
    }
}
