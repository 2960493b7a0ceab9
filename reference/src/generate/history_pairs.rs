//! Pairs of histories of the same scripts, from jobs that agree on what is public to
//! a reader.

use super::pairs::{agreeing, aimed, both_finish, levels_for};
use super::{likely_mistake, script};
use crate::history::{kind, Event};
use crate::job::{self, Job, Record};
use crate::mistake::Mistake;
use crate::public;
use crate::random::Random;
use crate::run::{Limits, Monitor, Standing, MAX_PLACES};
use crate::Level;

/// A job and scripts over what it leaves, on two sides.
#[derive(Clone, Debug, PartialEq, Eq)]
pub struct HistoryPair {
    pub reader: Level,
    pub left: Vec<Event>,
    pub right: Vec<Event>,
}

impl HistoryPair {
    /// Whether both sides begin with accepted jobs of the same script that
    /// agree on their public parts, and go on with the same scripts.
    pub fn well_formed(&self) -> bool {
        let ([left, left_scripts @ ..], [right, right_scripts @ ..]) =
            (&self.left[..], &self.right[..])
        else {
            return false;
        };
        let (Ok(left), Ok(right)) = (job::decode(&left.body), job::decode(&right.body)) else {
            return false;
        };
        let plain = |event: &Event| -> Vec<Record> {
            let records = job::records(&event.body);
            records.iter().map(Record::plain).collect()
        };
        let same = |(left, right): (&Event, &Event)| {
            left.kind == kind::SCRIPT && right.kind == kind::SCRIPT && plain(left) == plain(right)
        };
        public::same_script(&left, &right)
            && public::agree(&left, &right, self.reader)
            && left_scripts.len() == right_scripts.len()
            && left_scripts.iter().zip(right_scripts).all(same)
    }
}

/// The pair of histories of a seed.
pub fn history_pair(seed: u64) -> HistoryPair {
    let mut random = Random::new(seed ^ 0x0073_6561_736f_6e00);
    let random = &mut random;
    let (mut left, mut right, reader) = agreeing(random);
    let mut sides = [Standing::of(&left), Standing::of(&right)];
    let mut scripts = Vec::new();
    let count = random.between(2, 4);
    for number in 0..count {
        let last = number + 1 == count;
        let script = some_script(random, &sides, reader, last);
        sides = sides.map(|side| after(&side, &script));
        scripts.push(script);
    }
    left.script = scripts.remove(0);
    right.script = left.script.clone();
    let pair = HistoryPair {
        reader,
        left: events(random, left, &scripts),
        right: events(random, right, &scripts),
    };
    debug_assert!(pair.well_formed());
    pair
}

/// Before the last one, a script that the right monitor finishes on both sides;
/// the last one looks around, mostly as a wrong monitor lets it.
fn some_script(
    random: &mut Random,
    sides: &[Standing; 2],
    reader: Level,
    last: bool,
) -> Vec<Record> {
    let levels = levels_for(sides, reader);
    let mistake = match (last, random.below(3)) {
        (false, _) => Mistake::None,
        (true, 0) => Mistake::CursorStays,
        (true, _) => likely_mistake(random),
    };
    let finishes = &mut |script: &[Record]| both_finish(sides, script, mistake);
    match (last, random.below(4)) {
        (true, 0 | 1) => aimed(random, &levels, finishes, mistake),
        (true, _) => script::looking(random, &levels, finishes),
        (false, 0) => script::short(random, &levels, finishes),
        (false, _) => script::leaving(random, &levels, finishes),
    }
}

/// What stands after a script.
fn after(side: &Standing, script: &[Record]) -> Standing {
    let limits = Limits::ample(400);
    let monitor = Monitor::new(script, side, &limits, Mistake::None);
    monitor.run_to_end(&mut |_, _| {}).1
}

fn events(random: &mut Random, job: Job, scripts: &[Vec<Record>]) -> Vec<Event> {
    let mut events = vec![event(random, kind::JOB, job.encode())];
    for script in scripts {
        events.push(event(random, kind::SCRIPT, job::section(script)));
    }
    events
}

/// Mostly ample limits; now and then tight ones, on one side or other ones on
/// both.
fn event(random: &mut Random, kind: u32, body: Vec<u8>) -> Event {
    let tight = random.chance(1, 12);
    Event {
        kind,
        budget: if tight {
            random.between(0, 30) as u32
        } else {
            2_000
        },
        places: MAX_PLACES as u16 + (tight && random.chance(1, 8)) as u16,
        lines: if tight { random.below(6) as u16 } else { 256 },
        body,
    }
}
