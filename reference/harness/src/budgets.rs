//! The same work under a smaller and a larger budget: calls of a portal, whole
//! outcomes of `replay`, `history` and `rounds`.

use std::collections::BTreeMap;
use std::ops::Range;

use reference::budgets::{broken, histories_broken};
use reference::generate::{self, Case};
use reference::history::{stream, Event};
use reference::portal::LINE_BYTES;
use reference::print;
use reference::run::{Limits, Outcome};

use crate::frame::{self, Frame};
use crate::histories;
use crate::portal::Portal;
use crate::replay::Replay;
use crate::rounds;

/// The ending of a used-up budget.
const SPENT: u64 = 25;

/// What was compared: under the smaller budget another ending than 25, or a 25; and
/// how often the larger budget had more lines.
#[derive(Clone, Copy, Debug, Default)]
pub struct Tally {
    pub same: u64,
    pub spent: u64,
    pub more_lines: u64,
}

impl Tally {
    fn count(&mut self, spent: bool, lines: [u64; 2]) {
        match spent {
            true => self.spent += 1,
            false => self.same += 1,
        }
        self.more_lines += (lines[0] < lines[1]) as u64;
    }

    fn count_outcomes(&mut self, smaller: &Outcome, larger: &Outcome) {
        let lines = [smaller, larger].map(|outcome| outcome.lines.len() as u64);
        self.count(u64::from(smaller.ending.number()) == SPENT, lines);
    }
}

/// A portal's answers and areas for the case of a seed under its two budgets. Both areas
/// hold the same before.
pub fn through_portal(portal: Portal, seed: u64, tally: &mut Tally) -> Result<(), String> {
    let (case, budgets) = generate::raised(seed);
    let before = vec![0xa5; LINE_BYTES * case.limits.lines + seed as usize % LINE_BYTES];
    let [(small, small_area), (large, large_area)] = budgets.map(|budget| {
        let mut area = before.clone();
        (portal.call(&case.bytes, budget, &mut area), area)
    });
    let [lines, more] = [small, large].map(|answer| (answer & 0xffff_ffff) as usize);
    let spent = small >> 32 == SPENT;
    tally.count(spent, [lines as u64, more as u64]);
    let said = LINE_BYTES * lines;
    let holds = match spent {
        false => small == large && small_area == large_area,
        true => lines <= more && small_area[..said] == large_area[..said],
    };
    match holds {
        true => Ok(()),
        false => Err(format!(
            "seed {seed}, budgets {budgets:?}\n{}ending {} and {lines} lines, then ending {} and {more} lines",
            print::case(&case),
            small >> 32,
            large >> 32
        )),
    }
}

/// What one process tells of the cases of some seeds, whole outcomes.
pub fn through_replay(replay: &Replay, seeds: Range<u64>, tally: &mut Tally) -> Result<(), String> {
    let raised: Vec<(Case, [u64; 2])> = seeds.clone().map(generate::raised).collect();
    let frame = |case: &Case, budget: u64| {
        let limits = Limits {
            budget,
            ..case.limits
        };
        Frame::of(&Case {
            bytes: case.bytes.clone(),
            limits,
        })
    };
    let both = |(case, budgets): &(Case, [u64; 2])| budgets.map(|budget| frame(case, budget));
    let frames: Vec<Frame> = raised.iter().flat_map(both).collect();
    let text = replay.run(frame::stream(&frames)).text;
    let told = crate::differential::split_jobs(&text);
    let outcomes = told
        .iter()
        .map(|part| frame::parse(part.split_once('\n')?.1));
    let outcomes: Option<Vec<Outcome>> = outcomes.collect();
    let outcomes = outcomes.filter(|outcomes| outcomes.len() == frames.len());
    let outcomes = outcomes.ok_or(String::from("replay tells no outcome of each job"))?;
    for ((pair, (case, budgets)), seed) in outcomes.chunks(2).zip(&raised).zip(seeds) {
        tally.count_outcomes(&pair[0], &pair[1]);
        if let Some(how) = broken(&pair[0], &pair[1]) {
            return Err(format!(
                "seed {seed}, budgets {budgets:?}: {how}\n{}{}{}",
                print::case(case),
                print::outcome(&pair[0]),
                print::outcome(&pair[1])
            ));
        }
    }
    Ok(())
}

/// The same of jobs with scripts behind them, "up to and including the first 25".
pub fn through_history(
    through: &histories::Through,
    seeds: Range<u64>,
    tally: &mut Tally,
) -> Result<(), String> {
    for seed in seeds {
        let sides = generate::raised_history(seed);
        let told = through.told(&[&sides[0], &sides[1]]);
        let outcomes = |side: usize| -> Option<Vec<Outcome>> {
            let parts = told[side].parts.iter();
            let all: Option<Vec<Outcome>> = parts
                .map(|part| frame::parse(part.split_once('\n')?.1))
                .collect();
            all.filter(|all| all.len() == sides[side].len())
        };
        let (Some(smaller), Some(larger)) = (outcomes(0), outcomes(1)) else {
            return Err(format!(
                "seed {seed}: history tells no outcome of each event"
            ));
        };
        for (small, large) in smaller.iter().zip(&larger) {
            tally.count_outcomes(small, large);
        }
        if let Some((number, how)) = histories_broken(&smaller, &larger) {
            return Err(format!(
                "seed {seed}, event {number}: {how}\nsmaller budgets\n{}larger budgets\n{}{}{}",
                histories::show(&sides[0]),
                histories::show(&sides[1]),
                print::outcome(&smaller[number]),
                print::outcome(&larger[number])
            ));
        }
    }
    Ok(())
}

/// The same of runs that take turns, "each run of R-13 that is taken in under both
/// budgets".
pub fn through_rounds(rounds: &Replay, seeds: Range<u64>, tally: &mut Tally) -> Result<(), String> {
    for seed in seeds {
        let sides = generate::raised_order(seed);
        let [smaller, larger] = [0, 1].map(|side| answered(rounds, &sides[side]));
        let (Some(smaller), Some(larger)) = (smaller, larger) else {
            return Err(format!(
                "seed {seed}: rounds tells no outcome that can be read"
            ));
        };
        for (run, small) in &smaller {
            let Some(large) = larger.get(run) else {
                continue;
            };
            tally.count_outcomes(small, large);
            if let Some(how) = broken(small, large) {
                return Err(format!(
                    "seed {seed}, run {run}: {how}\nsmaller budgets\n{}larger budgets\n{}{}{}",
                    rounds::show(&sides[0]),
                    rounds::show(&sides[1]),
                    print::outcome(small),
                    print::outcome(large)
                ));
            }
        }
    }
    Ok(())
}

/// The outcomes of the runs that ended, by the event that took them in.
fn answered(rounds: &Replay, events: &[Event]) -> Option<BTreeMap<usize, Outcome>> {
    let text = rounds.run(stream(events)).text;
    let mut all = BTreeMap::new();
    let parts = rounds::split(&text);
    if parts.len() != events.len() {
        return None;
    }
    for part in parts {
        let Some((head, block)) = part.split_once("\nending ") else {
            continue;
        };
        // A newcomer that is turned back has no run.
        if let Some((_, run)) = head.split_once("\nrun ") {
            let run = run.split(' ').next()?.parse().ok()?;
            all.insert(run, frame::parse(&format!("ending {block}"))?);
        }
    }
    Some(all)
}
