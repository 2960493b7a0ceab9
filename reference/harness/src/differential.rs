//! Whole outcomes of `replay`, of a portal and of the fast version, compared
//! with the reference on generated cases.

use std::fmt::{self, Write};
use std::thread;

use reference::coverage::Coverage;
use reference::generate::{self, Case};
use reference::mistake::Mistake;
use reference::portal::{line_bytes, LINE_BYTES};
use reference::run::{self, Limits, Outcome};
use reference::{print, shrink};

use crate::frame::{self, Frame};
use crate::portal::{self, Portal};
use crate::quick;
use crate::replay::{Printed, Replay};

/// What is compared with the reference. A mistake planted into the reference
/// must show as a difference.
pub struct Sides {
    pub replay: Option<Replay>,
    pub portal: Option<Portal>,
    /// Whether the fast version is compared.
    pub fast: bool,
    pub mistake: Mistake,
}

#[derive(Clone, Copy, Debug, PartialEq, Eq)]
pub enum Side {
    Replay,
    Portal,
    Fast,
}

/// Two texts that should be one.
#[derive(Clone, Debug, PartialEq, Eq)]
pub struct Unlike {
    pub expected: String,
    pub got: String,
}

/// A case for which a side differs from the reference.
#[derive(Clone, Debug)]
pub struct Difference {
    pub seed: u64,
    pub side: Side,
    pub case: Case,
    pub unlike: Unlike,
    /// False where the case alone gives no difference.
    pub alone: bool,
}

impl Sides {
    /// Compares the cases of `seeds`, and counts what they reach.
    pub fn batch(
        &self,
        seeds: std::ops::Range<u64>,
        coverage: &mut Coverage,
    ) -> Result<(), Box<Difference>> {
        let cases: Vec<Case> = seeds.clone().map(generate::case).collect();
        let frames: Vec<Frame> = cases
            .iter()
            .zip(seeds.clone())
            .map(|(case, seed)| Frame::varied(case, seed))
            .collect();
        let stream = frame::stream(&frames);
        let replay = self.replay.clone();
        let printed = thread::spawn(move || replay.map(|replay| replay.run(stream)));
        let framed: Vec<Case> = frames.iter().map(Frame::case).collect();
        let mut texts = Vec::new();
        let mut found = Ok(());
        for (seed, case) in seeds.clone().zip(&framed) {
            let outcome = coverage.add(case);
            let outcome = self.planted(outcome, case);
            texts.push(frame::text(&outcome));
            if self.fast {
                found = found
                    .and_then(|()| difference(Side::Fast, seed, case, fast_unlike(case, &outcome)));
            }
        }
        for (seed, case) in seeds.clone().zip(&cases) {
            let unlike = || self.unlike(Side::Portal, case, seed);
            found = found.and_then(|()| difference(Side::Portal, seed, case, unlike()));
        }
        let printed = printed.join().expect("the process was waited for");
        found?;
        match printed {
            Some(printed) => self.compare_printed(seeds.start, &framed, &texts, &printed),
            None => Ok(()),
        }
    }

    /// The outcome that the reference gives with the planted mistake.
    fn planted(&self, outcome: Outcome, case: &Case) -> Outcome {
        match self.mistake {
            Mistake::None => outcome,
            mistake => run::outcome_with(&case.bytes, &case.limits, mistake),
        }
    }

    fn compare_printed(
        &self,
        first: u64,
        cases: &[Case],
        texts: &[String],
        printed: &Printed,
    ) -> Result<(), Box<Difference>> {
        let wanted = |index: usize| frame::heading(index as u64) + &texts[index];
        let whole: String = (0..texts.len()).map(wanted).collect();
        if printed.text == whole && printed.trouble.is_none() {
            return Ok(());
        }
        let got = split_jobs(&printed.text);
        let differs = |&index: &usize| got.get(index) != Some(&wanted(index));
        let index = (0..texts.len()).find(differs).unwrap_or(texts.len() - 1);
        let mut text = got.get(index).cloned().unwrap_or_default();
        if let Some(trouble) = &printed.trouble {
            text += &format!("({trouble})\n");
        }
        let alone = self.unlike(Side::Replay, &cases[index], 0).is_some();
        Err(Box::new(Difference {
            seed: first + index as u64,
            side: Side::Replay,
            case: cases[index].clone(),
            unlike: Unlike {
                expected: wanted(index),
                got: text,
            },
            alone,
        }))
    }

    /// The difference that a case gives by itself.
    pub fn unlike(&self, side: Side, case: &Case, seed: u64) -> Option<Unlike> {
        let outcome = |case: &Case| run::outcome_with(&case.bytes, &case.limits, self.mistake);
        match side {
            Side::Fast => fast_unlike(case, &outcome(case)),
            Side::Portal => {
                let portal = self.portal?;
                let call = |job: &[u8], budget, area: &mut [u8]| portal.call(job, budget, area);
                portal_unlike(&call, case, spare(seed), self.mistake)
            }
            Side::Replay => {
                let frame = Frame::of(case);
                let expected = frame::heading(0) + &frame::text(&outcome(&frame.case()));
                let printed = self.replay.as_ref()?.run(frame::stream(&[frame]));
                unlike_printed(expected, printed)
            }
        }
    }

    /// The smallest case that still gives the difference.
    pub fn smallest(&self, difference: &Difference) -> Difference {
        if !difference.alone {
            return difference.clone();
        }
        let failing = |case: &Case| {
            self.unlike(difference.side, case, difference.seed)
                .is_some()
        };
        let case = shrink::case(&difference.case, &failing);
        let unlike = self.unlike(difference.side, &case, difference.seed);
        Difference {
            case,
            unlike: unlike.expect("the smallest case fails too"),
            ..difference.clone()
        }
    }

    /// Streams whose last frame is cut, after none, one or two whole ones;
    /// gives their number.
    pub fn truncations(&self, seed: u64) -> Result<usize, Unlike> {
        let Some(replay) = &self.replay else {
            return Ok(0);
        };
        let case = |seed: u64| Frame::of(&generate::valid(seed));
        let mut long = case(seed);
        long.job.resize(30_000, 0);
        let mut tried = 0;
        for (whole, last) in [(0, case(seed)), (1, case(seed + 7)), (2, long)] {
            let frames: Vec<Frame> = (0..whole).map(|place| case(seed + place)).collect();
            let start = frame::stream(&frames);
            let mut text = String::new();
            for (number, frame) in frames.iter().enumerate() {
                let case = frame.case();
                let outcome = run::outcome_with(&case.bytes, &case.limits, self.mistake);
                text += &(frame::heading(number as u64) + &frame::text(&outcome));
            }
            let end = frame::stream(&[last]);
            let cuts = [
                0,
                1,
                3,
                4,
                8,
                11,
                12,
                13,
                end.len() / 2,
                23_060,
                23_061,
                end.len() - 1,
            ];
            for cut in cuts.into_iter().filter(|&cut| cut < end.len()) {
                let input = [&start[..], &end[..cut]].concat();
                let expected = match cut {
                    0 => text.clone(),
                    _ => text.clone() + frame::TRUNCATED,
                };
                if let Some(mut unlike) = unlike_printed(expected, replay.run(input)) {
                    write!(unlike.got, "(the last frame cut after {cut} bytes)").unwrap();
                    return Err(unlike);
                }
                tried += 1;
            }
        }
        Ok(tried)
    }

    /// What `replay` prints for each of the frames, without the headings.
    pub fn replayed(&self, frames: &[Frame]) -> Vec<String> {
        let Some(replay) = &self.replay else {
            return Vec::new();
        };
        let printed = replay.run(frame::stream(frames));
        let jobs = split_jobs(&printed.text).into_iter();
        jobs.map(|job| {
            job.split_once('\n')
                .map_or(String::new(), |(_, rest)| rest.into())
        })
        .collect()
    }
}

/// The texts as a difference, where there are any.
fn difference(
    side: Side,
    seed: u64,
    case: &Case,
    unlike: Option<Unlike>,
) -> Result<(), Box<Difference>> {
    match unlike {
        None => Ok(()),
        Some(unlike) => Err(Box::new(Difference {
            seed,
            side,
            case: case.clone(),
            unlike,
            alone: true,
        })),
    }
}

impl fmt::Display for Difference {
    fn fmt(&self, f: &mut fmt::Formatter) -> fmt::Result {
        let side = match self.side {
            Side::Replay => "replay",
            Side::Portal => "the portal",
            Side::Fast => "the fast version",
        };
        writeln!(f, "{side} differs from the reference, seed {}", self.seed)?;
        if !self.alone {
            writeln!(f, "only after the jobs before it; by itself it does not")?;
        }
        let Unlike { expected, got } = &self.unlike;
        write!(
            f,
            "{}expected\n{expected}got\n{got}",
            print::case(&self.case)
        )
    }
}

/// Bytes at the end of an area that are no line: 0 to 4.
pub fn spare(seed: u64) -> usize {
    (seed / 5 % 5) as usize
}

fn fast_unlike(case: &Case, expected: &Outcome) -> Option<Unlike> {
    let got = quick::outcome(case);
    (got != *expected).then(|| Unlike {
        expected: print::outcome(expected),
        got: print::outcome(&got),
    })
}

fn unlike_printed(expected: String, printed: Printed) -> Option<Unlike> {
    if printed.text == expected && printed.trouble.is_none() {
        return None;
    }
    let mut got = printed.text;
    if let Some(trouble) = printed.trouble {
        got += &format!("({trouble})\n");
    }
    Some(Unlike { expected, got })
}

/// The parts of an output that begin with a line `job K`.
pub fn split_jobs(text: &str) -> Vec<String> {
    let mut jobs: Vec<String> = Vec::new();
    for line in text.split_inclusive('\n') {
        if line.starts_with("job ") || jobs.is_empty() {
            jobs.push(String::new());
        }
        jobs.last_mut().expect("not empty").push_str(line);
    }
    jobs
}

/// Bytes before and after an area that nobody may write.
const MARGIN: usize = 64;

/// A pattern that differs from place to place.
fn pattern(length: usize) -> Vec<u8> {
    (0..length).map(|place| (place * 151 + 89) as u8).collect()
}

/// A portal as a function: job, budget, area.
pub type Call<'a> = &'a dyn Fn(&[u8], u64, &mut [u8]) -> u64;

/// A call of a portal, compared with the reference: the answer, and each byte
/// of the area and around it. Neither the job nor the area need be aligned:
/// both stand `spare` bytes further than they would.
pub fn portal_unlike(call: Call, case: &Case, spare: usize, mistake: Mistake) -> Option<Unlike> {
    let length = LINE_BYTES * case.limits.lines + spare;
    let limits = Limits {
        lines: length / LINE_BYTES,
        ..Limits::ample(case.limits.budget)
    };
    let outcome = run::outcome_with(&case.bytes, &limits, mistake);
    let start = MARGIN + spare;
    let mut wanted = pattern(start + length + MARGIN);
    let mut area = wanted.clone();
    for (line, bytes) in outcome
        .lines
        .iter()
        .zip(wanted[start..].chunks_exact_mut(LINE_BYTES))
    {
        bytes.copy_from_slice(&line_bytes(line));
    }
    let wanted_answer = portal::answer(outcome.ending.number(), outcome.lines.len());
    let job = [&vec![0; spare], &case.bytes[..]].concat();
    let lent = &mut area[start..start + length];
    let answer = call(&job[spare..], case.limits.budget, lent);
    if answer == wanted_answer && area == wanted {
        return None;
    }
    let text = |answer: u64, area: &[u8]| {
        let (ending, lines) = (answer >> 32, answer as u32);
        let mut text = format!("ending {ending} lines {lines}, an area of {length} bytes\n");
        let differing = (0..area.len()).filter(|&place| area[place] != wanted[place]);
        for place in differing.take(8) {
            let at = place as isize - start as isize;
            writeln!(text, "byte {at} is {}, not {}", area[place], wanted[place]).unwrap();
        }
        text
    };
    Some(Unlike {
        expected: text(wanted_answer, &wanted),
        got: text(answer, &area),
    })
}
