//! The programs for stored jobs against the reference, both streams byte for byte:
//! `clean` and `arrange`.

use reference::clean::Output;
use reference::generate::{self, Case};
use reference::mistake::Mistake;
use reference::{arrange, clean, print, shrink};

use crate::arguments::{fail, Arguments};
use crate::programs;
use crate::progress::Progress;

/// A program, and what it is tried with.
pub struct Tool {
    pub name: &'static str,
    /// The case of a seed.
    pub case: fn(u64) -> Case,
    /// What it must put out.
    pub output: fn(&[u8], Mistake) -> Output,
    /// The mistakes that it shows.
    pub mistakes: &'static [Mistake],
}

/// Mostly jobs with notes in their spare bytes; now and then a damaged one, a
/// clean one, or the greatest job with notes everywhere.
pub const CLEAN: Tool = Tool {
    name: "clean",
    case: |seed| match seed % 500 {
        0 => generate::full_of_notes(seed),
        other if other % 10 == 1 => generate::damaged(seed),
        other if other % 10 == 2 => generate::valid(seed),
        _ => generate::dirty(seed),
    },
    output: clean::output,
    mistakes: &Mistake::CLEANING,
};

/// Mostly jobs with their nodes in any order; now and then a damaged one, one in
/// order, one with notes in its spare bytes, or one with as many nodes as there
/// may be.
pub const ARRANGE: Tool = Tool {
    name: "arrange",
    case: |seed| match seed % 100 {
        0 => generate::shuffled_greatest(seed),
        other if other % 10 == 1 => generate::damaged(seed),
        other if other % 10 == 2 => generate::valid(seed),
        other if other % 20 == 3 => generate::dirty(seed),
        _ => generate::shuffled(seed),
    },
    output: arrange::output,
    mistakes: &Mistake::ARRANGING,
};

/// What the program at `path` puts out for a job on its standard input.
fn put_out(path: &str, job: &[u8]) -> Result<Output, String> {
    let streams = programs::streams(path, job)?;
    Ok(Output {
        standard_output: streams.stdout,
        standard_error: String::from_utf8_lossy(&streams.stderr).into_owned(),
    })
}

/// What became of the jobs.
#[derive(Default)]
struct Counts {
    changed: u64,
    unchanged: u64,
    refused: u64,
    lines: usize,
    most: usize,
}

impl Counts {
    fn add(&mut self, job: &[u8], output: &Output) {
        match &output.standard_output {
            put if put.is_empty() => self.refused += 1,
            put if put == job => self.unchanged += 1,
            _ => {
                let lines = output.standard_error.lines().count();
                self.changed += 1;
                self.lines += lines;
                self.most = self.most.max(lines);
            }
        }
    }
}

impl Tool {
    /// The harness around the program that the command line names.
    ///
    /// Exit status: 0 no difference, 1 a difference, 2 bad usage.
    pub fn main(&self) -> ! {
        let option = format!("--{}", self.name);
        let usage =
            format!("{option} PATH [--jobs N] [--seed N] [--mistake NAME | --each-mistake]");
        let known = [
            option.as_str(),
            "--jobs",
            "--seed",
            "--mistake",
            "--each-mistake",
        ];
        let arguments = Arguments::read(&usage, &known);
        let Some(path) = arguments.text(&option) else {
            fail(&format!("usage: {usage}"));
        };
        let seed = arguments.number("--seed", 0);
        let jobs = arguments.number("--jobs", 20_000);
        println!("seed {seed}");
        let status = match arguments.has("--each-mistake") {
            true => self.each_mistake(path, seed, jobs),
            false => self.compare(path, seed, jobs, arguments.mistake()),
        };
        std::process::exit(status)
    }

    /// Whether the program puts out anything else than the reference with `mistake`.
    fn differs(&self, path: &str, case: &Case, mistake: Mistake) -> bool {
        put_out(path, &case.bytes) != Ok((self.output)(&case.bytes, mistake))
    }

    /// 0 where the program puts out what the reference with `mistake` says.
    fn compare(&self, path: &str, seed: u64, jobs: u64, mistake: Mistake) -> i32 {
        let mut progress = Progress::new(self.name);
        let mut counts = Counts::default();
        for number in seed..seed + jobs {
            let case = (self.case)(number);
            if self.differs(path, &case, mistake) {
                self.report(path, number, &case, mistake);
                return 1;
            }
            counts.add(&case.bytes, &(self.output)(&case.bytes, Mistake::None));
            progress.show(|| format!("{} jobs", number - seed + 1));
        }
        let Counts {
            changed,
            unchanged,
            refused,
            lines,
            most,
        } = counts;
        println!(
            "{jobs} jobs through {}, no difference: {changed} changed, with {lines} lines of report, at most {most}; \
             {unchanged} unchanged; {refused} refused",
            self.name
        );
        if [changed, unchanged, refused].contains(&0) && jobs >= 1_000 {
            println!("no job of one of these kinds came");
            return 1;
        }
        0
    }

    /// 0 where each mistake, planted in the reference, is found.
    fn each_mistake(&self, path: &str, seed: u64, jobs: u64) -> i32 {
        let mut status = 0;
        for &mistake in self.mistakes {
            let shows = |&number: &u64| self.differs(path, &(self.case)(number), mistake);
            match (seed..seed + jobs).find(shows) {
                Some(number) => println!("{mistake:?}: found, seed {number}"),
                None => {
                    println!("{mistake:?}: NOT found");
                    status = 1;
                }
            }
        }
        status
    }

    fn report(&self, path: &str, seed: u64, case: &Case, mistake: Mistake) {
        let small = shrink::case(case, &|case| self.differs(path, case, mistake));
        println!(
            "{} differs from the reference, seed {seed}; the smallest job that shows it",
            self.name
        );
        println!("{}", print::case(&small));
        println!("expected {:?}", (self.output)(&small.bytes, mistake));
        println!("got {:?}", put_out(path, &small.bytes));
    }
}
