//! What turning costs: eight long runs in turns through `rounds`, against the same
//! jobs one after the other, each with all its turns before the next comes. Beside that the
//! same jobs through `replay`, another program, whose loop of steps is compiled by itself.

use reference::history::{stream as events, Event};
use reference::rounds::{kind, MAX_RUNS, TURN_STEPS};

use crate::clock::{self, median, ratio};
use crate::frame::{self, Frame};
use crate::instructions;
use crate::replay::Replay;
use crate::workloads::{self, Workload};

/// The name of the rows.
pub const NAME: &str = "8 runs of 1,000,000 steps in turns";

const STEPS: u32 = 1_000_000;

/// The inputs of `rounds`, in turns and one after the other, and that of `replay`.
struct Inputs {
    name: String,
    turns: Vec<u8>,
    alone: Vec<u8>,
    frames: Vec<u8>,
}

impl Inputs {
    fn new(workload: Workload) -> Inputs {
        let newcomer = Event {
            kind: kind::NEWCOMER,
            budget: STEPS,
            places: 512,
            lines: 0,
            body: workload.job.clone(),
        };
        let turn = Event {
            kind: kind::TURN,
            ..Event::default()
        };
        let own = vec![turn; (STEPS / TURN_STEPS as u32) as usize];
        let frame = Frame {
            job: workload.job,
            budget: STEPS,
            places: 512,
            lines: 0,
        };
        Inputs {
            name: workload.name,
            turns: [
                vec![events(&[newcomer.clone()]); MAX_RUNS],
                vec![events(&own); MAX_RUNS],
            ]
            .concat()
            .concat(),
            alone: vec![events(&[vec![newcomer], own].concat()); MAX_RUNS].concat(),
            frames: frame::stream(&vec![frame; MAX_RUNS]),
        }
    }

    /// Both programs must tell the same outcome of all eight.
    fn compare(&self, rounds: &Replay, replay: &Replay) {
        let frames = replay.run(self.frames.clone()).text;
        let outcome = frames
            .split("job ")
            .nth(1)
            .and_then(|job| job.split_once('\n'));
        let outcome = outcome.expect("replay tells an outcome").1;
        for input in [&self.turns, &self.alone] {
            let told = rounds.run(input.clone()).text.matches(outcome).count();
            assert_eq!(told, MAX_RUNS, "{}: rounds and replay differ", self.name);
        }
    }
}

/// The same for a short loop and for one that goes over all of a full table.
fn inputs() -> [Inputs; 2] {
    workloads::long_runs().map(Inputs::new)
}

fn programs(rounds: &str, replay: &str) -> [Replay; 2] {
    [rounds, replay].map(|path| Replay { path: path.into() })
}

/// The head of a table.
fn head(what: &str) {
    println!(
        "\n| {NAME}{what} | in turns | one after the other | ratio | through replay | ratio |"
    );
    println!("|---|---:|---:|---:|---:|---:|");
}

/// Milliseconds, and the ratios.
pub fn timed(rounds: &str, replay: &str, repetitions: usize) {
    let [rounds, replay] = programs(rounds, replay);
    head("");
    for inputs in inputs() {
        inputs.compare(&rounds, &replay);
        let time = |program: &Replay, input: &[u8]| {
            let before = clock::children_nanoseconds();
            let printed = program.run(input.to_vec());
            assert_eq!(printed.trouble, None, "{} ends well", program.path);
            (clock::children_nanoseconds() - before) as f64 / 1e6
        };
        let (mut turns, mut alone, mut frames) = (Vec::new(), Vec::new(), Vec::new());
        for _ in 0..repetitions {
            turns.push(time(&rounds, &inputs.turns));
            alone.push(time(&rounds, &inputs.alone));
            frames.push(time(&replay, &inputs.frames));
        }
        println!(
            "| {} | {:.1} ms | {:.1} ms | {:.3} | {:.1} ms | {:.3} |",
            inputs.name,
            median(&turns),
            median(&alone),
            ratio(&turns, &alone),
            median(&frames),
            ratio(&turns, &frames)
        );
    }
}

/// Instructions of all three.
pub fn counted(rounds: &str, replay: &str) {
    head(", instructions");
    for inputs in inputs() {
        let turns = instructions::of_program(rounds, &inputs.turns);
        let alone = instructions::of_program(rounds, &inputs.alone);
        let frames = instructions::of_program(replay, &inputs.frames);
        match (turns, alone, frames) {
            (Ok(turns), Ok(alone), Ok(frames)) => {
                let (ratio, other) = (turns / alone, turns / frames);
                println!(
                    "| {} | {turns:.0} | {alone:.0} | {ratio:.3} | {frames:.0} | {other:.3} |",
                    inputs.name
                );
            }
            (Err(reason), _, _) | (_, Err(reason), _) | (_, _, Err(reason)) => {
                println!("not counted ({})", reason.trim())
            }
        }
    }
}
