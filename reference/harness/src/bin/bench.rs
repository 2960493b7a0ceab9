//! Measures the portal against the fast version, both on the same bytes, in
//! one run. Prints tables in Markdown.
//!
//! A time is processor time, the median over repetitions; in each, both sides are timed one
//! after the other, in turn first. A ratio is the median of the ratios in each
//! repetition, so that a machine that is slow for a while is slow for both.
//! Nothing is subtracted. Areas for lines are filled with a pattern before the
//! time starts. Instructions are counted by callgrind in a run of their own.

use std::hint::black_box;

use harness::arguments::Arguments;
use harness::bench::{Bench, Side};
use harness::clock::{self, median, ratio};
use harness::frame::{self, Frame};
use harness::instructions::{self, Counted};
use harness::lua;
use harness::replay::Replay;
use harness::turns;
use harness::workloads::{self, Growth, Unit, Workload};
use reference::mistake::Mistake;

const USAGE: &str =
    "bench [--portal linked|fast] [--replay PATH] [--rounds PATH] [--repetitions N] [--rows WORDS] [--instructions]
    --rows: only the rows whose name has these words in it. --instructions: nothing but counts, in seconds";

/// A sample is made of as many calls as take this long on the fast side.
const SAMPLE_NANOSECONDS: f64 = 300_000.0;
const MOST_CALLS: usize = 256;

/// Nanoseconds a call, of each repetition, and the steps of a call.
struct Measured {
    ours: Vec<f64>,
    fast: Vec<f64>,
    steps: u32,
}

/// Those of one side.
type Times = fn(&Measured) -> &[f64];

fn main() {
    let known = [
        "--portal",
        "--replay",
        "--rounds",
        "--repetitions",
        "--rows",
        "--instructions",
        instructions::MODE,
    ];
    let arguments = Arguments::read(USAGE, &known);
    let mut bench = Bench::new(arguments.portal(Mistake::None));
    let repetitions = arguments.number("--repetitions", 41) as usize;
    let rows = arguments.text("--rows").unwrap_or("");
    let mut table = workloads::table();
    table.retain(|workload| workload.name.contains(rows) && bench.can(workload));
    if arguments.has(instructions::MODE) {
        return instructions::run_counted(&mut bench, &table);
    }
    println!("ours: {}", bench.portal.name());
    println!("fast: the fast Rust version, with buffers made once");
    let counts = counts(&arguments, rows, &table);
    let in_turns = match (arguments.rounds(), arguments.replay()) {
        (Some(rounds), Some(replay)) if turns::NAME.contains(rows) => Some((rounds, replay)),
        _ => None,
    };
    if arguments.has("--instructions") {
        only_counts(&table, &counts);
        if let Some((rounds, replay)) = in_turns {
            turns::counted(&rounds, &replay);
        }
        return;
    }
    println!(
        "processor time, medians of {repetitions} repetitions; reading the clock takes {:.0} ns and is not subtracted\n",
        clock_nanoseconds()
    );
    let measured = main_table(&mut bench, repetitions, &table, &counts);
    others(repetitions, &table, &measured);
    if let Some((rounds, replay)) = in_turns {
        turns::timed(&rounds, &replay, repetitions);
        turns::counted(&rounds, &replay);
    }
    if !rows.is_empty() {
        return;
    }
    growth(&mut bench, repetitions, "nodes", workloads::by_nodes());
    growth(
        &mut bench,
        repetitions,
        "children",
        workloads::by_children(),
    );
    growth(&mut bench, repetitions, "records", workloads::by_records());
    if let Some(path) = arguments.replay() {
        through_replay(&Replay { path }, repetitions);
    }
}

/// Instructions of each row; none where they could not be counted, with a word.
fn counts(arguments: &Arguments, rows: &str, table: &[Workload]) -> Vec<Option<Counted>> {
    let portal = arguments.text("--portal").unwrap_or("linked");
    match instructions::count(table, &["--portal", portal, "--rows", rows]) {
        Ok(counts) => {
            println!("instructions: counted by callgrind; of a step row without its checks");
            counts.into_iter().map(Some).collect()
        }
        Err(reason) => {
            println!("instructions: not counted ({})", reason.trim());
            vec![None; table.len()]
        }
    }
}

fn only_counts(table: &[Workload], counts: &[Option<Counted>]) {
    println!("\n| instructions a step or a call | ours | fast | ours / fast |");
    println!("|---|---:|---:|---:|");
    for (workload, counted) in table.iter().zip(counts) {
        println!("| {} |{}", workload.name, count_cells(workload, *counted));
    }
}

/// Ours, fast and their ratio.
fn count_cells(workload: &Workload, counted: Option<Counted>) -> String {
    let Some(Counted { ours, fast }) = counted else {
        return String::from(" | | |");
    };
    let ratio = ours / fast;
    match workload.unit {
        Unit::Step => format!(" {ours:.1} | {fast:.1} | {ratio:.2} |"),
        Unit::Call => format!(" {ours:.0} | {fast:.0} | {ratio:.2} |"),
    }
}

fn main_table(
    bench: &mut Bench,
    repetitions: usize,
    table: &[Workload],
    counts: &[Option<Counted>],
) -> Vec<Measured> {
    println!("| | steps | ours | fast | ours / fast | instructions: ours | fast | ours / fast |");
    println!("|---|---:|---:|---:|---:|---:|---:|---:|");
    let mut all = Vec::new();
    for (workload, counted) in table.iter().zip(counts) {
        let measured = measure(bench, repetitions, std::slice::from_ref(workload));
        let cells = count_cells(workload, *counted);
        println!("{}{cells}", row(workload, &measured[0]));
        all.extend(measured);
    }
    all
}

/// One line of the table.
fn row(workload: &Workload, measured: &Measured) -> String {
    let time = |nanoseconds: f64| match workload.unit {
        Unit::Step => format!("{:.2} ns/step", nanoseconds / f64::from(measured.steps)),
        Unit::Call => format!("{:.3} µs", nanoseconds / 1_000.0),
    };
    format!(
        "| {} | {} | {} | {} | {:.2} |",
        workload.name,
        measured.steps,
        time(median(&measured.ours)),
        time(median(&measured.fast)),
        ratio(&measured.ours, &measured.fast)
    )
}

/// What a user would pick instead, on the same work; what is not installed is
/// left out, with a word.
fn others(repetitions: usize, table: &[Workload], measured: &[Measured]) {
    let works: Vec<(&str, &Workload, &Measured)> = lua::WORKS
        .iter()
        .filter_map(|&(work, name)| {
            let place = table.iter().position(|row| row.name.starts_with(name))?;
            Some((work, &table[place], &measured[place]))
        })
        .collect();
    let (installed, missing): (Vec<_>, Vec<_>) = lua::PROGRAMS
        .into_iter()
        .partition(|(_, program)| lua::installed(program));
    println!();
    for (name, program) in missing {
        println!("{name}: left out, {program} is not installed");
    }
    if installed.is_empty() || works.is_empty() {
        return;
    }
    let names: Vec<&str> = installed.iter().map(|(name, _)| *name).collect();
    println!(
        "| ns/step, the same work with no monitor | ours | {} |",
        names.join(" | ")
    );
    println!("|---|---:|{}", "---:|".repeat(installed.len()));
    for (work, workload, measured) in works {
        let steps = f64::from(measured.steps);
        print!(
            "| {} | {:.2} |",
            workload.name,
            median(&measured.ours) / steps
        );
        for (_, program) in &installed {
            let time = lua::nanoseconds(program, work, workload.budget, repetitions);
            print!(" {time:.2} |");
        }
        println!();
    }
}

/// Nanoseconds a step as jobs grow; the last column is the time at the
/// greatest size over that at the smallest.
fn growth(bench: &mut Bench, repetitions: usize, what: &str, rows: Vec<Growth>) {
    let [few, some, many] = rows[0].sizes;
    println!("\n| ns/step with this many {what} | side | {few} | {some} | {many} | growth |");
    println!("|---|---|---:|---:|---:|---:|");
    for row in rows {
        let measured = measure(bench, repetitions, &row.workloads);
        let sides: [(&str, Times); 2] = [("ours", |m| &m.ours), ("fast", |m| &m.fast)];
        for (side, times) in sides {
            print!("| {} | {side} |", row.name);
            for m in &measured {
                print!(" {:.2} |", median(times(m)) / f64::from(m.steps));
            }
            let [first, .., last] = &measured[..] else {
                unreachable!("three sizes")
            };
            let steps = f64::from(first.steps) / f64::from(last.steps);
            println!(" {:.2} |", steps * ratio(times(last), times(first)));
        }
    }
}

/// The whole small job over lent node records: through `replay`, which also
/// reads its frame and prints its whole outcome.
fn through_replay(replay: &Replay, repetitions: usize) {
    const JOBS: usize = 2_000;
    let small = workloads::small_job();
    let frame = Frame {
        job: small.job,
        budget: small.budget as u32,
        places: 512,
        lines: 16,
    };
    let input = frame::stream(&vec![frame; JOBS]);
    let times: Vec<f64> = (0..repetitions)
        .map(|_| {
            let before = clock::children_nanoseconds();
            let printed = replay.run(input.clone());
            assert_eq!(printed.trouble, None, "replay ends well");
            (clock::children_nanoseconds() - before) as f64 / JOBS as f64
        })
        .collect();
    println!(
        "\n{}, through replay (lent node records; frame read, outcome printed, start of the process shared by {JOBS} jobs): {:.3} µs",
        small.name,
        median(&times) / 1_000.0
    );
}

/// Measures some workloads, in turn in each repetition.
fn measure(bench: &mut Bench, repetitions: usize, workloads: &[Workload]) -> Vec<Measured> {
    let mut all = Vec::new();
    let mut calls = Vec::new();
    for workload in workloads {
        bench.compare(workload);
        all.push(Measured {
            ours: Vec::new(),
            fast: Vec::new(),
            steps: bench.steps(workload),
        });
        let once = sample(bench, workload, 1, Side::Fast);
        calls.push(((SAMPLE_NANOSECONDS / once) as usize).clamp(1, MOST_CALLS));
    }
    for repetition in 0..repetitions {
        let turns = match repetition % 2 {
            0 => [Side::Ours, Side::Fast],
            _ => [Side::Fast, Side::Ours],
        };
        for (place, workload) in workloads.iter().enumerate() {
            for side in turns {
                let time = sample(bench, workload, calls[place], side);
                match side {
                    Side::Ours => all[place].ours.push(time),
                    Side::Fast => all[place].fast.push(time),
                }
            }
        }
    }
    all
}

/// Nanoseconds a call, over `calls` calls with an area each.
fn sample(bench: &mut Bench, workload: &Workload, calls: usize, side: Side) -> f64 {
    let mut areas = vec![0xa5u8; workload.area * calls];
    let mut parts: Vec<&mut [u8]> = match workload.area {
        0 => (0..calls).map(|_| Default::default()).collect(),
        length => areas.chunks_exact_mut(length).collect(),
    };
    let start = clock::nanoseconds();
    for area in &mut parts {
        black_box(bench.call(side, workload, workload.budget, area));
    }
    (clock::nanoseconds() - start) as f64 / calls as f64
}

/// What two readings of the clock, one after the other, are apart.
fn clock_nanoseconds() -> f64 {
    let apart = |_| {
        let start = clock::nanoseconds();
        (clock::nanoseconds() - start) as f64
    };
    median(&(0..1_001).map(apart).collect::<Vec<f64>>())
}
