//! Inputs of the fuzzer of raw bytes: 4 bytes that choose the budget and the
//! area, then the job. Writes generated ones, or shows one in a form to read.

use std::fs;
use std::path::Path;

use harness::arguments::{fail, Arguments};
use reference::generate::{self, Case};
use reference::run::{self, Limits};
use reference::{job, print};

const USAGE: &str = "inputs --folder PATH [--jobs N] | inputs --show FILE";

fn main() {
    let arguments = Arguments::read(USAGE, &["--folder", "--jobs", "--show"]);
    match (arguments.text("--folder"), arguments.text("--show")) {
        (Some(folder), None) => write(folder, arguments.number("--jobs", 2_000)),
        (None, Some(file)) => show(file),
        _ => fail(&format!("usage: {USAGE}")),
    }
}

fn write(folder: &str, jobs: u64) {
    for seed in 0..jobs {
        let case = generate::case(seed);
        let budget = u16::try_from(case.limits.budget).unwrap_or(4_999);
        let area = (5 * case.limits.lines.min(400) + seed as usize % 5) as u16;
        let input = [&budget.to_le_bytes()[..], &area.to_le_bytes(), &case.bytes].concat();
        if let Err(error) = fs::write(Path::new(folder).join(format!("{seed:05}")), input) {
            fail(&format!("{folder}: {error}"));
        }
    }
    println!("{jobs} inputs in {folder}");
}

fn show(file: &str) {
    let input = fs::read(file).unwrap_or_else(|error| fail(&format!("{file}: {error}")));
    let [b0, b1, a0, a1, bytes @ ..] = &input[..] else {
        fail(&format!("{file}: fewer than 4 bytes"));
    };
    let area = usize::from(u16::from_le_bytes([*a0, *a1])) % 2_049;
    let case = Case {
        bytes: bytes.to_vec(),
        limits: Limits {
            lines: area / 5,
            ..Limits::ample(budget(u16::from_le_bytes([*b0, *b1])))
        },
    };
    if let Ok(parts) = job::split(&case.bytes) {
        println!(
            "{} variables, {} nodes, {} records",
            parts.variables.len(),
            parts.nodes.len(),
            parts.script.len()
        );
    }
    println!("{}area {area}", print::case(&case));
    println!(
        "by the reference: {}",
        print::outcome(&run::outcome(&case.bytes, &case.limits))
    );
}

/// As `budget_of` in the fuzzer's `portal.c`.
fn budget(choice: u16) -> u64 {
    let edges = [0, 1_000_000, 1_000_001, 1 << 32, (1 << 32) + 1, u64::MAX];
    match choice {
        0xff00.. => edges[usize::from(choice) % edges.len()],
        _ => u64::from(choice % 5_000),
    }
}
