//! Instructions of a step or of a call, counted by callgrind (a part of
//! valgrind). The bench runs itself once under it, with [`MODE`]; callgrind
//! counts from each call of [`counted_sample`] on, and writes a file at the
//! call of [`sample_end`] behind it.

use std::fs;
use std::path::Path;
use std::process::{Command, Stdio};

use crate::bench::{Bench, Side};
use crate::workloads::{Unit, Workload};

/// The option by which the bench knows that it is counted.
pub const MODE: &str = "--counted";

/// Two budgets of a step row: the difference takes out the checks and what a
/// call takes besides its steps.
const FEW_STEPS: u64 = 20_000;
const MORE_STEPS: u64 = 70_000;

/// Calls of a row that is a call.
const CALLS: usize = 20;

/// Instructions of a step, or of a call.
#[derive(Clone, Copy, Debug, PartialEq)]
pub struct Counted {
    pub ours: f64,
    pub fast: f64,
}

/// One sample: calls with a budget.
struct Sample {
    side: Side,
    budget: u64,
    calls: usize,
}

/// The samples of a row, each side's after the other.
fn samples(workload: &Workload) -> Vec<Sample> {
    let sides = [Side::Ours, Side::Fast].into_iter();
    let budgets = match workload.unit {
        Unit::Step => vec![(FEW_STEPS, 1), (MORE_STEPS, 1)],
        Unit::Call => vec![(workload.budget, CALLS)],
    };
    sides
        .flat_map(|side| {
            let sample = move |&(budget, calls): &(u64, usize)| Sample {
                side,
                budget,
                calls,
            };
            budgets.iter().map(sample).collect::<Vec<Sample>>()
        })
        .collect()
}

/// What the counted run does.
pub fn run_counted(bench: &mut Bench, workloads: &[Workload]) {
    for workload in workloads {
        // Also sees to it that nothing is bound or touched for the first time.
        bench.compare(workload);
        for sample in samples(workload) {
            let mut area = vec![0xa5; workload.area];
            counted_sample(bench, workload, &sample, &mut area);
            sample_end();
        }
    }
}

#[inline(never)]
fn counted_sample(bench: &mut Bench, workload: &Workload, sample: &Sample, area: &mut [u8]) {
    for _ in 0..sample.calls {
        std::hint::black_box(bench.call(sample.side, workload, sample.budget, area));
    }
}

#[inline(never)]
fn sample_end() {
    std::hint::black_box(());
}

/// The counts of all workloads, or why there are none.
pub fn count(workloads: &[Workload], words: &[&str]) -> Result<Vec<Counted>, String> {
    let folder = std::env::temp_dir().join(format!("bench-{}", std::process::id()));
    fs::create_dir_all(&folder).map_err(|error| error.to_string())?;
    let counted = count_in(&folder, workloads, words);
    fs::remove_dir_all(&folder).map_err(|error| error.to_string())?;
    counted
}

fn count_in(folder: &Path, workloads: &[Workload], words: &[&str]) -> Result<Vec<Counted>, String> {
    let program = std::env::current_exe().map_err(|error| error.to_string())?;
    let run = callgrind(folder)
        .args([
            "--zero-before=*counted_sample*",
            "--dump-before=*sample_end*",
        ])
        .arg(program)
        .arg(MODE)
        .args(words)
        .stdout(Stdio::null())
        .output();
    let run = run.map_err(|error| format!("valgrind does not start: {error}"))?;
    if !run.status.success() {
        return Err(String::from_utf8_lossy(&run.stderr).into_owned());
    }
    let mut place = 0;
    let mut next = || {
        place += 1;
        total(&fs::read_to_string(folder.join(format!("out.{place}"))).unwrap_or_default())
            .ok_or(format!("callgrind wrote no count of sample {place}"))
    };
    let mut counts = Vec::new();
    for workload in workloads {
        let mut side = || -> Result<f64, String> {
            Ok(match workload.unit {
                Unit::Step => {
                    let few = next()?;
                    (next()? - few) / (MORE_STEPS - FEW_STEPS) as f64
                }
                Unit::Call => next()? / CALLS as f64,
            })
        };
        let (ours, fast) = (side()?, side()?);
        counts.push(Counted { ours, fast });
    }
    Ok(counts)
}

/// Callgrind, which writes to `out` in a folder.
fn callgrind(folder: &Path) -> Command {
    let mut command = Command::new("valgrind");
    command
        .args(["--quiet", "--tool=callgrind"])
        .arg(format!("--callgrind-out-file={}", folder.join("out").display()))
        // An instruction that stores many bytes would count once for each of them.
        .env(
            "GLIBC_TUNABLES",
            "glibc.cpu.x86_rep_stosb_threshold=1000000000:glibc.cpu.x86_rep_movsb_threshold=1000000000",
        );
    command
}

/// All instructions of a program on the bytes of a file, or why there is no count.
pub fn of_program(path: &str, input: &[u8]) -> Result<f64, String> {
    let folder = std::env::temp_dir().join(format!("program-{}", std::process::id()));
    let text = |error: std::io::Error| error.to_string();
    fs::create_dir_all(&folder).map_err(text)?;
    let counted = fs::write(folder.join("in"), input)
        .map_err(text)
        .and_then(|()| {
            let input = fs::File::open(folder.join("in")).map_err(text)?;
            let run = callgrind(&folder)
                .arg(path)
                .stdin(input)
                .stdout(Stdio::null())
                .output();
            let run = run.map_err(|error| format!("valgrind does not start: {error}"))?;
            let count = total(&fs::read_to_string(folder.join("out")).unwrap_or_default());
            count.ok_or(String::from_utf8_lossy(&run.stderr).into_owned())
        });
    fs::remove_dir_all(&folder).map_err(text)?;
    counted
}

/// The sum that a file of callgrind's ends with.
fn total(text: &str) -> Option<f64> {
    let line = text.lines().find_map(|line| line.strip_prefix("totals: "));
    line?.trim().parse().ok()
}
