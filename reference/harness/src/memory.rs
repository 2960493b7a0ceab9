//! The resident memory of a process that runs for long.

use std::fs;
use std::process::Child;

/// More than this above the first sample is growth: a few pages may come and go.
const ALLOWED_KIB: u64 = 64;

/// VmRSS of the process, 0 where it has ended.
pub fn resident_kib(child: &Child) -> u64 {
    let status = fs::read_to_string(format!("/proc/{}/status", child.id())).unwrap_or_default();
    let line = status.lines().find_map(|line| line.strip_prefix("VmRSS:"));
    let number = line.and_then(|line| line.split_whitespace().next()?.parse().ok());
    number.unwrap_or(0)
}

/// Says what the samples are, each after so many `parts`, and whether they grow.
pub fn constant(samples: &[(u64, u64)], parts: &str) -> bool {
    // The process may have ended before the last ones were taken.
    let taken: Vec<(u64, u64)> = samples.iter().copied().filter(|s| s.1 > 0).collect();
    let (Some(first), Some(last)) = (taken.first(), taken.last()) else {
        println!("too few {parts} to sample the memory");
        return false;
    };
    let most = taken.iter().map(|sample| sample.1).max().unwrap_or(0);
    println!(
        "resident memory in KiB: {} after {} {parts}, {} after {}, at most {most}, in {} samples",
        first.1,
        first.0,
        last.1,
        last.0,
        taken.len()
    );
    let constant = most <= first.1 + ALLOWED_KIB;
    println!(
        "{}",
        if constant {
            "constant memory"
        } else {
            "the memory grows"
        }
    );
    constant
}
