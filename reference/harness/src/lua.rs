//! What a user would pick instead, with no monitor at all: the same work by
//! hand in Lua 5.4 and LuaJIT, as Debian has them.

use std::io::Write;
use std::process::{Command, Stdio};

const SCRIPT: &str = include_str!("../../lua/steps.lua");

/// The programs, and what they are called.
pub const PROGRAMS: [(&str, &str); 2] = [("Lua 5.4", "lua5.4"), ("LuaJIT", "luajit")];

/// The works of the script, by the beginnings of the names of their rows.
pub const WORKS: [(&str, &str); 3] = [
    ("counting", "counting loop"),
    ("walk", "walk of 512 nodes"),
    ("churn", "insert and remove, 20"),
];

/// Whether `program` starts.
pub fn installed(program: &str) -> bool {
    let version = Command::new(program)
        .arg("-v")
        .stdout(Stdio::null())
        .stderr(Stdio::null())
        .status();
    version.is_ok_and(|status| status.success())
}

/// Nanoseconds a step of `work`, the median of the repetitions.
pub fn nanoseconds(program: &str, work: &str, steps: u64, repetitions: usize) -> f64 {
    let mut child = Command::new(program)
        .args(["-", work, &steps.to_string(), &repetitions.to_string()])
        .stdin(Stdio::piped())
        .stdout(Stdio::piped())
        .spawn()
        .expect("it is installed");
    let mut input = child.stdin.take().expect("piped");
    input
        .write_all(SCRIPT.as_bytes())
        .expect("it reads the script");
    drop(input);
    let output = child.wait_with_output().expect("it ends");
    let text = String::from_utf8_lossy(&output.stdout);
    text.trim()
        .parse()
        .unwrap_or_else(|_| panic!("{program} prints {text:?} for {work}"))
}
