//! A line that says how far a program is.

use std::io::{IsTerminal, Write};
use std::time::{Duration, Instant};

pub struct Progress {
    name: &'static str,
    start: Instant,
    last: Instant,
    every: Duration,
    terminal: bool,
}

impl Progress {
    /// Every second on a terminal, where the line is written over; every ten
    /// seconds elsewhere.
    pub fn new(name: &'static str) -> Progress {
        let terminal = std::io::stderr().is_terminal();
        let now = Instant::now();
        Progress {
            name,
            start: now,
            last: now,
            every: Duration::from_secs(if terminal { 1 } else { 10 }),
            terminal,
        }
    }

    pub fn show(&mut self, text: impl Fn() -> String) {
        if self.last.elapsed() < self.every {
            return;
        }
        self.last = Instant::now();
        let seconds = self.start.elapsed().as_secs();
        let (before, after) = if self.terminal {
            ("\r", "")
        } else {
            ("", "\n")
        };
        eprint!("{before}{}: {} s, {}{after}", self.name, seconds, text());
        std::io::stderr()
            .flush()
            .expect("standard error can be written");
    }
}
