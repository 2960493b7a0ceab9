//! A `replay` process.

use std::io::{Read, Write};
use std::process::{Command, Stdio};
use std::thread;

#[derive(Clone, Debug)]
pub struct Replay {
    pub path: String,
}

/// What a process printed, and how it ended where that was not well.
#[derive(Clone, Debug, PartialEq, Eq)]
pub struct Printed {
    pub text: String,
    pub trouble: Option<String>,
}

impl Replay {
    /// Runs the program on `input` to its end.
    pub fn run(&self, input: Vec<u8>) -> Printed {
        let spawned = Command::new(&self.path)
            .stdin(Stdio::piped())
            .stdout(Stdio::piped())
            .spawn();
        let mut child = match spawned {
            Ok(child) => child,
            Err(error) => {
                let trouble = Some(format!("{} does not start: {error}", self.path));
                let text = String::new();
                return Printed { text, trouble };
            }
        };
        let mut to_child = child.stdin.take().expect("piped");
        // A process that ends early closes its input: its output tells.
        let writer = thread::spawn(move || drop(to_child.write_all(&input)));
        let mut bytes = Vec::new();
        let read = child.stdout.take().expect("piped").read_to_end(&mut bytes);
        read.expect("the pipe can be read");
        writer.join().expect("the writer ends");
        let status = child.wait().expect("the process ends");
        Printed {
            text: String::from_utf8_lossy(&bytes).into_owned(),
            trouble: (!status.success()).then(|| format!("it ended with {status}")),
        }
    }
}
