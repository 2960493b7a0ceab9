//! What the programs `board`, `inspect` and `summary` must print for a job.

use std::fmt::Write;
use std::io::{ErrorKind, Write as _};
use std::process::{Command, Output, Stdio};
use std::thread;

use reference::ending::Ending;
use reference::mistake::Mistake;
use reference::portal::{self, BOARD_BUDGET, BOARD_LINES};
use reference::run::{self, Limits};
use reference::summary;

/// Standard output and standard error of a program.
#[derive(Clone, Debug, PartialEq, Eq)]
pub struct Streams {
    pub output: String,
    pub error: String,
}

/// The board runner, "byte for byte as the paper says".
pub fn board(job: &[u8]) -> Streams {
    let board = portal::board(job);
    Streams {
        output: board.output,
        error: board.error,
    }
}

/// For the house: "the ending with its name, the record, the steps, the lines,
/// the variables with levels, and the last tree, indented, with levels and
/// values; for a refusal, the number, its name and the record", under the
/// limits of the board runner.
pub fn inspect(job: &[u8]) -> Streams {
    let limits = Limits {
        lines: BOARD_LINES,
        ..Limits::ample(BOARD_BUDGET)
    };
    let outcome = run::outcome(job, &limits);
    let (number, name) = (outcome.ending.number(), name(outcome.ending));
    let mut text = format!("ending {number} {name}\nrecord {}\n", outcome.index);
    if let Some(last) = &outcome.last {
        writeln!(text, "steps {}", outcome.steps).unwrap();
        writeln!(text, "lines {}", outcome.lines.len()).unwrap();
        for line in &outcome.lines {
            writeln!(text, "  {} {}", line.number, line.readers).unwrap();
        }
        writeln!(text, "variables {}", last.variables.len()).unwrap();
        for (index, (level, value)) in last.variables.iter().enumerate() {
            writeln!(text, "  {index}: level {level}, value {value}").unwrap();
        }
        writeln!(text, "tree {}", last.tree.len()).unwrap();
        for row in &last.tree {
            let indent = "  ".repeat(row.depth + 1);
            let levels = [row.existence, row.content, row.list];
            let [existence, content, list] = levels;
            writeln!(
                text,
                "{indent}value {}, existence {existence}, content {content}, list {list}",
                row.value
            )
            .unwrap();
        }
    }
    Streams {
        output: text,
        error: String::new(),
    }
}

/// The summary of R-12.
pub fn summed(job: &[u8]) -> Streams {
    let output = summary::output(job, Mistake::None);
    Streams {
        output: String::from_utf8_lossy(&output.standard_output).into_owned(),
        error: output.standard_error,
    }
}

fn name(ending: Ending) -> &'static str {
    match ending {
        Ending::Finished => "finished",
        Ending::Size => "wrong size",
        Ending::Layout => "broken layout",
        Ending::Count => "count out of range",
        Ending::VariableLevel => unreachable!("only programs with older rules give 4"),
        Ending::Parent => "parent rule broken",
        Ending::Tree => "tree rule broken",
        Ending::Field => "command or field out of range",
        Ending::Block => "blocks do not match",
        Ending::Budget => "budget out of range",
        Ending::Buffer => "buffers do not fit",
        Ending::Standing => unreachable!("only a follow-on script gets 11"),
        Ending::Area => unreachable!("only a tree that is written back gets 14"),
        Ending::NoPlace => unreachable!("only a newcomer among others gets 15"),
        Ending::Spare => "spare byte not zero",
        Ending::Order => "node out of order",
        Ending::Rule => "flow rule broken",
        Ending::Missing => "node does not exist",
        Ending::TableFull => "table full",
        Ending::LinesFull => "board full",
        Ending::BudgetUsed => "budget used up",
        Ending::OutOfRange => "result out of range",
    }
}

/// What the program at `path` puts out for the job on its standard input.
pub fn streams(path: &str, job: &[u8]) -> Result<Output, String> {
    let mut child = Command::new(path)
        .stdin(Stdio::piped())
        .stdout(Stdio::piped())
        .stderr(Stdio::piped())
        .spawn()
        .map_err(|error| format!("{path} does not start: {error}"))?;
    let mut input = child.stdin.take().expect("piped");
    let job = job.to_vec();
    // A program need not read all of a job that is too long.
    let writer = thread::spawn(move || match input.write_all(&job) {
        Err(error) if error.kind() != ErrorKind::BrokenPipe => Err(error.to_string()),
        _ => Ok(()),
    });
    let output = child
        .wait_with_output()
        .map_err(|error| error.to_string())?;
    writer.join().expect("the writer ends")?;
    if !output.status.success() {
        return Err(format!("{path} ended with {}", output.status));
    }
    Ok(output)
}

/// The same as text.
pub fn printed(path: &str, job: &[u8]) -> Result<Streams, String> {
    let output = streams(path, job)?;
    Ok(Streams {
        output: String::from_utf8_lossy(&output.stdout).into_owned(),
        error: String::from_utf8_lossy(&output.stderr).into_owned(),
    })
}
