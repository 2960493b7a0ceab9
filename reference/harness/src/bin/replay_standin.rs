//! A stand-in for `replay` over the fast version, with which the harness
//! itself is tried: the same frames, the same text. Where STANDIN_MISTAKE names
//! a mistake it runs over the reference with that mistake.

use std::io::{self, BufReader, BufWriter, Write};

use harness::arguments::mistake_named;
use harness::frame::{self, Frame};
use harness::input::{fill, half, started, word};
use harness::quick;
use reference::generate::Case;
use reference::run;

fn main() -> io::Result<()> {
    let mut input = BufReader::new(io::stdin().lock());
    let mut output = BufWriter::new(io::stdout().lock());
    let mut number = 0;
    let mistake = std::env::var("STANDIN_MISTAKE").map(|name| mistake_named(&name));
    let outcome = |case: &Case| match mistake {
        Ok(mistake) => run::outcome_with(&case.bytes, &case.limits, mistake),
        Err(_) => quick::outcome(case),
    };
    let mut header = [0; 12];
    while let Some(whole) = started(&mut input, &mut header)? {
        let mut job = vec![0; word(&header, 0) as usize];
        if !whole || !fill(&mut input, &mut job)? {
            write!(output, "{}", frame::TRUNCATED)?;
            break;
        }
        let frame = Frame {
            job,
            budget: word(&header, 4),
            places: half(&header, 8),
            lines: half(&header, 10),
        };
        let text = frame::text(&outcome(&frame.case()));
        write!(output, "{}{text}", frame::heading(number))?;
        number += 1;
    }
    output.flush()
}
