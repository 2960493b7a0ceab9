//! What the stand-ins read: framed input, or a stored job.

use std::io::{self, ErrorKind, Read, Write};

use reference::clean::Output;
use reference::history::Event;
use reference::mistake::Mistake;

use crate::arguments::mistake_named;

/// Puts out what `output` says for the job on standard input. Where STANDIN_MISTAKE
/// names a mistake it has that mistake.
pub fn stand_in(output: fn(&[u8], Mistake) -> Output) -> io::Result<()> {
    let named = std::env::var("STANDIN_MISTAKE");
    let mistake = named.map_or(Mistake::None, |name| mistake_named(&name));
    let mut job = Vec::new();
    io::stdin().read_to_end(&mut job)?;
    let output = output(&job, mistake);
    io::stdout().write_all(&output.standard_output)?;
    io::stderr().write_all(output.standard_error.as_bytes())
}

/// Reads a header: nothing at the input's end, false where it is cut.
pub fn started(input: &mut impl Read, header: &mut [u8]) -> io::Result<Option<bool>> {
    if input.read(&mut header[..1])? == 0 {
        return Ok(None);
    }
    fill(input, &mut header[1..]).map(Some)
}

/// The next event of `history` or `rounds`: nothing at the input's end, and none where
/// it is cut.
pub fn next_event(input: &mut impl Read) -> io::Result<Option<Option<Event>>> {
    let mut header = [0; 16];
    let Some(whole) = started(input, &mut header)? else {
        return Ok(None);
    };
    let mut body = vec![0; word(&header, 4) as usize];
    if !whole || !fill(input, &mut body)? {
        return Ok(Some(None));
    }
    Ok(Some(Some(Event {
        kind: word(&header, 0),
        budget: word(&header, 8),
        places: half(&header, 12),
        lines: half(&header, 14),
        body,
    })))
}

/// False where the input ends before `bytes` is full.
pub fn fill(input: &mut impl Read, bytes: &mut [u8]) -> io::Result<bool> {
    match input.read_exact(bytes) {
        Ok(()) => Ok(true),
        Err(error) if error.kind() == ErrorKind::UnexpectedEof => Ok(false),
        Err(error) => Err(error),
    }
}

pub fn word(header: &[u8], at: usize) -> u32 {
    u32::from_le_bytes(header[at..at + 4].try_into().expect("four bytes"))
}

pub fn half(header: &[u8], at: usize) -> u16 {
    u16::from_le_bytes(header[at..at + 2].try_into().expect("two bytes"))
}
