//! The two programs around a run, as functions of their input.

use crate::ending::Ending;
use crate::run::{self, Limits, Line, MAX_PLACES};

/// "budget 100,000, 512 places, 256 lines"
pub const BOARD_BUDGET: u64 = 100_000;
pub const BOARD_LINES: usize = 256;

/// "the portal's lines take 5 bytes, the set last".
pub const LINE_BYTES: usize = 5;

/// The portal: "it hands over job bytes, a budget and a byte area for lines [...]
/// spare bytes at the end are untouched). It receives one 64-bit number: the ending
/// times 4,294,967,296 plus the line count. It has 512 places."
pub fn portal(job: &[u8], budget: u64, area: &mut [u8]) -> u64 {
    let limits = Limits {
        places: MAX_PLACES,
        lines: area.len() / LINE_BYTES,
        ..Limits::ample(budget)
    };
    let outcome = run::outcome(job, &limits);
    let places = area.chunks_exact_mut(LINE_BYTES);
    for (line, bytes) in outcome.lines.iter().zip(places) {
        bytes.copy_from_slice(&line_bytes(line));
    }
    u64::from(outcome.ending.number()) * 4_294_967_296 + outcome.lines.len() as u64
}

/// A line as the portal gets it.
pub fn line_bytes(line: &Line) -> [u8; LINE_BYTES] {
    let [a, b, c, d] = line.number.to_le_bytes();
    [a, b, c, d, line.readers]
}

/// The line of so many bytes.
pub fn line_of(bytes: &[u8]) -> Line {
    Line {
        number: i32::from_le_bytes([bytes[0], bytes[1], bytes[2], bytes[3]]),
        readers: bytes[4],
    }
}

/// What the board runner writes for the job on its standard input.
#[derive(Clone, Debug, PartialEq, Eq)]
pub struct Board {
    pub output: String,
    pub error: String,
}

/// The board runner. "Standard output, one item to a line: `board`, each board
/// line's decimal number, `end` with the line count; nothing for a job turned
/// back. Standard error: `finished steps S`, `stopped N at I steps S` or
/// `refused N at I`." "the board runner prints it in decimal after the number and a
/// space": a line's reader set (R-12).
pub fn board(job: &[u8]) -> Board {
    let limits = Limits {
        lines: BOARD_LINES,
        ..Limits::ample(BOARD_BUDGET)
    };
    let outcome = run::outcome(job, &limits);
    let (number, index, steps) = (outcome.ending.number(), outcome.index, outcome.steps);
    if outcome.ending.turned_back() {
        return Board {
            output: String::new(),
            error: format!("refused {number} at {index}\n"),
        };
    }
    let mut output = String::from("board\n");
    for line in &outcome.lines {
        output += &format!("{} {}\n", line.number, line.readers);
    }
    output += &format!("end {}\n", outcome.lines.len());
    let error = match outcome.ending {
        Ending::Finished => format!("finished steps {steps}\n"),
        _ => format!("stopped {number} at {index} steps {steps}\n"),
    };
    Board { output, error }
}
