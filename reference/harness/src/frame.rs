//! The frames that `replay` reads and the text that it must print.

use std::fmt::Write;

use reference::ending::Ending;
use reference::generate::Case;
use reference::job::{MAX_BYTES, MAX_VARIABLES};
use reference::random::Random;
use reference::run::{Last, Limits, Line, Outcome, MAX_PLACES};
use reference::tree::Row;
use reference::Level;

/// "a number of places above 512 is lent as 513"
const MOST_PLACES: usize = MAX_PLACES + 1;
/// "a line capacity above 1,024 as 1,024"
const MOST_LINES: usize = 1_024;
/// "of a job longer than 23,049 bytes the first 23,049 are handed over"
const MOST_BYTES: usize = MAX_BYTES + 1;

/// "a 12-byte header (job length u32, budget u32, places u16, line capacity
/// u16, little-endian) and the job"
#[derive(Clone, Debug, PartialEq, Eq)]
pub struct Frame {
    pub job: Vec<u8>,
    pub budget: u32,
    pub places: u16,
    pub lines: u16,
}

impl Frame {
    /// The frame of a case. What does not fit into a header's field becomes
    /// its greatest number.
    pub fn of(case: &Case) -> Frame {
        let limits = &case.limits;
        Frame {
            job: case.bytes.clone(),
            budget: u32::try_from(limits.budget).unwrap_or(u32::MAX),
            places: u16::try_from(limits.places).unwrap_or(u16::MAX),
            lines: u16::try_from(limits.lines).unwrap_or(u16::MAX),
        }
    }

    /// The same with numbers, now and then, that only a frame can have.
    pub fn varied(case: &Case, seed: u64) -> Frame {
        let mut random = Random::new(seed ^ 0x0066_7261_6d65);
        let mut frame = Frame::of(case);
        match random.below(80) {
            0 => frame.places = random.pick(&[511, 512, 513, 514, 65_535]),
            1 | 2 => frame.lines = random.pick(&[1_023, 1_024, 1_025, 65_535]),
            3 => {
                let length = random.pick(&[MAX_BYTES, MOST_BYTES, MOST_BYTES + 1, 30_000, 70_000]);
                frame.job.resize(length, random.byte());
            }
            _ => {}
        }
        frame
    }

    /// The case that the frame stands for: what is handed over and lent.
    pub fn case(&self) -> Case {
        Case {
            bytes: self.job[..self.job.len().min(MOST_BYTES)].to_vec(),
            limits: Limits {
                budget: u64::from(self.budget),
                places: usize::from(self.places).min(MOST_PLACES),
                variables: MAX_VARIABLES,
                lines: usize::from(self.lines).min(MOST_LINES),
            },
        }
    }

    pub fn write(&self, bytes: &mut Vec<u8>) {
        bytes.extend((self.job.len() as u32).to_le_bytes());
        bytes.extend(self.budget.to_le_bytes());
        bytes.extend(self.places.to_le_bytes());
        bytes.extend(self.lines.to_le_bytes());
        bytes.extend(&self.job);
    }
}

/// The bytes of a sequence of frames.
pub fn stream(frames: &[Frame]) -> Vec<u8> {
    let mut bytes = Vec::new();
    for frame in frames {
        frame.write(&mut bytes);
    }
    bytes
}

/// What comes for a frame after its line `job K`: "`ending E index I steps S
/// lines N`, then `line V SET` for each line, `variable L V` for each variable and
/// `node D E C L V` for each node in preorder [...]; variables and nodes only
/// where the job was run".
pub fn text(outcome: &Outcome) -> String {
    let mut text = String::new();
    writeln!(
        text,
        "ending {} index {} steps {} lines {}",
        outcome.ending.number(),
        outcome.index,
        outcome.steps,
        outcome.lines.len()
    )
    .unwrap();
    for line in &outcome.lines {
        writeln!(text, "line {} {}", line.number, line.readers).unwrap();
    }
    let Some(last) = &outcome.last else {
        return text;
    };
    for (level, value) in &last.variables {
        writeln!(text, "variable {level} {value}").unwrap();
    }
    for row in &last.tree {
        writeln!(
            text,
            "node {} {} {} {} {}",
            row.depth, row.existence, row.content, row.list, row.value
        )
        .unwrap();
    }
    text
}

/// The outcome that such a text tells, if it is one.
pub fn parse(text: &str) -> Option<Outcome> {
    let mut lines = text.lines();
    let first = numbers(lines.next()?, &["ending", "index", "steps", "lines"])?;
    let is_ending = |ending: &Ending| i64::from(ending.number()) == first[0];
    let mut outcome = Outcome {
        ending: Ending::ALL.into_iter().find(is_ending)?,
        index: usize::try_from(first[1]).ok()?,
        steps: u64::try_from(first[2]).ok()?,
        lines: Vec::new(),
        last: None,
    };
    let mut last = Last {
        variables: Vec::new(),
        tree: Vec::new(),
    };
    for line in lines {
        let fields: Vec<i64> = line
            .split(' ')
            .skip(1)
            .map_while(|word| word.parse().ok())
            .collect();
        match (line.split(' ').next()?, &fields[..]) {
            ("line", [number, readers]) => outcome.lines.push(Line {
                number: *number as i32,
                readers: *readers as Level,
            }),
            ("variable", [level, value]) => last.variables.push((*level as Level, *value as i32)),
            ("node", [depth, existence, content, list, value]) => last.tree.push(Row {
                depth: *depth as usize,
                existence: *existence as Level,
                content: *content as Level,
                list: *list as Level,
                value: *value as i32,
            }),
            _ => return None,
        }
    }
    if outcome.lines.len() as i64 != first[3] {
        return None;
    }
    outcome.last = (!outcome.ending.turned_back()).then_some(last);
    Some(outcome)
}

/// The numbers of a line `name number name number ..`.
fn numbers(line: &str, names: &[&str]) -> Option<Vec<i64>> {
    let words: Vec<&str> = line.split(' ').collect();
    if words.len() != 2 * names.len() {
        return None;
    }
    let pairs = words.chunks_exact(2).zip(names);
    pairs
        .map(|(pair, name)| (pair[0] == *name).then(|| pair[1].parse().ok())?)
        .collect()
}

/// The line before it. Frames count from 0, as all indexes do.
pub fn heading(number: u64) -> String {
    format!("job {number}\n")
}

/// "A truncated last frame prints `truncated` and ends."
pub const TRUNCATED: &str = "truncated\n";
