//! A fast version of the monitor, written from the paper: an arena of nodes
//! linked by index, a script decoded once, and no allocation in a job.
//!
//! - [`check`]: checks 1 to 8; what an accepted job holds goes into [`Buffers`].
//! - [`arena`]: the nodes; insertion and removal in constant time.
//! - [`run`]: checks 9 and 10, and the steps.
//! - [`follow`]: a script over a lent table of node records; [`write`](mod@write): such a
//!   table as a job again.
//! - [`rounds`]: runs that take turns.
//! - [`entry`]: the portal's call, also for C.

pub mod arena;
pub mod check;
pub mod entry;
pub mod follow;
pub mod rounds;
pub mod run;
pub mod write;

use arena::Arena;

pub const MAX_VARIABLES: usize = 64;
pub const MAX_NODES: usize = 512;
pub const MAX_RECORDS: usize = 1_024;
pub const MAX_BYTES: usize = 23_048;
pub const MAX_BLOCKS: usize = 16;
pub const MAX_BUDGET: u64 = 1_000_000;

/// The paper's numbers of the endings.
pub mod ending {
    pub const FINISHED: u8 = 0;
    pub const SIZE: u8 = 1;
    pub const LAYOUT: u8 = 2;
    pub const COUNT: u8 = 3;
    pub const PARENT: u8 = 5;
    pub const TREE: u8 = 6;
    pub const FIELD: u8 = 7;
    pub const BLOCK: u8 = 8;
    pub const BUDGET: u8 = 9;
    pub const BUFFER: u8 = 10;
    pub const STANDING: u8 = 11;
    pub const SPARE: u8 = 12;
    pub const ORDER: u8 = 13;
    pub const AREA: u8 = 14;
    pub const NO_PLACE: u8 = 15;
    pub const RULE: u8 = 21;
    pub const MISSING: u8 = 22;
    pub const TABLE_FULL: u8 = 23;
    pub const LINES_FULL: u8 = 24;
    pub const BUDGET_USED: u8 = 25;
    pub const OUT_OF_RANGE: u8 = 27;
}

/// The portal's lines: the number and the reader set.
pub const LINE_BYTES: usize = 5;

/// "not above means contained in"
#[inline(always)]
pub fn within(a: u8, b: u8) -> bool {
    a & !b == 0
}

#[derive(Clone, Copy, Default)]
pub struct Variable {
    pub value: i32,
    pub level: u8,
}

/// A script record, decoded.
#[derive(Clone, Copy, Default)]
pub struct Op {
    pub code: u8,
    pub target: u8,
    pub operator: u8,
    pub left_kind: u8,
    pub right_kind: u8,
    /// Bytes 5 and 6.
    pub sets: [u8; 2],
    /// Where an if, else, while or end goes that does not go on.
    pub jump: u16,
    pub left: i32,
    pub right: i32,
}

/// Everything that a job is decoded into and run over. Made once, used again
/// for each job.
pub struct Buffers {
    pub variables: [Variable; MAX_VARIABLES],
    pub variable_count: usize,
    pub arena: Arena,
    /// One more than the records: what stands after the last is `FINISH`.
    pub ops: [Op; MAX_RECORDS + 1],
}

impl Buffers {
    pub fn new() -> Box<Buffers> {
        Box::new(Buffers {
            variables: [Variable::default(); MAX_VARIABLES],
            variable_count: 0,
            arena: Arena::new(),
            ops: [Op::default(); MAX_RECORDS + 1],
        })
    }
}

/// The budget and the sizes of the lent buffers. The line buffer is lent to
/// the run itself.
#[derive(Clone, Copy)]
pub struct Limits {
    pub budget: u64,
    pub places: usize,
    pub variables: usize,
}

/// "Answer: ending (0 for finished, else the number), record index, steps,
/// line count."
#[derive(Clone, Copy, Debug, PartialEq, Eq)]
pub struct Answer {
    pub ending: u8,
    pub index: u32,
    pub steps: u32,
    pub lines: u32,
}

impl Answer {
    /// "steps and lines are 0 for 1 to 10"
    pub fn turned_back(ending: u8, index: usize) -> Answer {
        Answer {
            ending,
            index: index as u32,
            steps: 0,
            lines: 0,
        }
    }
}
