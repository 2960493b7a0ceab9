//! The job's bytes: three sections and a trailer, the checks 1 to 8, the check of
//! spare bytes before 8, and that of the nodes' order before 6. From R-12
//! on every byte is a level, and 4 is for the older programs alone.

use crate::ending::Ending;
use crate::mistake::Mistake;
use crate::{within, Level, HOUSE, PUBLIC};

pub const VARIABLE_BYTES: usize = 8;
pub const NODE_BYTES: usize = 12;
pub const RECORD_BYTES: usize = 16;
pub const TRAILER_BYTES: usize = 8;

pub const MAX_VARIABLES: usize = 64;
pub const MAX_NODES: usize = 512;
pub const MAX_RECORDS: usize = 1_024;
pub const MAX_BYTES: usize = 23_048;
pub const MAX_BLOCKS: usize = 16;

/// The parent's index of record 0, the root.
pub const NO_PARENT: u16 = 65_535;

/// Command numbers.
pub mod command {
    pub const NOTHING: u8 = 0;
    pub const ASSIGN: u8 = 1;
    pub const IF: u8 = 2;
    pub const ELSE: u8 = 3;
    pub const WHILE: u8 = 4;
    pub const END: u8 = 5;
    pub const PRINT: u8 = 6;
    pub const ROOT: u8 = 7;
    pub const UP: u8 = 8;
    pub const FIRST_CHILD: u8 = 9;
    pub const RIGHT_SIBLING: u8 = 10;
    pub const NEW_FIRST_CHILD: u8 = 11;
    pub const NEW_RIGHT_SIBLING: u8 = 12;
    pub const REMOVE_FIRST_CHILD: u8 = 13;
    pub const REMOVE_RIGHT_SIBLING: u8 = 14;
    pub const SET_VALUE: u8 = 15;
    pub const COVER: u8 = 16;
    /// An if that comes back.
    pub const IF_BACK: u8 = 17;
    /// The later moves.
    pub const LEFT_SIBLING: u8 = 18;
    pub const LAST_CHILD: u8 = 19;
    pub const COUNT: usize = 20;
    /// Before R-6.
    pub const FIRST_COUNT: usize = 17;
}

/// Kinds of operands.
pub mod kind {
    pub const CONSTANT: u8 = 0;
    pub const VARIABLE: u8 = 1;
    pub const VALUE: u8 = 2;
    pub const CHILDREN: u8 = 3;
}

/// Operators.
pub mod operator {
    pub const LEFT: u8 = 0;
    pub const SUM: u8 = 1;
    pub const DIFFERENCE: u8 = 2;
    pub const EQUAL: u8 = 3;
    pub const LESS: u8 = 4;
    pub const MEAN: u8 = 5;
}

/// "Variable, 8 bytes: byte 0 level, 1 to 3 ignored, 4 to 7 value."
#[derive(Clone, Copy, Debug, Default, PartialEq, Eq)]
pub struct Variable {
    pub level: Level,
    pub spare: [u8; 3],
    pub value: i32,
}

/// "Node, 12 bytes: 0 and 1 parent's index (65535 for record 0, the root),
/// 2 existence, 3 content, 4 list, 5 to 7 ignored, 8 to 11 value."
#[derive(Clone, Copy, Debug, Default, PartialEq, Eq)]
pub struct Node {
    pub parent: u16,
    pub existence: Level,
    pub content: Level,
    pub list: Level,
    pub spare: [u8; 3],
    pub value: i32,
}

/// "Script record, 16 bytes: 0 command, 1 target, 2 operator, 3 left kind,
/// 4 right kind, 5 to 7 ignored, 8 to 11 left number, 12 to 15 right number."
/// "Script byte 5 gives a set to join to a new node's content and byte 6 one for its
/// list"; "Command 16 joins the set in byte 5" (R-12).
#[derive(Clone, Copy, Debug, Default, PartialEq, Eq)]
pub struct Record {
    pub command: u8,
    pub target: u8,
    pub operator: u8,
    pub left_kind: u8,
    pub right_kind: u8,
    /// Bytes 5 and 6.
    pub sets: [Level; 2],
    /// Byte 7.
    pub spare: u8,
    pub left: u32,
    pub right: u32,
}

/// A job with all its bytes, the ignored ones too; not always an accepted one.
#[derive(Clone, Debug, Default, PartialEq, Eq)]
pub struct Job {
    pub variables: Vec<Variable>,
    pub nodes: Vec<Node>,
    pub script: Vec<Record>,
}

/// Why a job is turned back, and the index that goes with it.
#[derive(Clone, Copy, Debug, PartialEq, Eq)]
pub struct Refusal {
    pub ending: Ending,
    pub index: usize,
}

impl Refusal {
    /// What a program for stored jobs prints of it.
    pub fn line(&self) -> String {
        format!("refused {} at {}\n", self.ending.number(), self.index)
    }
}

fn refuse<T>(ending: Ending, index: usize) -> Result<T, Refusal> {
    Err(Refusal { ending, index })
}

/// What a command's target is.
#[derive(Clone, Copy, Debug, PartialEq, Eq)]
pub enum Target {
    Ignored,
    /// The index of a variable.
    Variable,
    /// "the target is a mark, 0 to 3"
    Mark,
    /// "Command 6 takes its reader set from the target".
    Readers,
}

/// Which fields a command reads besides its number.
#[derive(Clone, Copy, Debug, PartialEq, Eq)]
pub struct Reads {
    pub target: Target,
    pub expression: bool,
    /// How many of bytes 5 and 6.
    pub sets: usize,
}

const fn reads(target: Target, expression: bool) -> Reads {
    Reads {
        target,
        expression,
        sets: 0,
    }
}

const fn with_sets(sets: usize, reads: Reads) -> Reads {
    Reads { sets, ..reads }
}

/// A row for each command.
pub type Rows = [Reads; command::COUNT];

/// "One fixed table of seventeen rows says which fields each command reads;
/// the others are ignored." "Commands 1, 2, 4, 6, 11, 12 and 15 read an
/// expression." Command 17 is "an if", and reads what an if reads; 18 and 19 are
/// moves, and read nothing. "Bytes 5 and 6 stop being spare for commands 11 and 12,
/// byte 5 for 16 and byte 1 for 6" (R-12).
pub const READS: Rows = [
    reads(Target::Ignored, false),
    reads(Target::Variable, true),
    reads(Target::Ignored, true),
    reads(Target::Ignored, false),
    reads(Target::Ignored, true),
    reads(Target::Ignored, false),
    reads(Target::Readers, true),
    reads(Target::Ignored, false),
    reads(Target::Ignored, false),
    reads(Target::Ignored, false),
    reads(Target::Ignored, false),
    with_sets(2, reads(Target::Mark, true)),
    with_sets(2, reads(Target::Mark, true)),
    reads(Target::Ignored, false),
    reads(Target::Ignored, false),
    reads(Target::Ignored, true),
    with_sets(1, reads(Target::Ignored, false)),
    reads(Target::Ignored, true),
    reads(Target::Ignored, false),
    reads(Target::Ignored, false),
];

/// The rows before R-12.
pub const FIRST_READS: Rows = first_reads();

const fn first_reads() -> Rows {
    let mut rows = READS;
    rows[command::PRINT as usize] = reads(Target::Ignored, true);
    rows[command::NEW_FIRST_CHILD as usize] = reads(Target::Mark, true);
    rows[command::NEW_RIGHT_SIBLING as usize] = reads(Target::Mark, true);
    rows[command::COVER as usize] = reads(Target::Ignored, false);
    rows
}

/// The rules of a day: R-4's cleaner and R-10's rearranger keep those of theirs.
struct Rules {
    commands: usize,
    spare: bool,
    order: bool,
    /// Whether a level is a set of parties, and no longer 0 or 1 alone.
    sets: bool,
}

impl Rules {
    fn rows(&self) -> &'static Rows {
        match self.sets {
            true => &READS,
            false => &FIRST_READS,
        }
    }
}

/// Before R-4: spare bytes hold anything, and there is no command from 17 on.
const FIRST: Rules = Rules {
    commands: command::FIRST_COUNT,
    spare: false,
    order: false,
    sets: false,
};

/// Before R-10: "Otherwise the order is open."
const UNORDERED: Rules = Rules {
    commands: command::COUNT,
    spare: true,
    order: false,
    sets: false,
};

const TODAY: Rules = Rules {
    order: true,
    sets: true,
    ..UNORDERED
};

/// Today's rules by a monitor with `mistake`.
const fn today(mistake: Mistake) -> Rules {
    Rules {
        sets: !matches!(mistake, Mistake::LevelsAbove1TurnedBack),
        ..TODAY
    }
}

/// The job in `bytes`, or the first check that turns it back.
pub fn decode(bytes: &[u8]) -> Result<Job, Refusal> {
    decode_with(bytes, Mistake::None)
}

/// The job by the rules of today.
pub fn decode_with(bytes: &[u8], mistake: Mistake) -> Result<Job, Refusal> {
    decode_by(&today(mistake), bytes, mistake)
}

/// The job by the rules before R-4.
pub fn decode_first(bytes: &[u8], mistake: Mistake) -> Result<Job, Refusal> {
    decode_by(&FIRST, bytes, mistake)
}

/// The job by the rules before R-10.
pub fn decode_unordered(bytes: &[u8], mistake: Mistake) -> Result<Job, Refusal> {
    decode_by(&UNORDERED, bytes, mistake)
}

/// "Job checks go in order of number.", but for 12 and 13. Each goes over its
/// whole section.
fn decode_by(rules: &Rules, bytes: &[u8], mistake: Mistake) -> Result<Job, Refusal> {
    let job = split(bytes)?;
    check_counts(&job)?;
    if !rules.sets {
        check_variables(&job)?;
    }
    check_parents(&job)?;
    match rules.order {
        true => check_order_and_tree(&job, rules, mistake)?,
        false => check_tree(&job, rules, mistake)?,
    }
    check_fields(&job.script, job.variables.len(), rules, mistake)?;
    match rules.spare {
        true => check_spare_and_blocks(&job, rules, mistake)?,
        false => check_blocks(&job.script, mistake)?,
    }
    Ok(job)
}

/// 13 is "checked after 5 and before 6".
fn check_order_and_tree(job: &Job, rules: &Rules, mistake: Mistake) -> Result<(), Refusal> {
    if mistake == Mistake::OrderAfterTree {
        check_tree(job, rules, mistake)?;
        return check_order(job, mistake);
    }
    check_order(job, mistake)?;
    check_tree(job, rules, mistake)
}

/// Checks 7, 12 and 8 of a bare script over so many variables: it has no records
/// of other sections.
pub fn check_script(script: &[Record], variables: usize, mistake: Mistake) -> Result<(), Refusal> {
    let rules = &today(mistake);
    check_fields(script, variables, rules, mistake)?;
    if mistake == Mistake::SectionSpareUnchecked {
        return check_blocks(script, mistake);
    }
    let bare = Job {
        script: script.to_vec(),
        ..Job::default()
    };
    check_spare_and_blocks(&bare, rules, mistake)
}

/// 12 is "checked after 7 and before 8".
fn check_spare_and_blocks(job: &Job, rules: &Rules, mistake: Mistake) -> Result<(), Refusal> {
    if mistake == Mistake::SpareAfterBlocks {
        check_blocks(&job.script, mistake)?;
        return check_spare(job, rules, mistake);
    }
    check_spare(job, rules, mistake)?;
    check_blocks(&job.script, mistake)
}

/// The records of a script section, a part record at its end left out.
pub fn records(section: &[u8]) -> Vec<Record> {
    section
        .chunks_exact(RECORD_BYTES)
        .map(record_from)
        .collect()
}

/// Checks 1 and 2, and the three sections with whatever they hold.
pub fn split(bytes: &[u8]) -> Result<Job, Refusal> {
    if bytes.len() < TRAILER_BYTES || bytes.len() > MAX_BYTES {
        return refuse(Ending::Size, 0);
    }
    let end = bytes.len() - TRAILER_BYTES;
    let offset = |place: usize| u16_at(bytes, end + 2 * place) as usize;
    let (variables, nodes, script, trailer) = (offset(0), offset(1), offset(2), offset(3));
    let ordered = variables == 0 && nodes <= script && script <= trailer && trailer == end;
    if !ordered {
        return refuse(Ending::Layout, 0);
    }
    let whole = nodes % VARIABLE_BYTES == 0
        && (script - nodes) % NODE_BYTES == 0
        && (trailer - script) % RECORD_BYTES == 0;
    if !whole {
        return refuse(Ending::Layout, 0);
    }
    Ok(Job {
        variables: bytes[..nodes]
            .chunks(VARIABLE_BYTES)
            .map(variable_from)
            .collect(),
        nodes: bytes[nodes..script]
            .chunks(NODE_BYTES)
            .map(node_from)
            .collect(),
        script: records(&bytes[script..trailer]),
    })
}

/// Check 3: "At most 64", "1 to 512 nodes", "At most 1,024".
fn check_counts(job: &Job) -> Result<(), Refusal> {
    let in_range = job.variables.len() <= MAX_VARIABLES
        && (1..=MAX_NODES).contains(&job.nodes.len())
        && job.script.len() <= MAX_RECORDS;
    if in_range {
        Ok(())
    } else {
        refuse(Ending::Count, 0)
    }
}

/// Check 4: "variable level above 1". From R-12 on it "is never given again" but by
/// the programs that keep older rules.
fn check_variables(job: &Job) -> Result<(), Refusal> {
    match job.variables.iter().position(|variable| variable.level > 1) {
        Some(index) => refuse(Ending::VariableLevel, index),
        None => Ok(()),
    }
}

/// Check 5: 65535 for record 0; "A parent comes before its children".
fn check_parents(job: &Job) -> Result<(), Refusal> {
    for (index, node) in job.nodes.iter().enumerate() {
        let right = match index {
            0 => node.parent == NO_PARENT,
            _ => (node.parent as usize) < index,
        };
        if !right {
            return refuse(Ending::Parent, index);
        }
    }
    Ok(())
}

/// Check 13: "a node after record 0 whose parent is neither the record before it
/// nor an ancestor of that record [...] with the first such record as index".
fn check_order(job: &Job, mistake: Mistake) -> Result<(), Refusal> {
    let hangs = |&index: &usize| {
        let parent = job.nodes[index].parent as usize;
        let before = match mistake {
            Mistake::OrderFromTheNode => index,
            _ => index - 1,
        };
        let most = match mistake {
            Mistake::OrderTwoUp => 2,
            _ => MAX_NODES,
        };
        way_up(&job.nodes, before)
            .take(most)
            .any(|above| above == parent)
    };
    match (1..job.nodes.len()).find(|index| !hangs(index)) {
        Some(index) => refuse(Ending::Order, index),
        None => Ok(()),
    }
}

/// A record, its parent, and so on up to the root, by parents that passed check 5.
fn way_up(nodes: &[Node], from: usize) -> impl Iterator<Item = usize> + '_ {
    std::iter::successors(Some(from), |&index| {
        (index > 0).then(|| nodes[index].parent as usize)
    })
}

/// Check 6: "level above 1, or a tree rule broken"; from R-12 on "only for a broken
/// tree rule".
fn check_tree(job: &Job, rules: &Rules, mistake: Mistake) -> Result<(), Refusal> {
    for index in 0..job.nodes.len() {
        let Node {
            existence,
            content,
            list,
            ..
        } = job.nodes[index];
        let levels = rules.sets
            || [existence, content, list]
                .iter()
                .all(|&level| level <= HOUSE);
        if !levels || !node_keeps_rules(&job.nodes, index, mistake) {
            return refuse(Ending::Tree, index);
        }
    }
    Ok(())
}

/// "the root has existence 0; content and list are not below existence; a
/// child's existence is not below its parent's existence, not above its
/// parent's list level, and not below that of the sibling to its left." "not above
/// means contained in, and below in the tree rules means not containing" (R-12)
fn node_keeps_rules(nodes: &[Node], index: usize, mistake: Mistake) -> bool {
    let within = |a: Level, b: Level| match mistake {
        Mistake::TreeSetsCompared => a <= b,
        _ => within(a, b),
    };
    let node = &nodes[index];
    if !within(node.existence, node.content) || !within(node.existence, node.list) {
        return false;
    }
    if index == 0 {
        return node.existence == PUBLIC;
    }
    let parent = &nodes[node.parent as usize];
    if !within(parent.existence, node.existence) || !within(node.existence, parent.list) {
        return false;
    }
    match left_sibling(nodes, index, mistake) {
        Some(left) => within(nodes[left].existence, node.existence),
        None => true,
    }
}

/// "left means the nearest earlier record with the same parent"
fn left_sibling(nodes: &[Node], index: usize, mistake: Mistake) -> Option<usize> {
    let same_parent = |earlier: &usize| nodes[*earlier].parent == nodes[index].parent;
    if mistake == Mistake::LeftIsPreviousRecord {
        return index.checked_sub(1).filter(same_parent);
    }
    (0..index).rev().find(same_parent)
}

/// Check 7: a command that there is not, "or a field read is out of range
/// (variable index, operator, kind, mark)".
fn check_fields(
    script: &[Record],
    variables: usize,
    rules: &Rules,
    mistake: Mistake,
) -> Result<(), Refusal> {
    let in_range = |record: &Record| {
        (record.command as usize) < rules.commands
            && fields_in_range(record, variables, rules.rows(), mistake)
    };
    match script.iter().position(|record| !in_range(record)) {
        Some(index) => refuse(Ending::Field, index),
        None => Ok(()),
    }
}

fn fields_in_range(record: &Record, variables: usize, rows: &Rows, mistake: Mistake) -> bool {
    let Some(reads) = rows.get(record.command as usize) else {
        return false;
    };
    let target = match reads.target {
        // Each byte is a set.
        Target::Ignored | Target::Readers => true,
        Target::Variable => (record.target as usize) < variables,
        Target::Mark => record.target <= 3,
    };
    if !reads.expression {
        return target;
    }
    // Operator 0: "left alone (right side ignored)".
    let right_read =
        record.operator != operator::LEFT || mistake == Mistake::RightSideAlwaysChecked;
    target
        && record.operator <= operator::MEAN
        && operand_in_range(record.left_kind, record.left, variables)
        && (!right_read || operand_in_range(record.right_kind, record.right, variables))
}

/// "For kinds 2 and 3 the number is ignored."
fn operand_in_range(kind: u8, number: u32, variables: usize) -> bool {
    match kind {
        kind::CONSTANT | kind::VALUE | kind::CHILDREN => true,
        kind::VARIABLE => (number as usize) < variables,
        _ => false,
    }
}

/// Check 12: "a spare byte not zero [...] its index is the record's own in its
/// section, and sections are searched in file order".
fn check_spare(job: &Job, rules: &Rules, mistake: Mistake) -> Result<(), Refusal> {
    let rows = match mistake {
        Mistake::SetsStaySpare => &FIRST_READS,
        _ => rules.rows(),
    };
    let plain = job.plain(rows, mistake);
    let variable = unlike(&job.variables, &plain.variables);
    let node = unlike(&job.nodes, &plain.nodes);
    let record = unlike(&job.script, &plain.script);
    let first = match mistake {
        Mistake::SpareScriptFirst => record.or(variable).or(node),
        _ => variable.or(node).or(record),
    };
    match first {
        Some(index) => refuse(Ending::Spare, index),
        None => Ok(()),
    }
}

/// The first place at which two sections are not the same.
fn unlike<T: PartialEq>(section: &[T], other: &[T]) -> Option<usize> {
    section.iter().zip(other).position(|(a, b)| a != b)
}

/// A block of an accepted script, by record indexes.
#[derive(Clone, Copy, Debug, PartialEq, Eq)]
pub struct Block {
    pub opening: usize,
    pub otherwise: Option<usize>,
    pub end: usize,
}

/// Check 8.
fn check_blocks(script: &[Record], mistake: Mistake) -> Result<(), Refusal> {
    match pair_blocks(script, mistake) {
        Ok(_) => Ok(()),
        Err(index) => refuse(Ending::Block, index),
    }
}

/// The blocks of a script in the order of their ends, or the index of check 8:
/// "else with no block open or whose innermost open block is no if, end with
/// none open, second else, unclosed block, 17th nested block"; "for an
/// unclosed block, the number of records".
pub fn pair_blocks(script: &[Record], mistake: Mistake) -> Result<Vec<Block>, usize> {
    let most = match mistake {
        Mistake::SeventeenBlocksAccepted => MAX_BLOCKS + 1,
        _ => MAX_BLOCKS,
    };
    let mut open: Vec<Block> = Vec::new();
    let mut closed = Vec::new();
    for (index, record) in script.iter().enumerate() {
        match record.command {
            command::IF | command::IF_BACK | command::WHILE => {
                if open.len() == most {
                    return Err(index);
                }
                open.push(Block {
                    opening: index,
                    otherwise: None,
                    end: index,
                });
            }
            command::ELSE => match open.last_mut() {
                Some(block)
                    if is_if(script[block.opening].command, mistake)
                        && block.otherwise.is_none() =>
                {
                    block.otherwise = Some(index);
                }
                _ => return Err(index),
            },
            command::END => {
                let block = open.pop().ok_or(index)?;
                closed.push(Block {
                    end: index,
                    ..block
                });
            }
            _ => {}
        }
    }
    if open.is_empty() {
        Ok(closed)
    } else {
        Err(script.len())
    }
}

/// Command 17 is "an if" too.
fn is_if(command: u8, mistake: Mistake) -> bool {
    match command {
        command::IF => true,
        command::IF_BACK => mistake != Mistake::BackHasNoElse,
        _ => false,
    }
}

impl Record {
    /// The fields that `self` reads, with all others taken from `other`.
    pub fn over(&self, other: &Record) -> Record {
        self.over_by(&READS, other)
    }

    /// The same by the rows of a day.
    pub fn over_by(&self, rows: &Rows, other: &Record) -> Record {
        let mut record = Record {
            command: self.command,
            ..*other
        };
        let Some(reads) = rows.get(self.command as usize) else {
            return record;
        };
        if reads.target != Target::Ignored {
            record.target = self.target;
        }
        record.sets[..reads.sets].copy_from_slice(&self.sets[..reads.sets]);
        if !reads.expression {
            return record;
        }
        record.operator = self.operator;
        record.left_kind = self.left_kind;
        if number_read(self.left_kind) {
            record.left = self.left;
        }
        if self.operator == operator::LEFT {
            return record;
        }
        record.right_kind = self.right_kind;
        if number_read(self.right_kind) {
            record.right = self.right;
        }
        record
    }

    /// The record with 0 in every field that is not read.
    pub fn plain(&self) -> Record {
        self.over(&Record::default())
    }

    /// The same by the rows of a day, and by a monitor with `mistake`.
    fn plain_by(&self, rows: &Rows, mistake: Mistake) -> Record {
        let mut record = self.over_by(rows, &Record::default());
        let reads = rows.get(self.command as usize);
        let forgets = mistake == Mistake::UnreadNumberForgotten;
        if forgets && reads.is_some_and(|reads| reads.expression) {
            record.left = self.left;
        }
        record
    }
}

/// "For kinds 2 and 3 the number is ignored."
fn number_read(kind: u8) -> bool {
    kind != kind::VALUE && kind != kind::CHILDREN
}

impl Job {
    /// The job with 0 in every byte that nobody reads.
    pub fn plain(&self, rows: &Rows, mistake: Mistake) -> Job {
        let clean = |record: &Record| record.plain_by(rows, mistake);
        Job {
            variables: self
                .variables
                .iter()
                .map(|&variable| Variable {
                    spare: [0; 3],
                    ..variable
                })
                .collect(),
            nodes: self
                .nodes
                .iter()
                .map(|&node| Node {
                    spare: [0; 3],
                    ..node
                })
                .collect(),
            script: self.script.iter().map(clean).collect(),
        }
    }

    /// The bytes of the job: variables, nodes, script, trailer.
    pub fn encode(&self) -> Vec<u8> {
        let mut bytes = Vec::new();
        for variable in &self.variables {
            bytes.push(variable.level);
            bytes.extend(variable.spare);
            bytes.extend(variable.value.to_le_bytes());
        }
        let nodes = bytes.len();
        for node in &self.nodes {
            bytes.extend(node.parent.to_le_bytes());
            bytes.extend([node.existence, node.content, node.list]);
            bytes.extend(node.spare);
            bytes.extend(node.value.to_le_bytes());
        }
        let script = bytes.len();
        bytes.extend(section(&self.script));
        let trailer = bytes.len();
        for offset in [0, nodes, script, trailer] {
            bytes.extend((offset as u16).to_le_bytes());
        }
        bytes
    }
}

/// The bytes of a script section.
pub fn section(script: &[Record]) -> Vec<u8> {
    let mut bytes = Vec::new();
    for record in script {
        bytes.extend([record.command, record.target, record.operator]);
        bytes.extend([record.left_kind, record.right_kind]);
        bytes.extend(record.sets);
        bytes.push(record.spare);
        bytes.extend(record.left.to_le_bytes());
        bytes.extend(record.right.to_le_bytes());
    }
    bytes
}

/// "Numbers are little-endian".
fn u16_at(bytes: &[u8], place: usize) -> u16 {
    u16::from_le_bytes([bytes[place], bytes[place + 1]])
}

fn u32_at(bytes: &[u8], place: usize) -> u32 {
    u32::from_le_bytes([
        bytes[place],
        bytes[place + 1],
        bytes[place + 2],
        bytes[place + 3],
    ])
}

fn spare_at(bytes: &[u8], place: usize) -> [u8; 3] {
    [bytes[place], bytes[place + 1], bytes[place + 2]]
}

fn variable_from(bytes: &[u8]) -> Variable {
    Variable {
        level: bytes[0],
        spare: spare_at(bytes, 1),
        value: u32_at(bytes, 4) as i32,
    }
}

fn node_from(bytes: &[u8]) -> Node {
    Node {
        parent: u16_at(bytes, 0),
        existence: bytes[2],
        content: bytes[3],
        list: bytes[4],
        spare: spare_at(bytes, 5),
        value: u32_at(bytes, 8) as i32,
    }
}

fn record_from(bytes: &[u8]) -> Record {
    Record {
        command: bytes[0],
        target: bytes[1],
        operator: bytes[2],
        left_kind: bytes[3],
        right_kind: bytes[4],
        sets: [bytes[5], bytes[6]],
        spare: bytes[7],
        left: u32_at(bytes, 8),
        right: u32_at(bytes, 12),
    }
}
