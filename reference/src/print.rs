//! Jobs, cases and outcomes in a form to read.

use std::fmt::Write;

use crate::generate::{Case, Pair};
use crate::job::{self, command, kind, operator, Job, Node, Record, Target, NO_PARENT, READS};
use crate::run::Outcome;
use crate::{Level, PUBLIC};

/// Variables, tree and script of a job, accepted or not.
pub fn job(job: &Job) -> String {
    let mut text = String::from("variables\n");
    for (index, variable) in job.variables.iter().enumerate() {
        let level = level_name(variable.level);
        writeln!(text, "  v{index} {level} = {}", variable.value).unwrap();
    }
    text += "tree (record: value, levels existence content list)\n";
    text += &tree(&job.nodes);
    text += "script\n";
    text += &script(&job.script);
    text
}

/// The job and the limits; bytes in hexadecimal where there are no sections.
pub fn case(case: &Case) -> String {
    let body = match job::split(&case.bytes) {
        Ok(parts) => job(&parts),
        Err(_) => format!("{} bytes\n{}\n", case.bytes.len(), hexadecimal(&case.bytes)),
    };
    let limits = &case.limits;
    format!(
        "{body}budget {}, places {}, variable buffer {}, line buffer {}\n",
        limits.budget, limits.places, limits.variables, limits.lines
    )
}

/// The bytes of a job, or of a bare script section, where they have sections
/// or records.
pub fn section(is_job: bool, bytes: &[u8]) -> String {
    match (is_job, job::split(bytes)) {
        (true, Ok(parts)) => job(&parts),
        (false, _) if bytes.len() % job::RECORD_BYTES == 0 => script(&job::records(bytes)),
        _ => format!("{} bytes\n{}\n", bytes.len(), hexadecimal(bytes)),
    }
}

pub fn pair(pair: &Pair) -> String {
    let (left, right) = (case(&pair.left), case(&pair.right));
    format!("reader {}\nleft\n{left}right\n{right}", pair.reader)
}

pub fn outcome(outcome: &Outcome) -> String {
    let mut text = format!(
        "ending {} ({:?}) at {}, steps {}, lines {:?}\n",
        outcome.ending.number(),
        outcome.ending,
        outcome.index,
        outcome.steps,
        outcome
            .lines
            .iter()
            .map(|line| (line.number, line.readers))
            .collect::<Vec<_>>()
    );
    let Some(last) = &outcome.last else {
        return text;
    };
    for (index, &(level, value)) in last.variables.iter().enumerate() {
        writeln!(text, "  v{index} {} = {value}", level_name(level)).unwrap();
    }
    for row in &last.tree {
        let indent = "  ".repeat(row.depth + 1);
        let (e, c, l) = (row.existence, row.content, row.list);
        writeln!(text, "{indent}{} [{e} {c} {l}]", row.value).unwrap();
    }
    text
}

pub fn hexadecimal(bytes: &[u8]) -> String {
    bytes.iter().map(|byte| format!("{byte:02x}")).collect()
}

fn level_name(level: Level) -> String {
    match level {
        0 => String::from("public"),
        1 => String::from("house"),
        other => format!("set {other}"),
    }
}

/// Records indented below their parents; one after the other, with the
/// parent's index, where the parents make no tree.
fn tree(nodes: &[Node]) -> String {
    let in_order = |(index, node): (usize, &Node)| match index {
        0 => node.parent == NO_PARENT,
        _ => (node.parent as usize) < index,
    };
    let mut text = String::new();
    if !nodes.is_empty() && nodes.iter().enumerate().all(in_order) {
        write_subtree(nodes, 0, 1, &mut text);
        return text;
    }
    for (index, node) in nodes.iter().enumerate() {
        writeln!(text, "  {}, parent {}", node_text(index, node), node.parent).unwrap();
    }
    text
}

fn write_subtree(nodes: &[Node], index: usize, depth: usize, text: &mut String) {
    writeln!(
        text,
        "{}{}",
        "  ".repeat(depth),
        node_text(index, &nodes[index])
    )
    .unwrap();
    for child in index + 1..nodes.len() {
        if nodes[child].parent as usize == index {
            write_subtree(nodes, child, depth + 1, text);
        }
    }
}

fn node_text(index: usize, node: &Node) -> String {
    let Node {
        existence,
        content,
        list,
        value,
        ..
    } = node;
    format!("{index}: {value} [{existence} {content} {list}]")
}

fn script(records: &[Record]) -> String {
    let mut text = String::new();
    let mut depth = 0usize;
    for (index, record) in records.iter().enumerate() {
        if matches!(record.command, command::ELSE | command::END) {
            depth = depth.saturating_sub(1);
        }
        writeln!(
            text,
            "  {index:>4}  {}{}",
            "  ".repeat(depth),
            self::record(record)
        )
        .unwrap();
        if matches!(
            record.command,
            command::IF | command::ELSE | command::WHILE | command::IF_BACK
        ) {
            depth += 1;
        }
    }
    text
}

/// One script record, with the fields that it reads.
pub fn record(record: &Record) -> String {
    let Some(reads) = READS.get(record.command as usize) else {
        return format!("command {}", record.command);
    };
    let mut text = String::from(COMMAND_NAMES[record.command as usize]);
    match reads.target {
        Target::Ignored => {}
        Target::Variable => text += &format!(" v{} :=", record.target),
        Target::Mark => text += &format!(" mark {},", record.target),
        Target::Readers if record.target == PUBLIC => {}
        Target::Readers => text += &format!(" for {},", record.target),
    }
    for (set, what) in record.sets.iter().zip(["set", "list set"]).take(reads.sets) {
        if *set != PUBLIC {
            text += &format!(" {what} {set},");
        }
    }
    if reads.expression {
        text += &format!(" {}", expression(record));
    }
    text
}

const COMMAND_NAMES: [&str; command::COUNT] = [
    "nothing",
    "set",
    "if",
    "else",
    "while",
    "end",
    "print",
    "root",
    "up",
    "first child",
    "right sibling",
    "new first child",
    "new right sibling",
    "remove first child",
    "remove right sibling",
    "set value",
    "cover",
    "if and come back",
    "left sibling",
    "last child",
];

fn expression(record: &Record) -> String {
    let left = operand(record.left_kind, record.left);
    let right = operand(record.right_kind, record.right);
    match record.operator {
        operator::LEFT => left,
        operator::SUM => format!("{left} + {right}"),
        operator::DIFFERENCE => format!("{left} - {right}"),
        operator::EQUAL => format!("{left} = {right}"),
        operator::LESS => format!("{left} < {right}"),
        operator::MEAN => format!("mean of {left} and {right}"),
        other => format!("{left} operator {other} {right}"),
    }
}

fn operand(kind: u8, number: u32) -> String {
    match kind {
        kind::CONSTANT => format!("{}", number as i32),
        kind::VARIABLE => format!("v{number}"),
        kind::VALUE => String::from("value"),
        kind::CHILDREN => String::from("children"),
        other => format!("kind {other} {number}"),
    }
}
