//! Checks 1 to 8, with 13 before 6 and 12 before 8, and no 4 since R-12. Each section is read once; of
//! two faults the one whose check comes first is given.

use crate::arena::{Node, NONE};
use crate::{ending, within, Answer, Buffers, Op, Variable};
use crate::{MAX_BLOCKS, MAX_BYTES, MAX_NODES, MAX_RECORDS, MAX_VARIABLES};

/// Codes of decoded records: the paper's command numbers, with the three kinds of
/// end apart.
pub mod code {
    pub const NOTHING: u8 = 0;
    pub const ASSIGN: u8 = 1;
    pub const IF: u8 = 2;
    pub const ELSE: u8 = 3;
    pub const WHILE: u8 = 4;
    pub const END: u8 = 5;
    pub const PRINT: u8 = 6;
    pub const ROOT: u8 = 7;
    pub const UP: u8 = 8;
    pub const FIRST_CHILD: u8 = 9;
    pub const RIGHT_SIBLING: u8 = 10;
    pub const NEW_FIRST_CHILD: u8 = 11;
    pub const NEW_RIGHT_SIBLING: u8 = 12;
    pub const REMOVE_FIRST_CHILD: u8 = 13;
    pub const REMOVE_RIGHT_SIBLING: u8 = 14;
    pub const SET_VALUE: u8 = 15;
    pub const COVER: u8 = 16;
    pub const IF_BACK: u8 = 17;
    pub const LEFT_SIBLING: u8 = 18;
    pub const LAST_CHILD: u8 = 19;
    pub const END_WHILE: u8 = 20;
    pub const END_BACK: u8 = 21;
    pub const FINISH: u8 = 22;
}

pub mod kind {
    pub const CONSTANT: u8 = 0;
    pub const VARIABLE: u8 = 1;
    pub const VALUE: u8 = 2;
    pub const CHILDREN: u8 = 3;
}

pub mod operator {
    pub const LEFT: u8 = 0;
    pub const SUM: u8 = 1;
    pub const DIFFERENCE: u8 = 2;
    pub const EQUAL: u8 = 3;
    pub const LESS: u8 = 4;
    pub const MEAN: u8 = 5;
}

/// What a command reads besides its number.
const EXPRESSION: u8 = 1;
const VARIABLE_TARGET: u8 = 2;
const MARK_TARGET: u8 = 4;
const READERS_TARGET: u8 = 8;
/// Byte 5; byte 6.
const FIRST_SET: u8 = 16;
const SECOND_SET: u8 = 32;
const TARGET: u8 = VARIABLE_TARGET | MARK_TARGET | READERS_TARGET;

/// "Commands 1, 2, 4, 6, 11, 12 and 15 read an expression." "Bytes 5 and 6 stop being
/// spare for commands 11 and 12, byte 5 for 16 and byte 1 for 6" (R-12).
const READS: [u8; 20] = [
    0,
    EXPRESSION | VARIABLE_TARGET,
    EXPRESSION,
    0,
    EXPRESSION,
    0,
    EXPRESSION | READERS_TARGET,
    0,
    0,
    0,
    0,
    EXPRESSION | MARK_TARGET | FIRST_SET | SECOND_SET,
    EXPRESSION | MARK_TARGET | FIRST_SET | SECOND_SET,
    0,
    0,
    EXPRESSION,
    FIRST_SET,
    EXPRESSION,
    0,
    0,
];

/// Fills `buffers` from an accepted job. Where the job is turned back they
/// hold nothing of use.
#[inline(always)]
pub fn check(buffers: &mut Buffers, job: &[u8]) -> Result<(), Answer> {
    let refuse = |ending, index| Err(Answer::turned_back(ending, index));
    if job.len() < 8 || job.len() > MAX_BYTES {
        return refuse(ending::SIZE, 0);
    }
    let end = job.len() - 8;
    let offset =
        |place: usize| u16::from_le_bytes([job[end + place], job[end + place + 1]]) as usize;
    let (variables, nodes, script, trailer) = (offset(0), offset(2), offset(4), offset(6));
    let ordered = variables == 0 && nodes <= script && script <= trailer && trailer == end;
    if !ordered {
        return refuse(ending::LAYOUT, 0);
    }
    if nodes % 8 != 0 || (script - nodes) % 12 != 0 || (trailer - script) % 16 != 0 {
        return refuse(ending::LAYOUT, 0);
    }
    let counts = (nodes / 8, (script - nodes) / 12, (trailer - script) / 16);
    if counts.0 > MAX_VARIABLES || !(1..=MAX_NODES).contains(&counts.1) || counts.2 > MAX_RECORDS {
        return refuse(ending::COUNT, 0);
    }
    let variable = check_variables(buffers, &job[..nodes]);
    let node = check_nodes(buffers, &job[nodes..script])?;
    check_script(buffers, &job[script..trailer], variable.or(node))
}

/// The first variable with a spare byte that is not zero.
fn check_variables(buffers: &mut Buffers, section: &[u8]) -> Option<usize> {
    buffers.variable_count = section.len() / 8;
    let mut spare = None;
    for (index, (bytes, variable)) in section
        .chunks_exact(8)
        .zip(&mut buffers.variables)
        .enumerate()
    {
        if spare.is_none() && bytes[1] | bytes[2] | bytes[3] != 0 {
            spare = Some(index);
        }
        *variable = Variable {
            level: bytes[0],
            value: number(bytes, 4),
        };
    }
    spare
}

/// Checks 5, 13 and 6, and the first node with a spare byte that is not zero. A 5
/// in any record comes before a 13 in any other, and that before a 6.
fn check_nodes(buffers: &mut Buffers, section: &[u8]) -> Result<Option<usize>, Answer> {
    let parent = |bytes: &[u8]| u16::from_le_bytes([bytes[0], bytes[1]]);
    let mut astray = None;
    for (index, bytes) in section.chunks_exact(12).enumerate() {
        let above = parent(bytes) as usize;
        let right = match index {
            0 => above == 65_535,
            _ => above < index,
        };
        if !right {
            return Err(Answer::turned_back(ending::PARENT, index));
        }
        if index > 0 && astray.is_none() {
            // Up from the record before: what is left here no later node hangs below,
            // so that all ways up together are no longer than the section.
            let mut last = index - 1;
            while last > above {
                last = parent(&section[12 * last..]) as usize;
            }
            if last != above {
                astray = Some(index);
            }
        }
    }
    if let Some(index) = astray {
        return Err(Answer::turned_back(ending::ORDER, index));
    }
    let arena = &mut buffers.arena;
    arena.clear();
    let mut spare = None;
    for (index, bytes) in section.chunks_exact(12).enumerate() {
        let node = Node {
            parent: parent(bytes),
            existence: bytes[2],
            content: bytes[3],
            list: bytes[4],
            value: number(bytes, 8),
            ..Node::default()
        };
        let (e, c, l) = (node.existence, node.content, node.list);
        let mut keeps = within(e, c & l);
        if index == 0 {
            keeps = keeps && e == 0;
        } else {
            let above = arena.at(node.parent);
            keeps = keeps && within(above.existence, e) && within(e, above.list);
            let left = arena.last_child(node.parent);
            if left != NONE {
                keeps = keeps && within(arena.at(left).existence, e);
            }
        }
        if !keeps {
            return Err(Answer::turned_back(ending::TREE, index));
        }
        if spare.is_none() && bytes[5] | bytes[6] | bytes[7] != 0 {
            spare = Some(index);
        }
        arena.load(node);
    }
    Ok(spare)
}

/// An open block: its opening, and the if or else that must learn of its end.
#[derive(Clone, Copy, Default)]
struct Open {
    opening: u16,
    is_if: bool,
    comes_back: bool,
    otherwise: Option<u16>,
}

/// Checks 7, 12 and 8. A 7 in any record comes before a 12 or an 8 in any other,
/// so the first of these is kept until all fields have been read; `front` is the
/// first record in front of the script with a spare byte that is not zero.
pub fn check_script(
    buffers: &mut Buffers,
    section: &[u8],
    front: Option<usize>,
) -> Result<(), Answer> {
    let count = section.len() / 16;
    let variables = buffers.variable_count;
    let ops = &mut buffers.ops;
    let mut open = [Open::default(); MAX_BLOCKS];
    let mut depth = 0;
    let mut fault = None;
    let mut spare = front;
    for (index, bytes) in section.chunks_exact(16).enumerate() {
        let Some(mut op) = decoded(bytes, variables) else {
            return Err(Answer::turned_back(ending::FIELD, index));
        };
        if spare.is_none() && !clean(bytes) {
            spare = Some(index);
        }
        if fault.is_none() {
            match op.code {
                code::IF | code::IF_BACK | code::WHILE => {
                    if depth == MAX_BLOCKS {
                        fault = Some(index);
                    } else {
                        open[depth] = Open {
                            opening: index as u16,
                            is_if: op.code != code::WHILE,
                            comes_back: op.code == code::IF_BACK,
                            otherwise: None,
                        };
                        depth += 1;
                    }
                }
                code::ELSE => match open[..depth].last_mut() {
                    Some(block) if block.is_if && block.otherwise.is_none() => {
                        block.otherwise = Some(index as u16);
                    }
                    _ => fault = Some(index),
                },
                code::END => {
                    if depth == 0 {
                        fault = Some(index);
                    } else {
                        depth -= 1;
                        close(ops, open[depth], index as u16, &mut op);
                    }
                }
                _ => {}
            }
        }
        ops[index] = op;
    }
    ops[count] = Op {
        code: code::FINISH,
        ..Op::default()
    };
    if let Some(index) = spare {
        return Err(Answer::turned_back(ending::SPARE, index));
    }
    match fault {
        Some(index) => Err(Answer::turned_back(ending::BLOCK, index)),
        None if depth > 0 => Err(Answer::turned_back(ending::BLOCK, count)),
        None => Ok(()),
    }
}

/// Sets the jumps of a block that ends at `end`.
#[inline(always)]
fn close(ops: &mut [Op; MAX_RECORDS + 1], block: Open, end: u16, op: &mut Op) {
    let opening = &mut ops[block.opening as usize];
    if !block.is_if {
        opening.jump = end + 1;
        op.code = code::END_WHILE;
        op.jump = block.opening;
        return;
    }
    if block.comes_back {
        op.code = code::END_BACK;
    }
    match block.otherwise {
        None => opening.jump = end,
        Some(otherwise) => {
            opening.jump = otherwise + 1;
            ops[otherwise as usize].jump = end;
        }
    }
}

/// The record, or none where check 7 turns it back.
#[inline(always)]
fn decoded(bytes: &[u8], variables: usize) -> Option<Op> {
    let reads = *READS.get(bytes[0] as usize)?;
    let op = Op {
        code: bytes[0],
        target: bytes[1],
        operator: bytes[2],
        left_kind: bytes[3],
        right_kind: bytes[4],
        sets: [bytes[5], bytes[6]],
        jump: 0,
        left: number(bytes, 8),
        right: number(bytes, 12),
    };
    if reads & EXPRESSION == 0 {
        return Some(op);
    }
    let target = match reads & TARGET {
        VARIABLE_TARGET => (op.target as usize) < variables,
        MARK_TARGET => op.target <= 3,
        _ => true,
    };
    let in_range = |kind: u8, number: i32| match kind {
        kind::VARIABLE => (number as u32 as usize) < variables,
        _ => kind <= kind::CHILDREN,
    };
    let right = op.operator == operator::LEFT || in_range(op.right_kind, op.right);
    let fields = op.operator <= operator::MEAN && in_range(op.left_kind, op.left) && right;
    (target && fields).then_some(op)
}

/// Whether the bytes that a right record does not read are zero.
#[inline(always)]
fn clean(bytes: &[u8]) -> bool {
    let word = |at: usize| number(bytes, at);
    let reads = READS[bytes[0] as usize];
    let sets = (reads & FIRST_SET != 0 || bytes[5] == 0)
        && (reads & SECOND_SET != 0 || bytes[6] == 0)
        && bytes[7] == 0;
    if reads & EXPRESSION == 0 {
        return sets && word(0) == bytes[0] as i32 && bytes[4] == 0 && word(8) | word(12) == 0;
    }
    let target = reads & TARGET != 0 || bytes[1] == 0;
    let unread = |kind: u8, at: usize| kind >= kind::VALUE && word(at) != 0;
    let right = match bytes[2] {
        operator::LEFT => bytes[4] == 0 && word(12) == 0,
        _ => !unread(bytes[4], 12),
    };
    sets && target && right && !unread(bytes[3], 8)
}

#[inline(always)]
fn number(bytes: &[u8], at: usize) -> i32 {
    i32::from_le_bytes([bytes[at], bytes[at + 1], bytes[at + 2], bytes[at + 3]])
}
