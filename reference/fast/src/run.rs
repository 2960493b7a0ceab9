//! Checks 9 and 10, and the steps.

use crate::arena::{Arena, Node, NONE};
use crate::check::{check, code, kind, operator};
use crate::{ending, within, Answer, Buffers, Limits, Op, Variable, LINE_BYTES};
use crate::{MAX_BLOCKS, MAX_BUDGET, MAX_NODES, MAX_VARIABLES};

/// The answer for a job; its lines go to `area`, 5 bytes each: 4 little-endian ones and
/// the reader set.
/// What is left in `buffers` after a run is the last state.
pub fn run(buffers: &mut Buffers, job: &[u8], limits: Limits, area: &mut [u8]) -> Answer {
    match admit(buffers, job, limits) {
        Ok(()) => steps(buffers, limits.budget as u32, limits.places, area),
        Err(answer) => answer,
    }
}

/// All checks of a job; what it holds goes into `buffers`.
pub fn admit(buffers: &mut Buffers, job: &[u8], limits: Limits) -> Result<(), Answer> {
    check(buffers, job)?;
    if limits.budget < 1 || limits.budget > MAX_BUDGET {
        return Err(Answer::turned_back(ending::BUDGET, 0));
    }
    let table = limits.places <= MAX_NODES && limits.places >= buffers.arena.used();
    if !table || limits.variables < buffers.variable_count {
        return Err(Answer::turned_back(ending::BUFFER, 0));
    }
    Ok(())
}

/// An expression's value, none where it leaves the range, and its level E.
#[inline(always)]
fn evaluate(
    op: &Op,
    variables: &[Variable; MAX_VARIABLES],
    node: &Node,
    level: u8,
) -> (Option<i32>, u8) {
    let (left, left_level) = operand(op.left_kind, op.left, variables, node, level);
    if op.operator == operator::LEFT {
        return (Some(left), left_level);
    }
    let (right, right_level) = operand(op.right_kind, op.right, variables, node, level);
    let value = match op.operator {
        operator::SUM => left.checked_add(right),
        operator::DIFFERENCE => left.checked_sub(right),
        operator::EQUAL => Some((left == right) as i32),
        operator::LESS => Some((left < right) as i32),
        _ => Some(((left as i64 + right as i64) >> 1) as i32),
    };
    (value, left_level | right_level)
}

/// Check 7 has seen to it that a variable's index is below their number.
#[inline(always)]
fn operand(
    kind: u8,
    number: i32,
    variables: &[Variable; MAX_VARIABLES],
    node: &Node,
    level: u8,
) -> (i32, u8) {
    match kind {
        kind::CONSTANT => (number, 0),
        kind::VARIABLE => {
            let variable = &variables[number as u32 as usize % MAX_VARIABLES];
            (variable.value, variable.level)
        }
        kind::VALUE => (node.value, level | node.content),
        _ => (node.children as i32, level | node.list),
    }
}

/// Commands 8, 9, 10 and 18: "cursor level joins the new node's existence".
#[inline(always)]
fn go(
    arena: &Arena,
    to: u16,
    context: u8,
    cursor: &mut u16,
    cursor_level: &mut u8,
) -> Result<(), u8> {
    if to == NONE {
        return Err(ending::MISSING);
    }
    if !within(context, *cursor_level) {
        return Err(ending::RULE);
    }
    *cursor = to;
    *cursor_level |= arena.at(to).existence;
    Ok(())
}

/// "content is L, and 1 if the mark is odd; list is C, and 1 if the mark is 2
/// or 3", with the sets of bytes 5 and 6 (R-12)
#[inline(always)]
fn new_node(op: &Op, value: i32, e: u8, c: u8) -> Node {
    let mark = op.target;
    Node {
        value,
        existence: c,
        content: e | c | (mark & 1) | op.sets[0],
        list: c | (mark >> 1) | op.sets[1],
        ..Node::default()
    }
}

/// What an if that comes back remembers: its node's place and how many were
/// removed there so far, and the cursor level.
#[derive(Clone, Copy, Default)]
struct Back {
    place: u16,
    level: u8,
    removed: u32,
}

/// What stands of a run between two of its turns, besides its buffers.
#[derive(Clone, Copy, Default)]
pub struct Paused {
    cursor: u16,
    cursor_level: u8,
    /// The context, and what it was outside of each open block.
    context: u8,
    outer: [u8; MAX_BLOCKS],
    depth: usize,
    /// What the open blocks remember that come back, the outermost first.
    backs: [Back; MAX_BLOCKS],
    back_count: usize,
    next: usize,
    lines: usize,
}

/// The steps of a script that passed its checks, over what `buffers` hold.
pub fn steps(buffers: &mut Buffers, budget: u32, places: usize, area: &mut [u8]) -> Answer {
    go_on(buffers, &mut Paused::default(), budget, places, area)
}

/// The same from where a run stands, with so many steps, which are those of the answer.
pub fn go_on(
    buffers: &mut Buffers,
    paused: &mut Paused,
    budget: u32,
    places: usize,
    area: &mut [u8],
) -> Answer {
    let Buffers {
        variables,
        arena,
        ops,
        ..
    } = buffers;
    let Paused {
        mut cursor,
        mut cursor_level,
        mut context,
        mut outer,
        mut depth,
        mut backs,
        mut back_count,
        mut next,
        mut lines,
    } = *paused;
    let mut left = budget;
    let (ending, index) = loop {
        let op = &ops[next];
        // "At the script's end the run has finished, even with the budget used up."
        if left == 0 && op.code != code::FINISH {
            break (ending::BUDGET_USED, next);
        }
        let c = context | cursor_level;
        match op.code {
            code::NOTHING => next += 1,
            code::ASSIGN => {
                let (value, e) = evaluate(op, variables, arena.at(cursor), cursor_level);
                let target = &mut variables[op.target as usize % MAX_VARIABLES];
                if !within(e | context, target.level) {
                    break (ending::RULE, next);
                }
                let Some(value) = value else {
                    break (ending::OUT_OF_RANGE, next);
                };
                target.value = value;
                next += 1;
            }
            code::IF => {
                let (value, e) = evaluate(op, variables, arena.at(cursor), cursor_level);
                let Some(value) = value else {
                    break (ending::OUT_OF_RANGE, next);
                };
                outer[depth % MAX_BLOCKS] = context;
                depth += 1;
                context |= e;
                next = if value == 0 {
                    op.jump as usize
                } else {
                    next + 1
                };
            }
            code::IF_BACK => {
                let (value, e) = evaluate(op, variables, arena.at(cursor), cursor_level);
                let Some(value) = value else {
                    break (ending::OUT_OF_RANGE, next);
                };
                outer[depth % MAX_BLOCKS] = context;
                depth += 1;
                context |= e;
                backs[back_count % MAX_BLOCKS] = Back {
                    place: cursor,
                    level: cursor_level,
                    removed: arena.removed(cursor),
                };
                back_count += 1;
                cursor_level |= context;
                next = if value == 0 {
                    op.jump as usize
                } else {
                    next + 1
                };
            }
            code::END_BACK => {
                let back = backs[(back_count - 1) % MAX_BLOCKS];
                if arena.removed(back.place) != back.removed {
                    break (ending::MISSING, next);
                }
                back_count -= 1;
                depth -= 1;
                context = outer[depth % MAX_BLOCKS];
                cursor = back.place;
                cursor_level = back.level;
                next += 1;
            }
            code::ELSE => next = op.jump as usize,
            code::WHILE => {
                let (value, e) = evaluate(op, variables, arena.at(cursor), cursor_level);
                let Some(value) = value else {
                    break (ending::OUT_OF_RANGE, next);
                };
                if value == 0 {
                    next = op.jump as usize;
                } else {
                    outer[depth % MAX_BLOCKS] = context;
                    depth += 1;
                    context |= e;
                    next += 1;
                }
            }
            code::END => {
                depth -= 1;
                context = outer[depth % MAX_BLOCKS];
                next += 1;
            }
            code::END_WHILE => {
                depth -= 1;
                context = outer[depth % MAX_BLOCKS];
                next = op.jump as usize;
            }
            code::PRINT => {
                let (value, e) = evaluate(op, variables, arena.at(cursor), cursor_level);
                if !within(e | context, op.target) {
                    break (ending::RULE, next);
                }
                let Some(value) = value else {
                    break (ending::OUT_OF_RANGE, next);
                };
                let start = LINE_BYTES * lines;
                let Some(line) = area.get_mut(start..start + LINE_BYTES) else {
                    break (ending::LINES_FULL, next);
                };
                line[..4].copy_from_slice(&value.to_le_bytes());
                line[4] = op.target;
                lines += 1;
                next += 1;
            }
            code::ROOT => {
                if !within(context, cursor_level) {
                    break (ending::RULE, next);
                }
                cursor = 0;
                cursor_level = context;
                next += 1;
            }
            code::UP => {
                let to = arena.at(cursor).parent;
                if let Err(stop) = go(arena, to, context, &mut cursor, &mut cursor_level) {
                    break (stop, next);
                }
                next += 1;
            }
            code::FIRST_CHILD => {
                let to = arena.at(cursor).first;
                if let Err(stop) = go(arena, to, context, &mut cursor, &mut cursor_level) {
                    break (stop, next);
                }
                next += 1;
            }
            code::RIGHT_SIBLING => {
                let to = arena.at(cursor).right;
                if let Err(stop) = go(arena, to, context, &mut cursor, &mut cursor_level) {
                    break (stop, next);
                }
                next += 1;
            }
            code::LEFT_SIBLING => {
                let to = arena.at(cursor).left;
                if let Err(stop) = go(arena, to, context, &mut cursor, &mut cursor_level) {
                    break (stop, next);
                }
                next += 1;
            }
            code::LAST_CHILD => {
                let Node { last, list, .. } = *arena.at(cursor);
                if last == NONE {
                    break (ending::MISSING, next);
                }
                if !within(context, cursor_level) {
                    break (ending::RULE, next);
                }
                cursor = last;
                cursor_level |= list;
                next += 1;
            }
            code::NEW_FIRST_CHILD => {
                let node = arena.at(cursor);
                let (value, e) = evaluate(op, variables, node, cursor_level);
                let below_old = node.first == NONE || within(c, arena.at(node.first).existence);
                if !within(c, node.list) || !below_old {
                    break (ending::RULE, next);
                }
                let Some(value) = value else {
                    break (ending::OUT_OF_RANGE, next);
                };
                if !arena.insert_first(cursor, new_node(op, value, e, c), places) {
                    break (ending::TABLE_FULL, next);
                }
                next += 1;
            }
            code::NEW_RIGHT_SIBLING => {
                let node = arena.at(cursor);
                if node.parent == NONE {
                    break (ending::MISSING, next);
                }
                let (value, e) = evaluate(op, variables, node, cursor_level);
                let below_old = node.right == NONE || within(c, arena.at(node.right).existence);
                if !within(c, arena.at(node.parent).list) || !below_old {
                    break (ending::RULE, next);
                }
                let Some(value) = value else {
                    break (ending::OUT_OF_RANGE, next);
                };
                if !arena.insert_right(cursor, new_node(op, value, e, c), places) {
                    break (ending::TABLE_FULL, next);
                }
                next += 1;
            }
            code::REMOVE_FIRST_CHILD => {
                let first = arena.at(cursor).first;
                if first == NONE {
                    break (ending::MISSING, next);
                }
                if !within(c, arena.at(first).existence) {
                    break (ending::RULE, next);
                }
                arena.remove_first(cursor, first, back_count > 0);
                next += 1;
            }
            code::REMOVE_RIGHT_SIBLING => {
                let right = arena.at(cursor).right;
                if right == NONE {
                    break (ending::MISSING, next);
                }
                if !within(c, arena.at(right).existence) {
                    break (ending::RULE, next);
                }
                arena.remove_right(cursor, right, back_count > 0);
                next += 1;
            }
            code::SET_VALUE => {
                let node = arena.at_mut(cursor);
                let (value, e) = evaluate(op, variables, node, cursor_level);
                if !within(e | c, node.content) {
                    break (ending::RULE, next);
                }
                let Some(value) = value else {
                    break (ending::OUT_OF_RANGE, next);
                };
                node.value = value;
                next += 1;
            }
            code::COVER => {
                if !within(context, cursor_level) {
                    break (ending::RULE, next);
                }
                let set = op.sets[0];
                cursor_level |= if set == 0 { 1 } else { set };
                next += 1;
            }
            _ => break (ending::FINISHED, 0),
        }
        left -= 1;
    };
    *paused = Paused {
        cursor,
        cursor_level,
        context,
        outer,
        depth,
        backs,
        back_count,
        next,
        lines,
    };
    Answer {
        ending,
        index: index as u32,
        steps: budget - left,
        lines: lines as u32,
    }
}
