//! Jobs in source form: one small function for each operand, operator and
//! command, so that a test or a generator reads like the paper.

use crate::job::{command, kind, operator, Job, Node, Record, Variable, NO_PARENT};
use crate::{Level, HOUSE, PUBLIC};

/// One side of an expression: its kind and its number.
#[derive(Clone, Copy, Debug, PartialEq, Eq)]
pub struct Operand {
    pub kind: u8,
    pub number: u32,
}

pub fn constant(value: i32) -> Operand {
    Operand {
        kind: kind::CONSTANT,
        number: value as u32,
    }
}

pub fn variable(index: usize) -> Operand {
    Operand {
        kind: kind::VARIABLE,
        number: index as u32,
    }
}

pub fn value() -> Operand {
    Operand {
        kind: kind::VALUE,
        number: 0,
    }
}

pub fn children() -> Operand {
    Operand {
        kind: kind::CHILDREN,
        number: 0,
    }
}

#[derive(Clone, Copy, Debug, PartialEq, Eq)]
pub struct Expression {
    pub operator: u8,
    pub left: Operand,
    pub right: Operand,
}

impl From<Operand> for Expression {
    fn from(left: Operand) -> Expression {
        Expression {
            operator: operator::LEFT,
            left,
            right: constant(0),
        }
    }
}

impl From<i32> for Expression {
    fn from(value: i32) -> Expression {
        constant(value).into()
    }
}

pub fn sum(left: Operand, right: Operand) -> Expression {
    Expression {
        operator: operator::SUM,
        left,
        right,
    }
}

pub fn difference(left: Operand, right: Operand) -> Expression {
    Expression {
        operator: operator::DIFFERENCE,
        left,
        right,
    }
}

pub fn equal(left: Operand, right: Operand) -> Expression {
    Expression {
        operator: operator::EQUAL,
        left,
        right,
    }
}

pub fn less(left: Operand, right: Operand) -> Expression {
    Expression {
        operator: operator::LESS,
        left,
        right,
    }
}

pub fn mean(left: Operand, right: Operand) -> Expression {
    Expression {
        operator: operator::MEAN,
        left,
        right,
    }
}

/// A command that reads nothing but its number.
pub fn bare(command: u8) -> Record {
    Record {
        command,
        ..Record::default()
    }
}

/// A command with a target and an expression.
pub fn with(command: u8, target: u8, expression: impl Into<Expression>) -> Record {
    let Expression {
        operator,
        left,
        right,
    } = expression.into();
    Record {
        command,
        target,
        operator,
        left_kind: left.kind,
        right_kind: right.kind,
        left: left.number,
        right: right.number,
        ..Record::default()
    }
}

pub fn nothing() -> Record {
    bare(command::NOTHING)
}

pub fn assign(target: usize, expression: impl Into<Expression>) -> Record {
    with(command::ASSIGN, target as u8, expression)
}

/// Command 2, if.
pub fn when(guard: impl Into<Expression>) -> Record {
    with(command::IF, 0, guard)
}

/// Command 17, an if that comes back.
pub fn come_back(guard: impl Into<Expression>) -> Record {
    with(command::IF_BACK, 0, guard)
}

/// Command 3, else.
pub fn otherwise() -> Record {
    bare(command::ELSE)
}

/// Command 4, while.
pub fn repeat(guard: impl Into<Expression>) -> Record {
    with(command::WHILE, 0, guard)
}

pub fn end() -> Record {
    bare(command::END)
}

pub fn print(expression: impl Into<Expression>) -> Record {
    print_for(PUBLIC, expression)
}

/// A line for a set of readers.
pub fn print_for(readers: Level, expression: impl Into<Expression>) -> Record {
    with(command::PRINT, readers, expression)
}

pub fn root() -> Record {
    bare(command::ROOT)
}

pub fn up() -> Record {
    bare(command::UP)
}

pub fn first_child() -> Record {
    bare(command::FIRST_CHILD)
}

pub fn right_sibling() -> Record {
    bare(command::RIGHT_SIBLING)
}

pub fn left_sibling() -> Record {
    bare(command::LEFT_SIBLING)
}

pub fn last_child() -> Record {
    bare(command::LAST_CHILD)
}

pub fn new_first_child(mark: u8, expression: impl Into<Expression>) -> Record {
    with(command::NEW_FIRST_CHILD, mark, expression)
}

pub fn new_right_sibling(mark: u8, expression: impl Into<Expression>) -> Record {
    with(command::NEW_RIGHT_SIBLING, mark, expression)
}

pub fn remove_first_child() -> Record {
    bare(command::REMOVE_FIRST_CHILD)
}

pub fn remove_right_sibling() -> Record {
    bare(command::REMOVE_RIGHT_SIBLING)
}

pub fn set_value(expression: impl Into<Expression>) -> Record {
    with(command::SET_VALUE, 0, expression)
}

pub fn cover() -> Record {
    bare(command::COVER)
}

/// A cover that joins a set.
pub fn cover_with(set: Level) -> Record {
    with_sets([set, PUBLIC], cover())
}

/// The record with bytes 5 and 6.
pub fn with_sets(sets: [Level; 2], record: Record) -> Record {
    Record { sets, ..record }
}

pub fn public_variable(value: i32) -> Variable {
    Variable {
        level: PUBLIC,
        value,
        ..Variable::default()
    }
}

pub fn house_variable(value: i32) -> Variable {
    Variable {
        level: HOUSE,
        value,
        ..Variable::default()
    }
}

/// A variable of a set of parties.
pub fn variable_of(level: Level, value: i32) -> Variable {
    Variable {
        level,
        value,
        ..Variable::default()
    }
}

/// A node with the levels existence, content and list.
pub fn node(parent: u16, levels: [Level; 3], value: i32) -> Node {
    let [existence, content, list] = levels;
    Node {
        parent,
        existence,
        content,
        list,
        value,
        ..Node::default()
    }
}

pub fn root_node(levels: [Level; 3], value: i32) -> Node {
    node(NO_PARENT, levels, value)
}

pub fn job(variables: &[Variable], nodes: &[Node], script: &[Record]) -> Job {
    Job {
        variables: variables.to_vec(),
        nodes: nodes.to_vec(),
        script: script.to_vec(),
    }
}
