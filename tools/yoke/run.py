"""A run, followed by the paper's rules beside the monitor."""

import functools
import operator
from typing import NamedTuple

from .commands import (
    ALONE, ASSIGN, COMMANDS, CONSTANT, COVER, DIFFERENCE, ELSE, END, EQUAL, FIRST_CHILD, LESS, MARK_CONTENT, MARK_LIST, MEAN,
    IF_BACK, LAST_CHILD, LEFT_SIBLING, MOVES, NAMED, NEW_FIRST_CHILD, PRINT, REMOVALS, REMOVE_FIRST_CHILD, ROOT, SET, SUM, UP, VALUE, WHILE)
from .encoding import Node, signed
from .endings import ABSENT, FINISHED, FLOW, FULL_BOARD, FULL_TABLE, OVERFLOW, USED_UP
from .limits import HOUSE, PUBLIC, Limits, within
from .pictures import Picture, parents_of


class Tree:
    """A node of a run, with the name that the source gave it, or that of the line that made it, and the place of that line."""

    def __init__(self, name, parent, existence, content, below, value, made=None):
        self.name = name
        self.made = made
        self.parent = parent
        self.children = []
        self.existence = existence
        self.content = content
        self.list = below
        self.value = value

    def place(self):
        return self.parent.children.index(self)

    def left(self):
        """The sibling to the left, or None; the root has none."""
        if self.parent is None or self.place() == 0:
            return None
        return self.parent.children[self.place() - 1]

    def right(self):
        """The sibling to the right, or None; the root has none."""
        if self.parent is None:
            return None
        row = self.parent.children
        at = self.place() + 1
        return row[at] if at < len(row) else None


def grow(nodes, names):
    """The tree of a job's nodes."""
    made = []
    for node, name in zip(nodes, names):
        parent = made[node.parent] if made else None
        made.append(Tree(name, parent, *node[1:]))
        if parent:
            parent.children.append(made[-1])
    return made[0]


def drawn_tree(root):
    """A run's tree as pictures."""
    rows, waiting = [], [(root, 0)]
    while waiting:
        node, depth = waiting.pop()
        rows.append(Picture(node.name, node.existence, node.content, node.list, node.value, depth))
        waiting.extend((child, depth + 1) for child in reversed(node.children))
    return rows


OPERATIONS = {
    ALONE: lambda left, right: left,
    SUM: lambda left, right: left + right,
    DIFFERENCE: lambda left, right: left - right,
    EQUAL: lambda left, right: int(left == right),
    LESS: lambda left, right: int(left < right),
    MEAN: lambda left, right: (left + right) // 2,
}


class Standing(NamedTuple):
    """What a script finds and leaves: the variables' values and the tree."""

    values: list
    root: Tree


def loaded(job, names):
    """What a job brings."""
    return Standing([variable.value for variable in job.variables], grow(job.nodes, names))


def told(variables, rows):
    """What a program says that stands: pairs of level and value, and the tree as pictures."""
    nodes = [Node(parent, *row[1:5]) for parent, row in zip(parents_of(rows), rows)]
    return Standing([value for _, value in variables], grow(nodes, [row.name for row in rows]))


class Remembered(NamedTuple):
    """What an if that comes back remembers: the working node, the cursor level, and the record that made it house."""

    node: Tree
    level: int
    raised_by: int | None


class Stopped(Exception):
    def __init__(self, number):
        super().__init__(number)
        self.number = number


class Run:
    """The paper's rules, followed once more beside the monitor, so that a stop can be explained with the levels that stood there.

    The monitor decides: what this says is shown only where both agree.
    """

    def __init__(self, source, limits=Limits(), standing=None, new="new"):
        """A job's run, or a follow-on script's over what stands; new nodes are called by a word and their line."""
        self.source = source
        self.job = source.job
        self.limits = limits
        self.new = new
        self.values, self.root = standing or loaded(self.job, source.names.nodes)
        self.cursor = self.root
        self.live = len(drawn_tree(self.root))
        self.cursor_level = PUBLIC
        self.raised_by = None  # the record that made the cursor level house
        self.blocks = []  # the level and the record of each open guard
        self.remembered = []  # for each of them what it remembers, if it comes back
        self.at = self.steps = 0
        self.ending = FINISHED
        self.board = []
        self.partner = self.match_blocks()

    def match_blocks(self):
        """Where each if goes on zero, each else and while jumps, and each end returns."""
        partner, waiting = {}, []
        for index, record in enumerate(self.job.records):
            if COMMANDS[record.command].opens:
                waiting.append(index)
            elif record.command == ELSE:
                partner[waiting[-1]] = index + 1  # past the else
                waiting.append(index)
            elif record.command == END:
                opener = waiting.pop()
                command = self.job.records[opener].command
                partner[opener] = index + 1 if command == WHILE else index
                if command == ELSE:
                    waiting.pop()
                partner[index] = opener if command == WHILE else index + 1
        return partner

    def context(self):
        return functools.reduce(operator.or_, (level for level, _ in self.blocks), PUBLIC)

    def position(self):
        """C of the paper."""
        return self.context() | self.cursor_level

    def operand(self, kind, number):
        """Value and level of an operand."""
        if kind == CONSTANT:
            return signed(number), PUBLIC
        if kind == NAMED:
            return self.values[number], self.job.variables[number].level
        if kind == VALUE:
            return self.cursor.value, self.cursor_level | self.cursor.content
        return len(self.cursor.children), self.cursor_level | self.cursor.list

    def evaluate(self, record):
        """An expression's exact result, and its level E."""
        sides = [self.operand(kind, number) for kind, number in record.operands()]
        value = OPERATIONS[record.operator](sides[0][0], sides[-1][0])
        return value, sides[0][1] | sides[-1][1]

    def go(self):
        """Steps until the run has ended."""
        while self.turn():
            pass
        return self

    def turn(self):
        """One step, unless the run has ended: then False."""
        if self.at == len(self.job.records):
            return False
        try:
            if self.steps == self.limits.budget:
                raise Stopped(USED_UP)
            self.at = self.step(self.job.records[self.at])
        except Stopped as stop:
            self.ending = stop.number
            return False
        self.steps += 1
        return True

    def rule(self, holds):
        if not holds:
            raise Stopped(FLOW)

    def fits(self, value):
        """The value, unless it is outside signed 32 bits."""
        if value != signed(value):
            raise Stopped(OVERFLOW)
        return value

    def flow(self, level):
        """L of the paper, for an expression of this level."""
        return level | self.position()

    def step(self, record):
        """Carries out a record and gives the next one's index."""
        command = record.command
        if COMMANDS[command].opens:
            value, level = self.evaluate(record)
            self.fits(value)
            if value or command != WHILE:
                self.open_block(level, command == IF_BACK)
            return self.at + 1 if value else self.partner[self.at]
        if command == ELSE:
            return self.partner[self.at]
        if command == END:
            self.close_block()
            return self.partner[self.at]
        if COMMANDS[command].expression:
            self.store(record)
        elif command in MOVES:
            self.move(record)
        elif command in REMOVALS:
            self.remove(command)
        return self.at + 1

    def open_block(self, level, comes_back):
        self.blocks.append((level, self.at))
        self.remembered.append(Remembered(self.cursor, self.cursor_level, self.raised_by) if comes_back else None)
        if comes_back and not within(self.context(), self.cursor_level):
            self.cursor_level, self.raised_by = self.context() | self.cursor_level, self.at

    def close_block(self):
        remembered = self.remembered[-1]
        if remembered:
            if not self.stands(remembered.node):
                raise Stopped(ABSENT)
            self.cursor, self.cursor_level, self.raised_by = remembered
        self.blocks.pop()
        self.remembered.pop()

    def stands(self, node):
        """Whether a node is in the tree: it and all above it hang where they hung."""
        while node.parent and any(child is node for child in node.parent.children):
            node = node.parent
        return node is self.root

    def store(self, record):
        value, level = self.evaluate(record)
        if record.command == ASSIGN:
            self.rule(within(level | self.context(), self.job.variables[record.target].level))
            self.values[record.target] = self.fits(value)
        elif record.command == PRINT:
            self.rule(within(level | self.context(), record.target))
            self.fits(value)
            if len(self.board) == self.limits.lines:
                raise Stopped(FULL_BOARD)
            self.board.append((value, record.target))
        elif record.command == SET:
            self.rule(within(self.flow(level), self.cursor.content))
            self.cursor.value = self.fits(value)
        else:
            self.insert(record, value, self.flow(level))

    def insert(self, record, value, level):
        first = record.command == NEW_FIRST_CHILD
        parent = self.cursor if first else self.cursor.parent
        if parent is None:
            raise Stopped(ABSENT)
        at = 0 if first else self.cursor.place() + 1
        neighbour = parent.children[at] if at < len(parent.children) else None
        here = self.position()
        self.rule(within(here, parent.list) and (neighbour is None or within(here, neighbour.existence)))
        self.fits(value)
        if self.live == self.limits.places:
            raise Stopped(FULL_TABLE)
        content = level | record.content_set | (HOUSE if record.target & MARK_CONTENT else PUBLIC)
        below = here | record.list_set | (HOUSE if record.target & MARK_LIST else PUBLIC)
        made = self.source.names.record_places[self.at]
        parent.children.insert(at, Tree(f"{self.new}_{made.line}", parent, here, content, below, value, made))
        self.live += 1

    def target(self, command):
        """The node that a move goes to or a removal takes away."""
        if command == ROOT:
            return self.root
        if command == COVER:
            return self.cursor
        if command == UP:
            return self.cursor.parent
        if command in (FIRST_CHILD, REMOVE_FIRST_CHILD):
            return self.cursor.children[0] if self.cursor.children else None
        if command == LAST_CHILD:
            return self.cursor.children[-1] if self.cursor.children else None
        if command == LEFT_SIBLING:
            return self.cursor.left()
        return self.cursor.right()

    def move(self, record):
        command = record.command
        node = self.target(command)
        if node is None:
            raise Stopped(ABSENT)
        context = self.context()
        self.rule(within(context, self.cursor_level))
        before = self.cursor_level
        if command == ROOT:
            self.cursor_level = context
        elif command == COVER:
            self.cursor_level = before | (record.content_set or HOUSE)
        elif command == LAST_CHILD:
            self.cursor_level = before | self.cursor.list
        else:
            self.cursor_level = before | node.existence
        if not within(self.cursor_level, before):
            self.raised_by = self.at
        self.cursor = node

    def remove(self, command):
        node = self.target(command)
        if node is None:
            raise Stopped(ABSENT)
        self.rule(within(self.position(), node.existence))
        node.parent.children.remove(node)
        self.live -= len(drawn_tree(node))
