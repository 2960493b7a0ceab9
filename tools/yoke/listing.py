"""Jobs as sources."""

from .commands import (
    ALONE, ASSIGN, COMMANDS, CONSTANT, ELSE, END, INSERTIONS, MARK_CONTENT, MARK_LIST, MEAN, NAMED, PRINT, SIGNS, VALUE)
from .encoding import signed
from .limits import HOUSE, LEVELS, UNNAMED

def operand_text(kind, number, variables):
    if kind == CONSTANT:
        return str(signed(number))
    if kind == NAMED:
        return variables[number]
    return "value" if kind == VALUE else "children"


def expression_text(record, variables):
    sides = [operand_text(kind, number, variables) for kind, number in record.operands()]
    if record.operator == ALONE:
        return sides[0]
    if record.operator == MEAN:
        return f"mean({sides[0]}, {sides[1]})"
    return f"{sides[0]} {SIGNS[record.operator]} {sides[1]}"


def record_text(record, variables):
    """A record as a statement."""
    words = COMMANDS[record.command].words
    if not COMMANDS[record.command].expression:
        return words + (f" {LEVELS[record.content_set]}" if record.content_set and COMMANDS[record.command].sets else "")
    expression = expression_text(record, variables)
    if record.command == ASSIGN:
        return f"{variables[record.target]} := {expression}"
    if record.command in INSERTIONS:
        marks = marks_text("content", record.target & MARK_CONTENT, record.content_set) + marks_text("list", record.target & MARK_LIST, record.list_set)
        return f"{words}{marks}: {expression}"
    if record.command == PRINT and record.target:
        return f"{words} {expression} for {LEVELS[record.target]}"
    behind = COMMANDS[record.command].behind
    return f"{words} {expression}" + (f" {behind}" if behind else "")


def marks_text(part, mark, own):
    """A mark and a set of a new node: the first party in front is the mark."""
    house = LEVELS.parties(HOUSE)
    names = (house if mark else []) + LEVELS.parties(own & ~HOUSE) + (house if own & HOUSE else [])
    if not mark and names == house:
        names = ["public"] + names
    return f" {part} {'+'.join(names)}" if names else ""


def levels_text(existence, content, below):
    """The levels that are not what they are by default."""
    text = f" {LEVELS[existence]}" if existence else ""
    for word, level in (("content", content), ("list", below)):
        if level != existence:
            text += f" {word} {LEVELS[level]}"
    return text


def line_text(line):
    """A board line, with its readers where it is not for all."""
    value, readers = line
    return f"{value} for {LEVELS[readers]}" if readers else str(value)


def preorder(nodes):
    """Each node's index and depth, from the root on, left to right."""
    below = [[] for _ in nodes]
    for index, node in enumerate(nodes):
        if index:
            below[node.parent].append(index)
    order, waiting = [], [(0, 0)]
    while waiting:
        index, depth = waiting.pop()
        order.append((index, depth))
        waiting.extend((child, depth + 1) for child in reversed(below[index]))
    return order


def listing(job):
    """An accepted job as source. Reading it back gives the job's bytes."""
    variables = [f"v{index}" for index in range(len(job.variables))]
    LEVELS.use(UNNAMED)
    lines = parties_lines(job)
    if job.variables:
        lines.append("variables")
        for name, variable in zip(variables, job.variables):
            lines.append(f"  {name}{levels_text(variable.level, variable.level, variable.level)} = {variable.value}")
    lines.append("tree")
    for index, depth in preorder(job.nodes):
        node = job.nodes[index]
        lines.append(f"{'  ' * (depth + 1)}n{index}{levels_text(*node[1:4])} = {node.value}")
    if job.records:
        lines += script_lines(job.records, variables)
    return "\n".join(lines) + "\n"


def parties_lines(job):
    """The names of the parties up to the last that a job has to do with, unless that is the first."""
    levels = [variable.level for variable in job.variables] + [level for node in job.nodes for level in node[1:4]]
    for record in job.records:
        levels += [record.content_set, record.list_set] + ([record.target] if record.command == PRINT else [])
    count = max(level.bit_length() for level in levels)
    return [f"parties {', '.join(UNNAMED[:count])}"] if count > 1 else []


def script_lines(records, variables):
    """The script section: statements, indented as its blocks."""
    lines, depth, opened = ["script"], 1, False
    for record in records:
        closes = record.command in (ELSE, END)
        if closes and opened:
            lines.append("  " * depth + "empty")
        opened = record.command == ELSE or bool(COMMANDS[record.command].opens)
        depth -= closes
        if record.command != END:
            lines.append("  " * depth + record_text(record, variables))
        depth += opened
    return lines
