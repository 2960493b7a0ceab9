"""Outcomes in words."""

import re
import textwrap
from typing import NamedTuple

from .checks import describe, plural
from .commands import (
    ASSIGN, CHILDREN, END, FIRST_CHILD, IF, IF_BACK, INSERTIONS, LAST_CHILD, LEFT_SIBLING, NAMED, NEW_FIRST_CHILD, PRINT, REMOVALS,
    REMOVE_FIRST_CHILD, SET, SUM, VALUE, WHILE)
from .endings import ABSENT, FINISHED, FLOW, FULL_BOARD, FULL_TABLE, OVERFLOW, USED_UP, ending_text
from .errors import quoted
from .limits import ASKED_LINES, HOUSE, LEVELS, MAX_BUDGET, MAX_NODES, PROGRAM, PUBLIC, within
from .listing import levels_text, line_text, record_text
from .pictures import text_picture
from .rules import RULES
from .run import drawn_tree


MOST, LEAST = 2 ** 31 - 1, -2 ** 31


class Reason(NamedTuple):
    """One level that a rule looked at, and why it is what it is."""

    what: str
    level: int
    why: str = ""


def way_to(node):
    """The moves from the root to a node, in words."""
    levels = []
    while node.parent is not None:
        right = node.place()
        levels.append("`first child`" if right == 0 else "`first child`, `right sibling`" if right == 1 else
                      f"`first child`, `right sibling` {right} times")
        node = node.parent
    return ", ".join(["`root`"] + levels[::-1])


class Account:
    """A stop in words: the rule, the levels that stood there, what the author can do."""

    def __init__(self, run):
        self.run = run
        self.source = run.source
        self.record = run.job.records[run.at]
        self.rule = ""
        self.reasons = []
        self.advice = []
        self.larger = []  # what a larger budget can and cannot change, after a 25
        {FLOW: self.flow, ABSENT: self.absent, FULL_TABLE: self.table, FULL_BOARD: self.board,
         USED_UP: self.budget, OVERFLOW: self.overflow}.get(run.ending, self.unknown)()

    def line_of(self, record):
        return self.source.names.record_places[record].line

    def statement(self, record):
        return record_text(self.run.job.records[record], self.source.names.variables)

    def reads(self, kind):
        return any(read == kind for read, _ in self.record.operands())

    # The levels of the paper, each with its reason.

    def context(self):
        record = self.house_guard()
        if record is not None:
            return Reason("context", self.run.context(), f"line {self.line_of(record)} ({self.statement(record)}) has a house guard")
        why = "every open guard is public" if self.run.blocks else "no block is open"
        return Reason("context", PUBLIC, why)

    def house_guard(self):
        """The outermost open record with a house guard, or None."""
        return next((record for level, record in self.run.blocks if level), None)

    def cursor(self):
        if not self.run.cursor_level:
            return Reason("cursor level", PUBLIC)
        raised = self.run.raised_by
        return Reason("cursor level", self.run.cursor_level, f"since line {self.line_of(raised)} ({self.statement(raised)})")

    def operands(self):
        found = []
        for kind, number in self.record.operands():
            if kind == NAMED:
                found.append(Reason(self.source.names.variables[number], self.run.job.variables[number].level, "a variable"))
            elif kind == VALUE:
                found.append(self.of_node("value", "content", self.run.cursor.content))
            elif kind == CHILDREN:
                found.append(self.of_node("children", "list", self.run.cursor.list))
        return list(dict.fromkeys(found))

    def of_node(self, what, part, level):
        why = f"the {part} level of {self.run.cursor.name}"
        if not within(self.run.cursor_level, level):
            why = "the cursor level joins it"
        return Reason(what, level | self.run.cursor_level, why)

    def own_house(self, node):
        """The operands that the statement may not take at a node, whatever the cursor level."""
        found, allowed = [], self.allowed()
        for kind, number in self.record.operands():
            if kind == NAMED and not within(self.run.job.variables[number].level, allowed):
                found.append(f"`{self.source.names.variables[number]}`")
            elif kind == VALUE and not within(node.content, allowed):
                found.append("`value`")
            elif kind == CHILDREN and not within(node.list, allowed):
                found.append("`children`")
        return " and ".join(dict.fromkeys(found))

    def allowed(self):
        """The parties whose matters the statement may take: those of its variable, its readers or its node."""
        if self.record.command == ASSIGN:
            return self.run.job.variables[self.record.target].level
        if self.record.command == PRINT:
            return self.record.target
        return self.run.cursor.content if self.record.command == SET else PUBLIC

    # What can be done about levels.

    def leave_block(self, what):
        record = self.house_guard()
        if record is not None:
            self.advice.append(f"Put {what} outside the block of line {self.line_of(record)}: inside it, whether it happens "
                               "depends on a house number.")

    def leave_cover(self, what):
        """Outside house guards `root` makes the cursor level public; a public node can be reached again from there."""
        if not self.run.cursor_level or self.run.job.records[self.run.raised_by].command == IF_BACK:
            return  # the end of the block makes it public
        node = self.run.root if self.run.cursor.existence else self.run.cursor
        if self.own_house(node) and node is not self.run.cursor:
            return  # what it reads is house there, too
        way = way_to(node)
        if way.count(",") > 6:
            way = f"`root` and the moves that lead back to {node.name}"
        outside = " there" if self.run.context() else ""
        self.advice.append(f"Write {way} before {what}{outside}: outside house guards `root` makes the cursor level public "
                           f"again.{self.stands_on(node)}")

    def stands_on(self, node):
        """Where the cursor is then, and whose value or children are read."""
        name = f"{node.name}, the root" if node is self.run.root else f"{node.name}, as now"
        found = [word for word, kind in (("value", VALUE), ("children", CHILDREN)) if self.reads(kind)]
        if found:
            return f" `{'` and `'.join(found)}` will be {'those' if len(found) > 1 else 'that'} of {name}."
        return f" The cursor then stands on {name}."

    def raise_part(self, node, part):
        """How to make a part of a node house: where the tree has it, or where the script makes it."""
        if node.made is not None:
            here = self.source.names.record_places[self.run.at].text
            where = f"line {node.made.line}" + ("" if node.made.text is here else f" of {node.made.text.path}")
            return f"Write `{part} house` where {where} makes the node."
        content = HOUSE if part == "content" else node.content
        below = HOUSE if part == "list" else node.list
        return (f"Give {node.name} the level `{part} house`{self.declared()}: "
                f"`{node.name}{levels_text(node.existence, content, below)} = ...`.")

    def declared(self):
        """Where a follow-on script's variables and tree are written."""
        return f" in {self.source.over}" if self.source.over else ""

    # One method for each number.

    def flow(self):
        command = self.record.command
        self.rule = RULES[command]
        if command in (ASSIGN, PRINT, SET):
            self.flow_store(command)
        elif command in INSERTIONS:
            self.flow_insert(command)
        elif command in REMOVALS:
            self.flow_remove(command)
        else:
            self.flow_move()

    def flow_store(self, command):
        operands, house = self.operands(), self.own_house(self.run.cursor)
        what = {ASSIGN: "the assignment", PRINT: "the print", SET: "the set"}[command]
        if command == ASSIGN:
            name = self.source.names.variables[self.record.target]
            operands = [Reason(name, self.allowed(), "the variable that should take the number")] + [
                reason for reason in operands if reason.what != name]
            self.advice.append(f"Declare a house variable{self.declared()} and use it in place of `{name}`. What depends on house "
                               "numbers can then be worked on, but not printed.")
        elif command == SET:
            node = self.run.cursor
            operands.insert(0, Reason(f"content of {node.name}", node.content, "the node that should take the value"))
            self.advice.append(self.raise_part(node, "content"))
        elif self.record.target or len(LEVELS.names) > 1:
            operands.insert(0, Reason("readers", self.record.target, "whom the line is for"))
            level = self.run.evaluate(self.record)[1] | self.run.context() | self.record.target
            self.advice.append(f"Print it for those whose matters it carries: `{record_text(self.record._replace(target=level), self.source.names.variables)}`.")
        # A variable and a board line stand at no node: for them the cursor level counts through the expression alone.
        read = [f"`{word}`" for word, kind in (("value", VALUE), ("children", CHILDREN)) if self.reads(kind)]
        placed = command == SET or read
        self.reasons = operands + [self.context()] + ([self.cursor()] if placed else [])
        if house:
            self.advice.append(f"Use public numbers only: do without {house}.")
        self.leave_block(what)
        if not placed or not self.run.cursor_level:
            return
        self.leave_cover(what)
        if command != SET and not house:
            self.advice.append(f"Or do without {' and '.join(read)}: outside house guards numbers and public variables may be counted and "
                               "printed, wherever the cursor stands.")

    def flow_move(self):
        self.reasons = [self.context(), self.cursor()]
        guard = self.house_guard()
        line = self.line_of(guard)
        self.advice.append(f"Write `cover` before line {line}. The cursor level is then house and the "
                           "cursor may move inside the block; `root` after the block makes it public again.")
        if self.run.job.records[guard].command == IF:
            self.advice.append(f"Or write `{self.statement(guard)} and come back` in line {line}: the cursor may then move inside the block, "
                               "and is where it was at its end.")
        self.leave_block("the move")

    def flow_insert(self, command):
        first = command == NEW_FIRST_CHILD
        parent = self.run.cursor if first else self.run.cursor.parent
        at = 0 if first else self.run.cursor.place() + 1
        neighbour = parent.children[at] if at < len(parent.children) else None
        self.reasons = [self.context(), self.cursor(), Reason(f"list of {parent.name}", parent.list, "the parent")]
        if neighbour:
            self.reasons.append(Reason(f"existence of {neighbour.name}", neighbour.existence, "would stand right of the new node"))
        if not parent.list:
            self.advice.append(self.raise_part(parent, "list") + " Its number of children is then a house number.")
        if neighbour and not neighbour.existence:
            self.advice.append("House nodes stand right of all public siblings: go to the last public one and write "
                               "`new right sibling`.")
        self.leave_block("the new node")
        self.leave_cover("the new node")

    def flow_remove(self, command):
        node = self.run.target(command)
        self.reasons = [self.context(), self.cursor(), Reason(f"existence of {node.name}", node.existence, "the node to remove")]
        self.advice.append("Keep what house numbers decide about in house nodes, under a node with `list house`. A house node may "
                           "be removed here.")
        self.leave_block("the removal")
        self.leave_cover("the removal")

    def absent(self):
        node, command = self.run.cursor, self.record.command
        if command == END:
            return self.not_back()
        name = node.name
        if command in (FIRST_CHILD, LAST_CHILD, REMOVE_FIRST_CHILD):
            missing = f"{name} has no child."
            self.advice.append("Ask first: `if children` runs its block only where there is a child.")
            if node.list and not self.run.cursor_level and command in (FIRST_CHILD, LAST_CHILD):
                self.advice.append("The list is house, so that is a house guard: write `cover` before it, to move inside the block.")
        elif node.parent is None:
            missing = f"{name} is the root: it has no parent and no siblings."
            self.advice.append("Go down with `first child` before this line, or leave it out." if node.children
                               else "Leave it out: the root has no child to go down to.")
        elif command == LEFT_SIBLING:
            missing = f"{name} has no sibling to its left."
            self.advice.append("Count on the way: put `children` of the parent into a variable, and go left one time less.")
        else:
            missing = f"{name} has no sibling to its right."
            self.advice.append("Count on the way: put `children` of the parent into a variable, and go right one time less.")
        self.rule = f"The cursor stands on {name}. {missing}"
        return None

    def not_back(self):
        """The end of an if that comes back, whose node was removed."""
        remembered = self.run.remembered[-1].node
        line = self.line_of(self.run.blocks[-1][1])
        self.rule = (f"The block of line {line} began on {remembered.name}, where its end would bring the cursor back. That node was removed "
                     "inside the block, by itself or with a node above it.")
        self.advice.append("Remove it after the block, or begin the block on a node that stays.")

    def table(self):
        self.rule = f"The tree has {self.run.live} nodes, and there is room for {self.run.limits.places}."
        self.advice.append("Remove nodes that are no longer needed: their places are used again.")
        self.more("places", self.run.limits.places, MAX_NODES)
        self.inside_loop()

    def board(self):
        self.rule = f"The board has {len(self.run.board)} lines, and there is room for {self.run.limits.lines}."
        self.advice.append("Print less: a total rather than every number.")
        self.more("lines", self.run.limits.lines, ASKED_LINES)
        self.inside_loop()

    def budget(self):
        self.rule = f"The script has used its {self.run.limits.budget:,} steps; this line would have been the next."
        self.inside_loop()
        self.advice.append("A loop ends when its guard is 0. Change a number of the guard inside the loop, as in `n := n - 1`.")
        self.more("budget", self.run.limits.budget, MAX_BUDGET)
        if self.run.limits.budget < MAX_BUDGET:
            self.larger = ["It cannot change what was said: the lines below stay, the first ones of the board, and the steps are no fewer.",
                           "It can add lines, and change the variables, the tree and the ending; so what runs over the tree afterwards may come out differently.",
                           "Once the script ends with another number than 25, no larger budget changes anything of it."]

    def overflow(self):
        result, _ = self.run.evaluate(self.record)
        left, right = (self.run.operand(kind, number)[0] for kind, number in self.record.operands())
        sign = "+" if self.record.operator == SUM else "-"
        shown = f"({right})" if right < 0 else right
        self.rule = (f"Numbers are signed 32 bits wide, from {LEAST} to {MOST}. {left} {sign} {shown} is {result}, "
                     f"which is {'above' if result > MOST else 'below'} them.")
        if self.record.operator == SUM:
            self.advice.append("For an average take `mean`: it is exact, and never leaves the range.")
        self.advice.append("Keep totals small: count in larger units, or print a part and start the total anew at 0.")
        self.inside_loop()

    def unknown(self):
        self.rule = "It is proved that no run ends so. Please tell the planner."

    def more(self, option, given, most):
        if given < most:
            self.advice.append(f"To try it with more, run it with `--{option} {most}`, which is the most there is.")

    def inside_loop(self):
        for _, record in reversed(self.run.blocks):
            if self.run.job.records[record].command == WHILE:
                self.advice.append(f"Look at the loop of line {self.line_of(record)}, `{self.statement(record)}`.")
                return


def wrapped(text, indent="  ", bullet=""):
    return textwrap.wrap(text, 79, initial_indent=indent + bullet, subsequent_indent=indent + " " * len(bullet))


def account_lines(account):
    lines = ["The rule:", *wrapped(account.rule)]
    if account.reasons:
        width = max(len(reason.what) for reason in account.reasons)
        lines += ["", "The levels at that moment:"]
        for reason in account.reasons:
            row = f"{reason.what:{width}}  {LEVELS[reason.level]:6}  "
            lines += wrapped(reason.why, bullet=row) or [f"  {row}".rstrip()]
    if account.advice:
        lines += ["", "What you can do:"]
        for item in account.advice:
            lines += wrapped(item, bullet="- ")
    if account.larger:
        lines += ["", "What a larger budget does:"]
        for item in account.larger:
            lines += wrapped(item, bullet="- ")
    return lines


def agrees(run, outcome):
    """Whether following the rules gave what the monitor gave."""
    index = 0 if run.ending == FINISHED else run.at
    tree = [row._replace(name="") for row in drawn_tree(run.root)]
    values = [value for _, value in outcome.variables]
    return (run.ending, index, run.steps, run.board, run.values, tree) == (
        outcome.ending, outcome.record, outcome.steps, outcome.lines, values, outcome.tree)


def report(run, outcome, whole=False):
    """The outcome of a job that was run and followed, in lines; of the tree, all or what is left of long runs."""
    return ended_lines(run, outcome) + left_lines(run.source.names.variables, outcome.variables, left_tree(run, outcome), whole)


def ended_lines(run, outcome):
    """How it ended, and the board."""
    if outcome.ending == FINISHED:
        lines = [f"{run.source.path}: finished after {plural(outcome.steps, 'step')}"]
    else:
        lines = stop_lines(run.source, outcome, run if agrees(run, outcome) else None)
    lines += ["", f"board, {plural(len(outcome.lines), 'line')}"]
    return lines + [f"  {line_text(line)}" for line in outcome.lines]


def seen_lines(path, lines, reader):
    """The lines that a reader sees, and nothing else: what the house hands them."""
    seen = [line for line in lines if within(line[1], reader)]
    return [f"{path}: what {LEVELS[reader]} sees, {plural(len(seen), 'line')}"] + [f"  {line_text(line)}" for line in seen]


def left_tree(run, outcome):
    """The last tree as pictures, with names where following the rules gave the same."""
    if agrees(run, outcome):
        return drawn_tree(run.root)
    return [row._replace(name=f"node {index}") for index, row in enumerate(outcome.tree)]


def left_lines(names, variables, tree, whole):
    """The last variables and the last tree."""
    lines = ["", "variables at the end"] if variables else []
    for name, (level, value) in zip(names, variables):
        lines.append(f"  {name}{levels_text(level, level, level)} = {value}")
    return lines + ["", "tree at the end"] + ["  " + row for row in text_picture(tree, whole)]


def stop_lines(source, outcome, run):
    place = source.names.record_places[outcome.record]
    record = source.job.records[outcome.record]
    lines = [f"{place}: stopped with {ending_text(outcome.ending)} after {plural(outcome.steps, 'step')}", ""]
    lines += quoted(place)
    if record.command == END:
        lines.append(" " * 9 + "at the end of the block that this line opens")
    lines.append("")
    if run:
        lines += account_lines(Account(run))
    else:
        lines += ["This tool followed the rules and came to another end than the monitor.", "The monitor is right. "
                  "Please report this job."]
    return lines + ["", f"More: {PROGRAM} explain {outcome.ending}"]


def refusal_lines(path, source, outcome, fault):
    """A refusal in lines; without a source, by bytes."""
    said = f"refused with {ending_text(outcome.ending)}"
    lines = [f"{path}: {said}"]
    if not fault or (fault.number, fault.index) != (outcome.ending, outcome.record):
        lines.append(f"  at record {outcome.record}")
    elif source is None:
        lines = [f"{path}: {describe(fault)}"]
    else:
        place = source.place_of(fault)
        if place:
            lines = [f"{place}: {said}", "", *quoted(place)]
        lines += ["", *wrapped(f"{named_fault(source, fault)}.")]
    return lines + ["", f"More: {PROGRAM} explain {outcome.ending}"]


def named_fault(source, fault):
    """A fault with the names of the source."""
    text = re.sub(r"\bnode (\d+)", lambda match: node_name(source, int(match.group(1))), fault.text)
    if fault.section == "variable":
        return f"{source.names.variables[fault.index]}: {text}"
    if fault.section == "node":
        return f"{source.names.nodes[fault.index]}: {text}"
    return text


def node_name(source, index):
    return source.names.nodes[index] if index < len(source.names.nodes) else f"node {index}"
