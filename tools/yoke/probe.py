"""One source with many different house numbers and house nodes, and the boards that come of them."""

import random
import sys
import time
from collections import Counter
from typing import NamedTuple

from .account import wrapped
from .checks import plural
from .commands import CONSTANT
from .encoding import Job, Node, signed
from .endings import FINISHED, ending_text
from .errors import JobError, quoted
from .limits import NO_PARENT, PROGRAM
from .listing import levels_text
from .monitor import frame, replay

SMALL = 256  # small numbers are tried one after the other
SHOWN = 6  # boards at either end of the list


class Variations:
    """Jobs with the public parts of a job, by number; number 0 is the job itself."""

    def __init__(self, job, seed, places):
        self.job = job
        self.seed = seed
        self.places = places
        self.variables = [index for index, variable in enumerate(job.variables) if variable.level]
        self.values = [index for index, node in enumerate(job.nodes) if node.content]
        self.lists = [index for index, node in enumerate(job.nodes) if node.list]
        self.sites = [("variable", index) for index in self.variables] + [("node", index) for index in self.values]
        self.numbers = self.candidates()

    def candidates(self):
        """What a house number may well be compared with: the job's own numbers and their neighbours, then small ones."""
        known = {signed(number) for record in self.job.records for kind, number in record.operands() if kind == CONSTANT}
        known |= {variable.value for variable in self.job.variables} | {node.value for node in self.job.nodes}
        near = sorted({number + by for number in known for by in (-1, 0, 1)} | {-1, 0, 1, -2**31, 2**31 - 1}, key=abs)
        found = list(range(SMALL)) + near + [-number for number in range(1, SMALL)]
        return list(dict.fromkeys(number for number in found if -2**31 <= number < 2**31))

    def vary(self):
        """Whether there is anything to vary."""
        return bool(self.sites or self.lists)

    def __getitem__(self, number):
        if number == 0:
            return self.job
        dice = random.Random(f"{self.seed}/{number}")
        turn = (number - 1) // 2
        if number % 2 and self.sites:
            # One number after the other, all else as it is.
            site = self.sites[turn % len(self.sites)]
            return self.with_values({site: self.numbers[turn // len(self.sites) % len(self.numbers)]})
        job = self.with_values({site: self.thrown(dice) for site in self.sites if dice.random() < 0.7})
        return Job(job.variables, self.with_house_nodes(job.nodes, dice), job.records) if self.lists else job

    def thrown(self, dice):
        """Often no or yes, sometimes any number at all."""
        kind = dice.random()
        return dice.choice((0, 1)) if kind < 0.3 else dice.choice(self.numbers) if kind < 0.9 else dice.randint(-2**31, 2**31 - 1)

    def with_values(self, chosen):
        variables = [variable._replace(value=chosen.get(("variable", index), variable.value))
                     for index, variable in enumerate(self.job.variables)]
        nodes = [node._replace(value=chosen.get(("node", index), node.value)) for index, node in enumerate(self.job.nodes)]
        return Job(variables, nodes, self.job.records)

    def with_house_nodes(self, nodes, dice):
        """Some house nodes taken away, some added. They stand right of all public siblings, as the tree rules ask."""
        below = [[] for _ in nodes]
        for index, node in enumerate(nodes):
            if index:
                below[node.parent].append(index)
        nodes = list(nodes)
        for index in range(len(nodes)):
            below[index] = [child for child in below[index] if not nodes[child].existence or dice.random() < 0.7]
        room = self.places - len(nodes)
        parents = list(self.lists)
        for _ in range(min(room, dice.choice((0, 1, 1, 2, 3, 5, 8, 40)))):
            parent = dice.choice(parents)
            public = sum(not nodes[child].existence for child in below[parent])
            below[parent].insert(dice.randint(public, len(below[parent])), len(nodes))
            parents.append(len(nodes))
            left = below[parent][below[parent].index(len(nodes)) + 1:]  # those to its right
            own = nodes[left[0]].existence if left else nodes[parent].list
            nodes.append(Node(parent, own, own, own, self.thrown(dice)))
            below.append([])
        return in_preorder(nodes, below)

    def difference(self, number, names):
        """What a variation has that the source has not, in words."""
        job = self[number]
        found = [f"{name}{levels_text(v.level, v.level, v.level)} = {v.value}"
                 for name, v, own in zip(names.variables, job.variables, self.job.variables) if v != own]
        house = [sum(bool(node.existence) for node in nodes) for nodes in (job.nodes, self.job.nodes)]
        if job.nodes != self.job.nodes and len(job.nodes) == len(self.job.nodes):
            found += [f"{name} = {node.value}" for name, node, own in zip(names.nodes, job.nodes, self.job.nodes) if node != own]
        elif job.nodes != self.job.nodes:
            found.append(f"{plural(house[0], 'house node')} in place of {house[1]}, other house values")
        return ", ".join(found[:4]) + (", .." if len(found) > 4 else "") or "the numbers of the source"


def in_preorder(nodes, below):
    """The nodes that hang below the root, a parent before its children."""
    found, waiting = [], [(0, NO_PARENT)]
    while waiting:
        index, parent = waiting.pop()
        waiting.extend((child, len(found)) for child in reversed(below[index]))
        found.append(nodes[index]._replace(parent=parent))
    return found


class Board(NamedTuple):
    """A board that came: how often, after which endings, and from which variation first."""

    lines: tuple
    first: int
    endings: Counter


def boards(variations, count, limits, progress):
    """The different boards, shortest first."""
    found = {}
    frames = (frame(variations[number].encode(), limits) for number in range(count))
    total = 0
    for number, outcome in enumerate(replay(frames, brief=True)):
        lines = tuple(value for value, readers in outcome.lines if not readers)  # what everyone sees
        board = found.setdefault(lines, Board(lines, number, Counter()))
        board.endings[outcome.ending, outcome.record] += 1
        total = number + 1
        progress(total)
    if total != count:
        raise JobError(f"replay answered {plural(total, 'job')} of {count:,}")
    return sorted(found.values(), key=lambda board: len(board.lines))


def terminal_progress(count):
    """A count on standard error, where that is a terminal."""
    if not sys.stderr.isatty():
        return lambda done: None
    last = [time.monotonic()]

    def show(done):
        if done == count or time.monotonic() - last[0] > 0.1:
            last[0] = time.monotonic()
            text = f"{done:,} of {count:,} runs"
            sys.stderr.write(f"\r{text}" if done < count else "\r" + " " * (len(text) + 8) + "\r")
            sys.stderr.flush()
    return show


def probe_report(source, variations, found, count):
    """What came, in lines."""
    names = source.names
    lines = [f"{source.path}: {plural(count, 'run')} with different house numbers, " +
             ("one board" if len(found) == 1 else f"{len(found)} different boards"), ""]
    lines += ["  lines     runs  how they ended"]
    rows = [board_row(source, board) for board in found]
    if len(rows) > 2 * SHOWN + 1:
        rows[SHOWN:-SHOWN] = [f"      ⋮           {len(rows) - 2 * SHOWN} more boards"]
    lines += rows
    if len(found) > 1:
        lines += stops(source, variations, found)
    if len(found) > 1:
        lines += ["", "For example:"]
        for board in (found[0], found[-1]):
            lines += wrapped(variations.difference(board.first, names), bullet=f"{plural(len(board.lines), 'line')} for ")
    return lines + [""] + broken(found) + last_words(found)


def runs(board):
    return sum(board.endings.values())


def board_row(source, board):
    ends = []
    for (ending, record), _ in board.endings.most_common(2):
        ends.append("finished" if ending == FINISHED else f"{ending_text(ending)} in line {source.names.record_places[record].line}")
    more = len(board.endings) - len(ends)
    return f"  {len(board.lines):5}  {runs(board):7,}  {', '.join(ends)}" + (f", {more} more" if more else "")


def stops(source, variations, found):
    """The stops that left a shorter board than the longest, by their line."""
    by_stop = {}
    for board in found[:-1]:
        for (ending, record), count in board.endings.items():
            if ending != FINISHED:
                by_stop.setdefault((ending, record), []).append((len(board.lines), count))
    lines = ["", "The stops that made the difference:"]
    for (ending, record), came in sorted(by_stop.items(), key=lambda item: -sum(count for _, count in item[1])):
        place = source.names.record_places[record]
        lengths = [length for length, _ in came]
        span = plural(lengths[0], "line") if len(set(lengths)) == 1 else f"{min(lengths)} to {max(lengths)} lines"
        lines += ["", f"{place}: stopped with {ending_text(ending)}: {plural(sum(count for _, count in came), 'run')}, boards of {span}"]
        lines += quoted(place)
    return lines


def broken(found):
    """What is proved cannot come; it is said where it does."""
    longest = found[-1].lines
    finished = [board for board in found if any(ending == FINISHED for ending, _ in board.endings)]
    if any(longest[:len(board.lines)] != board.lines for board in found) or len(finished) > 1:
        return ["THIS MUST NOT HAPPEN: it is proved that of two such boards one is a beginning of the other, and that",
                "finished runs leave the same board. Please report this source.", ""]
    return []


def last_words(found):
    if len(found) == 1:
        return wrapped("Other house numbers may still make a difference: this tries many, not all.", "") + [
            f"How much a board can tell at most: {PROGRAM} probe --help"]
    finished = [board for board in found if any(ending == FINISHED for ending, _ in board.endings)]
    text = "Where a board ends tells something about house numbers here. To close this, show a board only where the run has finished"
    if finished:
        count = sum(number for (ending, _), number in finished[0].endings.items() if ending == FINISHED)
        text += f": {count:,} of the runs finished, with one board of {plural(len(finished[0].lines), 'line')}."
    else:
        text += "; here no run has."
    return wrapped(text, "")
