"""The monitor's programs and what they say."""

import os
import re
import struct
import subprocess
import threading
from pathlib import Path
from typing import NamedTuple

from .errors import JobError, visible
from .limits import HOME, MAX_RUNS, MAX_WRITTEN, TURN_STEPS
from .pictures import Picture

FRAME = struct.Struct("<IIHH")
EVENT = struct.Struct("<IIIHH")
JOB, SCRIPT, WRITE = 0, 1, 4  # kinds of events of history
NEWCOMER, TURN = 0, 1  # and of rounds


class Outcome(NamedTuple):
    """A program's answer; lines are pairs of number and readers, variables are pairs of level and value, tree rows are Picture with no name."""

    ending: int
    record: int
    steps: int
    lines: list
    variables: list
    tree: list


def program_path(name):
    """A program of the monitor: the variable of its name in capitals, or where the repository builds it."""
    given = os.environ.get(name.upper())
    path = Path(given) if given else HOME / "target" / "bin" / name
    if not path.is_file():
        said = f"the variable {name.upper()} names" if given else "the repository builds"
        raise JobError(f"the program {name} is not there: {said} {path}\n"
                       "To build it, run this in the repository:  make programs")
    return path


def start(name):
    """A program, with its standard streams as pipes."""
    path = program_path(name)
    try:
        return subprocess.Popen([str(path)], stdin=subprocess.PIPE, stdout=subprocess.PIPE, stderr=subprocess.PIPE)
    except OSError as problem:
        raise JobError(f"the program {path} cannot be run: {problem.strerror}") from None


def misread(name, problem, status, text):
    return JobError(f"{name} answered in a form that this tool does not know: {visible(str(problem))}\n"
                    f"exit status {status}\n" + "\n".join(visible(line) for line in text[:400].split("\n")))


# inspect: one job, with the board runner's limits.

NODE_LINE = re.compile(r"((?:  )+)value (-?\d+), existence (\d+), content (\d+), list (\d+)")


def inspect(data):
    child = start("inspect")
    output, error = child.communicate(data)
    text = output.decode("utf-8", "replace")
    try:
        return read_outcome(text)
    except (ValueError, IndexError) as problem:
        raise misread("inspect", problem, child.returncode, text + error.decode("utf-8", "replace")) from None


def line_of(parts):
    """A board line: its number, and the set of its readers."""
    value, readers = parts
    return int(value), int(readers)


def read_outcome(text):
    """inspect's standard output; ValueError where it is not of its form."""
    rows = text.split("\n")

    def field(at, word):
        match = re.fullmatch(rf"{word} (\d+)(?: .*)?", rows[at])
        if not match:
            raise ValueError(f"'{word}' expected in line {at + 1}, there is '{rows[at]}'")
        return int(match.group(1))

    ending, record = field(0, "ending"), field(1, "record")
    if rows[2:] == [""]:
        return Outcome(ending, record, 0, [], [], [])
    steps, count = field(2, "steps"), field(3, "lines")
    lines = [line_of(row.split()) for row in rows[4:4 + count]]
    at = 4 + count
    count = field(at, "variables")
    variables = []
    for row in rows[at + 1:at + 1 + count]:
        match = re.fullmatch(r"  \d+: level (\d+), value (-?\d+)", row)
        if not match:
            raise ValueError(f"a variable expected, there is '{row}'")
        variables.append((int(match.group(1)), int(match.group(2))))
    at += 1 + count
    count = field(at, "tree")
    tree = []
    for row in rows[at + 1:at + 1 + count]:
        match = NODE_LINE.fullmatch(row)
        if not match:
            raise ValueError(f"a node expected, there is '{row}'")
        value, existence, content, below = (int(part) for part in match.groups()[1:])
        tree.append(Picture("", existence, content, below, value, len(match.group(1)) // 2 - 1))
    if rows[at + 1 + count:] != [""]:
        raise ValueError("there is more behind the tree")
    return Outcome(ending, record, steps, lines, variables, tree)


# clean and arrange: one stored job, with the rules that it was stored under.


class Change(NamedTuple):
    """A byte that was set to zero: in section 0 (variables), 1 (nodes) or 2 (script), of a record."""

    section: int
    index: int
    byte: int
    old: int


class Stored(NamedTuple):
    """A program's answer: the job as it is now and what clean changed; or refused is the number and the index, and there is nothing else."""

    data: bytes
    changes: list
    refused: tuple = ()


def stored(name, data):
    """What clean or arrange makes of a stored job."""
    child = start(name)
    output, error = child.communicate(data)
    rows = error.decode("utf-8", "replace").split("\n")
    try:
        if rows.pop() or child.returncode:
            raise ValueError("its standard error is cut off" if rows else "it ended early")
        if not output:
            (row,) = rows
            return Stored(b"", [], tuple(int(number) for number in re.fullmatch(r"refused (\d+) at (\d+)", row).groups()))
        if len(output) != len(data):
            raise ValueError(f"{len(data)} bytes expected, there are {len(output)}")
        return Stored(output, [Change(*(int(number) for number in row.split(" "))) for row in rows])
    except (ValueError, TypeError, AttributeError) as problem:
        raise misread(name, problem, child.returncode, error.decode("utf-8", "replace")) from None


# replay: many jobs in one process, with limits of their own. history: a job, and scripts over the tree that it leaves.


def frame(data, limits):
    return FRAME.pack(len(data), limits.budget, limits.places, limits.lines) + data


def replay(frames, brief=False):
    """The outcome of each frame, in order; in brief, without variables and tree."""
    return outcomes("replay", frames, "job", brief)


def events_of(job, sections, limits):
    return [EVENT.pack(kind, len(data), limits.budget, limits.places, limits.lines) + data
            for kind, data in [(JOB, job)] + [(SCRIPT, data) for data in sections]]


def history(job, sections, limits):
    """The outcome of a job and of each bare section behind it, over what stands then."""
    events = events_of(job, sections, limits)
    answers = list(outcomes("history", events, "script"))
    if len(answers) != len(events):
        raise misread("history", f"{len(events)} answers expected", 0, f"there are {len(answers)}")
    return answers


def written(job, sections, limits):
    """What stands behind a job and the sections after it, as a job; by history, too."""
    events = events_of(job, sections, limits)
    child = start("history")
    output, _ = child.communicate(b"".join(events) + EVENT.pack(WRITE, 0, MAX_WRITTEN, limits.places, 0))
    text = output.decode("utf-8", "replace")
    match = re.search(r"^written (\d+) (\d+)\narea ((?:[0-9a-f]{2})*)\n\Z", text, re.M)
    if not match or int(match.group(1)) != len(events):
        raise misread("history", "what stands was not written", child.returncode, text[-200:])
    length, area = int(match.group(2)), bytes.fromhex(match.group(3))
    if not 20 <= length <= len(area):
        raise misread("history", f"what stands was turned away with {length}", child.returncode, "")
    return area[:length]


class Turn(NamedTuple):
    """A turn: whose, by the place among the jobs, how many steps, and the outcome where the run has ended."""

    run: int
    took: int
    outcome: Outcome


def rounds(jobs, limits):
    """What becomes of jobs that take turns: for each the number that turns it back, or 0; and the turns, until nobody is left."""
    most = max(1, -(-limits.budget // TURN_STEPS)) * min(len(jobs), MAX_RUNS)
    events = [EVENT.pack(NEWCOMER, len(data), *limits) + data for data in jobs] + [EVENT.pack(TURN, 0, 0, 0, 0)] * most
    child = start("rounds")
    output, _ = child.communicate(b"".join(events))
    text = output.decode("utf-8", "replace")
    answers = Answers(iter(text.split("\n")[:-1]), "turn")
    try:
        newcomers = [answers.newcomer() for _ in jobs]
        turns = [turn for turn in (answers.turn() for _ in range(most)) if turn]
        if answers.more() or sum(turn.outcome is not None for turn in turns) != newcomers.count(0):
            raise ValueError("an answer for each run expected")
        return newcomers, turns
    except (ValueError, IndexError) as problem:
        raise misread("rounds", problem, child.returncode, answers.row or "") from None


def outcomes(name, parts, heads, brief=False):
    """The outcome of each part of a program's input, in order; the first is a job. The parts are written while the answers are read."""
    child = start(name)

    def feed():
        try:
            for data in parts:
                child.stdin.write(data)
            child.stdin.close()
        except OSError:  # it has ended; its answers will show that some are missing
            pass

    writer = threading.Thread(target=feed, daemon=True)
    writer.start()
    rows = (row.decode("utf-8", "replace").rstrip("\n") for row in child.stdout)
    answers = Answers(rows, heads)
    try:
        while answers.more():
            yield answers.read(brief)
    except (ValueError, IndexError) as problem:
        child.kill()
        raise misread(name, problem, child.wait(), answers.row or "") from None
    finally:
        child.stdout.close()
        child.stderr.close()
        writer.join(1)
        child.wait()


class Answers:
    """Outcome blocks, row by row; heads is the word that starts each behind the first."""

    def __init__(self, rows, heads):
        self.rows = rows
        self.heads = heads
        self.count = 0
        self.next()

    def next(self):
        self.row = next(self.rows, None)

    def more(self):
        return self.row is not None

    def numbers(self, *words):
        """The numbers of the next row, whose other words are these, one before each number but the last ones."""
        parts = (self.row or "").split(" ")
        if parts[0] != words[0]:
            raise ValueError(f"'{words[0]}' expected, there is '{self.row}'")
        self.next()
        return [int(part) for part in parts if part not in words]

    def several(self, word):
        found = []
        while self.row is not None and self.row.startswith(word + " "):
            found.append(self.numbers(word))
        return found

    def pass_over(self, *words):
        while self.row is not None and self.row.split(" ", 1)[0] in words:
            self.next()

    def head(self, head):
        """The line that starts the next part."""
        (number,) = self.numbers(head)
        if number != self.count:
            raise ValueError(f"{head} {self.count} expected, there is {head} {number}")
        self.count += 1

    def word(self, word):
        """Whether the next row is this word, which is then passed over."""
        found = self.row == word
        if found:
            self.next()
        return found

    def read(self, brief):
        self.head(self.heads if self.count else "job")
        return self.block(brief)

    def newcomer(self):
        """The number that turns a newcomer back, or 0."""
        self.head("newcomer")
        return 0 if self.word("taken") else self.block(True).ending

    def turn(self):
        """A turn, or None where there is no run."""
        self.head("turn")
        if self.word("idle"):
            return None
        run, took = self.numbers("run", "took")
        return Turn(run, took, self.block(False) if (self.row or "").startswith("ending ") else None)

    def block(self, brief):
        """An outcome, behind its head."""
        ending, record, steps, count = self.numbers("ending", "index", "steps", "lines")
        lines = [line_of(line) for line in self.several("line")]
        if len(lines) != count:
            raise ValueError(f"{count} lines expected, there are {len(lines)}")
        if brief:
            self.pass_over("variable", "node")
        variables = [(level, value) for level, value in self.several("variable")]
        tree = [Picture("", existence, content, below, value, depth)
                for depth, existence, content, below, value in self.several("node")]
        return Outcome(ending, record, steps, lines, variables, tree)


def outcome(data, limits, given):
    """The monitor's answer to one job: by inspect, or where limits are given, by replay."""
    if not given:
        return inspect(data)
    answers = list(replay([frame(data, limits)]))
    if len(answers) != 1:
        raise misread("replay", "one answer expected", 0, f"there are {len(answers)}")
    return answers[0]
