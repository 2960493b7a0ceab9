"""A job, and script after script over the variables and the tree that it leaves."""

from typing import NamedTuple

from .account import agrees, ended_lines, left_lines, left_tree, refusal_lines
from .checks import check_section, describe
from .endings import FINISHED, refused
from .errors import JobError
from .files import read_script, shown, source_of_section
from .run import Run, Standing, told
from .trace import trace


class Part(NamedTuple):
    """A job or a follow-on script in its turn: its source, or None for bytes that are refused, and the fault that this tool finds."""

    path: str
    source: object
    data: bytes
    fault: object = None


def read_part(path, over):
    """A follow-on script."""
    source, data = read_script(path, over)
    fault = check_section(data, len(over.job.variables))
    if source is None and fault is None:
        source = source_of_section(data, path, over)
    return Part(source.path if source else shown(path), source, data, fault)


class History:
    """The parts so far, followed beside the monitor. What one leaves the next one finds, also after a stop; one that is refused changes nothing."""

    def __init__(self, limits):
        self.limits = limits
        self.standing = None  # nothing, before the job
        self.variables = self.tree = None
        self.count = 0
        self.stopped = None  # the number of the first script that was stopped; 0 is the job
        self.finished = True  # all of them

    def rows(self, part, answer, traced):
        """How the next part ended, and its board."""
        number, self.count = self.count, self.count + 1
        self.finished &= answer.ending == FINISHED
        if refused(answer.ending):
            yield from refusal_lines(part.path, part.source, answer, part.fault)
            return
        if part.fault:
            raise JobError(f"{part.path}: the monitor ran this script, and this tool holds that it is {describe(part.fault)}\n"
                           "The monitor is right. Please report this script.")
        if answer.ending != FINISHED and self.stopped is None:
            self.stopped = number
        run = Run(part.source, self.limits, self.standing, f"new{number}" if number else "new")
        if traced:
            yield from trace(run)
            yield ""
        yield from ended_lines(run.go(), answer)
        self.variables, self.tree = answer.variables, left_tree(run, answer)
        self.standing = Standing(run.values, run.root) if agrees(run, answer) else told(self.variables, self.tree)

    def left(self, names, whole):
        """What stands in the end."""
        yield from left_lines(names, self.variables, self.tree, whole)
        if self.stopped is not None and self.stopped + 1 < self.count:
            which = f"Script {self.stopped}" if self.stopped else "The job"
            yield from ["", f"{which} was stopped. What it left may tell where, and so may each board after it:",
                        "publish none of them. More: docs/GUARANTEE.md"]
