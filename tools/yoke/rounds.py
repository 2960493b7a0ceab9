"""Jobs that take turns: who ends in which turn."""

from .checks import plural
from .endings import FINISHED, ending_text


def rounds_lines(paths, newcomers, turns):
    """A line for each job that is turned back, then one for each run, as they end."""
    lines = [f"{path}: refused with {ending_text(number)}" for path, number in zip(paths, newcomers) if number]
    had = dict.fromkeys(range(len(paths)), 0)
    width = len(str(len(turns)))
    for number, turn in enumerate(turns, 1):
        had[turn.run] += 1
        if turn.outcome:
            lines.append(f"turn {number:{width}}  {paths[turn.run]}: {ended_text(turn.outcome)}, in {plural(had[turn.run], 'turn')}")
    return lines + ["", "Each run ends as it does by itself: `run` shows its board, and why a job is",
                    "refused or stopped."]


def ended_text(outcome):
    how = "finished" if outcome.ending == FINISHED else f"stopped with {ending_text(outcome.ending)}"
    return f"{how} after {plural(outcome.steps, 'step')}"
