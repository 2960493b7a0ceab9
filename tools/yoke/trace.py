"""A run, a line for each step."""

from .commands import ASSIGN, COMMANDS, ELSE, END, IF_BACK, INSERTIONS, MOVES, PRINT, REMOVALS, SET
from .endings import ending_text
from .limits import LEVELS
from .listing import line_text, record_text
from .run import drawn_tree

HEAD = ("step", "line", "record", "statement", "context", "cursor", "its level", "what changed")


def trace(run):
    """Carries the run out. Each row has the record, the cursor's node, the context and the cursor level before the step."""
    names = run.source.names
    statement = max([len(record_text(record, names.variables)) for record in run.job.records] + [len(HEAD[3])])
    node = max(len(name) for name in [row.name for row in drawn_tree(run.root)] + [HEAD[5]])
    form = f"{{:>7}}  {{:>5}}  {{:>6}}  {{:{min(statement, 40)}}}  {{:7}}  {{:{min(node, 24)}}}  {{:9}}  {{}}"
    yield form.format(*HEAD)
    while run.at < len(run.job.records):
        at, record, cursor = run.at, run.job.records[run.at], run.cursor
        before = (run.steps + 1, names.record_places[at].line, at, record_text(record, names.variables),
                  LEVELS[run.context()], cursor.name, LEVELS[run.cursor_level])
        removed = run.target(record.command) if record.command in REMOVALS else None
        back = run.remembered[-1] if record.command == END else None
        went_on = run.turn()
        change = changed(run, at, record, cursor, removed, back) if went_on else f"stopped with {ending_text(run.ending)}"
        yield form.format(*(before if went_on else ("-",) + before[1:]), change).rstrip()
        if not went_on:
            return


def changed(run, at, record, cursor, removed, back):
    """What the step did that was carried out just now."""
    names, command = run.source.names, record.command
    if command == ASSIGN:
        return f"{names.variables[record.target]} = {run.values[record.target]}"
    if command == PRINT:
        return f"board line {len(run.board)}: {line_text(run.board[-1])}"
    if command == SET:
        return f"{cursor.name} = {cursor.value}"
    if command in MOVES:
        return f"cursor on {run.cursor.name}, {LEVELS[run.cursor_level]}"
    if command in INSERTIONS:
        made = cursor.children[0] if command == INSERTIONS[0] else cursor.right()
        return f"{made.name} = {made.value} under {made.parent.name}, {LEVELS[made.existence]}"
    if command in REMOVALS:
        below = len(drawn_tree(removed)) - 1
        return f"{removed.name} is gone" + (f", with {below} below it" if below else "")
    if command == IF_BACK:
        went = jump(run, at)
        return f"{cursor.name} is remembered, {LEVELS[run.remembered[-1].level]}; the cursor level is {LEVELS[run.cursor_level]}; {went}"
    if back:
        return f"back to {run.cursor.name}, {LEVELS[run.cursor_level]}"
    if COMMANDS[command].opens or command in (ELSE, END):
        return jump(run, at)
    return ""


def jump(run, at):
    """Where a record of a block went on."""
    if run.at == at + 1:
        return "into the block" if COMMANDS[run.job.records[at].command].opens else ""
    if run.at == len(run.job.records):
        return "to the script's end"
    return f"to line {run.source.names.record_places[run.at].line}, record {run.at}"
