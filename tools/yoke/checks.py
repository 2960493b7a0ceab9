"""The checks 1 to 13."""

from typing import NamedTuple

from .commands import CHILDREN, COMMANDS, ELSE, END, MEAN, NAMED
from .encoding import NODE, RECORD, TRAILER, VARIABLE, decode, decode_script
from .endings import ending_text
from .limits import LEVELS, MAX_BUDGET, MAX_BYTES, MAX_DEPTH, MAX_NODES, MAX_RECORDS, MAX_VARIABLES, NO_PARENT, within


class Fault(NamedTuple):
    """Why the monitor turns a job or a follow-on script back: its number, its index, and for people the section, the bytes and a sentence."""

    number: int
    index: int
    section: str
    start: int
    length: int
    text: str


class Edition(NamedTuple):
    """Which rules a program checks by: how many commands there are, whether spare bytes are zero, whether nodes are listed the way they hang,
    and whether a level is any set of parties."""

    commands: int
    spare: bool
    order: bool
    sets: bool


TODAY = Edition(len(COMMANDS), True, True, True)
STORED = Edition(17, False, False, False)  # the cleaner's, whatever lands later
UNORDERED = Edition(20, True, False, False)  # the rearranger's


def plural(count, noun):
    return f"{count:,} {noun}" + ("" if count == 1 else "s")


def check(data, edition=TODAY):
    """The first of the checks 1 to 8 that the bytes fail, or None; where the edition has them, 13 comes before 6 and 12 before 8."""
    if not 8 <= len(data) <= MAX_BYTES:
        return Fault(1, 0, "", 0, len(data),
                     f"the job has {plural(len(data), 'byte')}; it must have 8 to {MAX_BYTES:,}")
    fault = check_layout(data) or check_counts(data)
    if fault:
        return fault
    _, nodes, script, _ = TRAILER.unpack(data[-8:])
    job = decode(data)
    return first_fault((
        *([] if edition.sets else [(4, "variable", 0, VARIABLE.size, variable_faults(job))]),
        (5, "node", nodes, NODE.size, parent_faults(job)),
        *([(13, "node", nodes, NODE.size, order_faults(job))] if edition.order else ()),
        (6, "node", nodes, NODE.size, tree_faults(job, edition.sets)),
        (7, "record", script, RECORD.size, field_faults(job.records, len(job.variables), edition.commands)),
        *(spare_searches(data, job, edition.sets) if edition.spare else ()),
        (8, "record", script, RECORD.size, block_faults(job.records)),
    ), len(data))


def spare_searches(data, job, sets):
    """Check 12, section by section."""
    _, nodes, script, _ = TRAILER.unpack(data[-8:])
    sections = (("variable", 0, VARIABLE, job.variables), ("node", nodes, NODE, job.nodes), ("record", script, RECORD, job.records))
    return [(12, section, start, form.size, spare_faults(section, data[start:], form, parts, sets)) for section, start, form, parts in sections]


def check_section(data, variables):
    """The first of the checks 11, 7, 12 and 8 that a bare section fails, over a tree and so many variables that stand, or None."""
    if len(data) % RECORD.size:
        return Fault(11, 0, "", 0, len(data), f"the section has {plural(len(data), 'byte')}, which is no multiple of {RECORD.size}")
    records = decode_script(data)
    if len(records) > MAX_RECORDS:
        return Fault(11, 0, "", 0, len(data), f"the section has {plural(len(records), 'record')}; it must have 0 to {MAX_RECORDS:,}")
    return first_fault((
        (7, "record", 0, RECORD.size, field_faults(records, variables)),
        (12, "record", 0, RECORD.size, spare_faults("record", data, RECORD, records)),
        (8, "record", 0, RECORD.size, block_faults(records)),
    ), len(data))


def first_fault(searches, end):
    """The first fault of the first search that has one, or None. The script's end has the bytes behind it, which are a trailer's or none."""
    for number, section, start, size, faults in searches:
        for index, text in faults:
            at = start + index * size
            return Fault(number, index, section, at, min(size, end - at), text)
    return None


def check_layout(data):
    variables, nodes, script, trailer = TRAILER.unpack(data[-8:])
    at = len(data) - 8
    said = f"the trailer says variables {variables}, nodes {nodes}, script {script}, trailer {trailer}"
    if not 0 == variables <= nodes <= script <= trailer == at:
        return Fault(2, 0, "", at, 8,
                     f"{said}; the first must be 0, the last {at}, and none below the one before it")
    sections = (("variables take", nodes, 8), ("nodes take", script - nodes, 12), ("script takes", trailer - script, 16))
    for name, length, size in sections:
        if length % size:
            return Fault(2, 0, "", at, 8, f"{said}; the {name} {plural(length, 'byte')}, which is no multiple of {size}")
    return None


def check_counts(data):
    _, nodes, script, trailer = TRAILER.unpack(data[-8:])
    counts = (
        ("variable", nodes // 8, 0, MAX_VARIABLES),
        ("node", (script - nodes) // 12, 1, MAX_NODES),
        ("record", (trailer - script) // 16, 0, MAX_RECORDS),
    )
    for noun, count, low, high in counts:
        if not low <= count <= high:
            return Fault(3, 0, "", len(data) - 8, 8, f"the job has {plural(count, noun)}; it must have {low} to {high:,}")
    return None


def variable_faults(job):
    for index, variable in enumerate(job.variables):
        if variable.level > 1:
            yield index, f"its level is {variable.level}; it must be 0 (public) or 1 (house)"


def parent_faults(job):
    for index, node in enumerate(job.nodes):
        if index == 0 and node.parent != NO_PARENT:
            yield index, f"it is the root, so its parent must be {NO_PARENT}, not {node.parent}"
        if index > 0 and node.parent == NO_PARENT:
            yield index, "it has no parent; only node 0, the root, may have none"
        elif index > 0 and node.parent >= index:
            yield index, f"its parent is node {node.parent}; a parent must come before its children"


def order_faults(job):
    path = []  # the record before, and all above it from the root on
    for index, node in enumerate(job.nodes):
        if index and node.parent not in path:
            yield index, (f"its parent is node {node.parent}, whose subtree has ended: "
                          f"the record before it is node {index - 1}, which is not below node {node.parent}")
            return
        if index:
            del path[path.index(node.parent) + 1:]
        path.append(index)


def tree_faults(job, sets=True):
    last = {}  # the last child so far, by parent
    for index, node in enumerate(job.nodes):
        text = ("" if sets else number_fault(node)) or level_fault(node) or (place_fault(node, job, last) if index else root_fault(node))
        last[node.parent] = index
        if text:
            yield index, text


def number_fault(node):
    for name, level in (("existence", node.existence), ("content", node.content), ("list", node.list)):
        if level > 1:
            return f"its {name} level is {level}; it must be 0 (public) or 1 (house)"
    return ""


def level_fault(node):
    for name, level in (("content", node.content), ("list", node.list)):
        if not within(node.existence, level):
            return f"it is a {LEVELS[node.existence]} node, so its {name} level must be {LEVELS[node.existence | level]} too"
    return ""


def root_fault(node):
    return "it is the root, which must be public" if node.existence else ""


def place_fault(node, job, last):
    parent = job.nodes[node.parent]
    own = LEVELS[node.existence]
    if not within(parent.existence, node.existence):
        return f"it is {own} under node {node.parent}, which is {LEVELS[parent.existence]}"
    if not within(node.existence, parent.list):
        return f"it is a {own} node under node {node.parent}, whose list level is {LEVELS[parent.list]}"
    left = last.get(node.parent)
    if left is not None and not within(job.nodes[left].existence, node.existence):
        return f"it is {own} and stands right of node {left}, which is {LEVELS[job.nodes[left].existence]}"
    return ""


def field_faults(records, count, commands=TODAY.commands):
    for index, record in enumerate(records):
        text = field_fault(record, count, commands)
        if text:
            yield index, text


def field_fault(record, count, commands):
    if record.command >= commands:
        return f"its command is {record.command}; commands are 0 to {commands - 1}" + (" to the cleaner" if record.command < len(COMMANDS) else "")
    row = COMMANDS[record.command]
    if row.target == "variable" and record.target >= count:
        return f"its target is variable {record.target}, and there are {plural(count, 'variable')}"
    if row.target == "mark" and record.target > 3:
        return f"its mark is {record.target}; marks are 0 to 3"
    if not row.expression:
        return ""
    if record.operator > MEAN:
        return f"its operator is {record.operator}; operators are 0 to 5"
    for side, (kind, number) in zip(("left", "right"), record.operands()):
        if kind > CHILDREN:
            return f"its {side} kind is {kind}; kinds are 0 to 3"
        if kind == NAMED and number >= count:
            return f"its {side} side is variable {number}, and there are {plural(count, 'variable')}"
    return ""


FIELDS = {1: "target", 2: "operator", 3: "left kind", 4: "right kind", **dict.fromkeys(range(8, 12), "left number"),
          **dict.fromkeys(range(12, 16), "right number")}


def byte_name(section, byte):
    """What a byte of a record is, where a field has a name."""
    return f"{byte}, of the {FIELDS[byte]}," if section == "record" and byte in FIELDS else str(byte)


def spare_faults(section, data, form, parts, sets=True):
    for index, part in enumerate(parts):
        clean = form.pack(*(part.clean(sets) if section == "record" else part))
        for byte, (old, new) in enumerate(zip(data[index * form.size:], clean)):
            if old != new:
                yield index, f"its byte {byte_name(section, byte)} is {old}; nobody reads it there, so it must be 0"


ELSE_FAULTS = {
    "": "it is an else, and no block is open",
    "while": "it is an else, and the innermost open block is a while",
    "else": "it is a second else of the same if",
}


def block_faults(records):
    blocks = []  # the open ones: "if", "else" for an if past its else, or "while"
    for index, record in enumerate(records):
        if COMMANDS[record.command].opens:
            if len(blocks) == MAX_DEPTH:
                yield index, f"it opens the {MAX_DEPTH + 1}th nested block; {MAX_DEPTH} are allowed"
            blocks.append(COMMANDS[record.command].opens)
        elif record.command == ELSE:
            inner = blocks[-1] if blocks else ""
            if inner != "if":
                yield index, ELSE_FAULTS[inner]
                return
            blocks[-1] = "else"
        elif record.command == END:
            if not blocks:
                yield index, "it is an end, and no block is open"
                return
            blocks.pop()
    if blocks:
        yield len(records), f"the script ends with {plural(len(blocks), 'block')} still open"


def check_limits(job, limits):
    """The first of the checks 9 and 10 that the limits fail for an accepted job, or None."""
    if not 1 <= limits.budget <= MAX_BUDGET:
        return Fault(9, 0, "", 0, 0, f"the budget is {limits.budget:,}; it must be 1 to {MAX_BUDGET:,}")
    there = f"there {'is' if limits.places == 1 else 'are'} {plural(limits.places, 'place')}"
    if not 1 <= limits.places <= MAX_NODES:
        return Fault(10, 0, "", 0, 0, f"{there}; there must be 1 to {MAX_NODES}")
    if limits.places < len(job.nodes):
        return Fault(10, 0, "", 0, 0, f"{there} for {plural(len(job.nodes), 'node')}")
    return None


def describe(fault):
    """A fault in words, without the names of a source."""
    where = ""
    if fault.section:
        at_end = fault.section == "record" and fault.length < RECORD.size
        where = "the script's end" if at_end else f"{fault.section} {fault.index}"
        where += f", bytes {fault.start} to {fault.start + fault.length - 1}: " if fault.length else ": "
    return f"refused with {ending_text(fault.number)}: {where}{fault.text}"
