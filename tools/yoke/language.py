"""The language of sources: sections, variables, trees."""

from typing import NamedTuple

from .encoding import Job, Node, Variable
from .errors import JobError, SourceError, Text, word
from .limits import LEVELS, MAX_PARTIES, MAX_VARIABLES, NO_PARENT, PUBLIC, UNNAMED
from .script import Script
from .words import Token, Words, scan

SECTIONS = ("variables", "tree", "script")
LEVEL_WORDS = ("public", "house", "content", "list", "record")
# No variable has these names. A word that the language gets later is not among them: sources may have such a variable.
RESERVED = frozenset(LEVEL_WORDS + (
    "if", "else", "while", "end", "print", "root", "up", "first", "right", "new", "remove", "set", "cover", "nothing",
    "value", "children", "mean", "child", "sibling"))


class Names(NamedTuple):
    """What a source adds to a job: names, and where everything is written; an end, at the line that opens its block."""

    variables: list
    nodes: list
    variable_places: list
    node_places: list
    record_places: list


class Source(NamedTuple):
    path: str
    job: Job
    names: Names
    over: str = ""  # the path of the source whose variables and tree a follow-on script runs over

    def place_of(self, fault):
        """Where the source has the record that a fault is about."""
        places = {"variable": self.names.variable_places, "node": self.names.node_places,
                  "record": self.names.record_places}.get(fault.section, [])
        return places[fault.index] if fault.index < len(places) else None


def parse(text, path, tree=None):
    """A source in characters, as a job with names."""
    return parse_text(Text(path, text.split("\n")), tree)


def parse_text(text, tree=None):
    """A source as a job with names. Where the tree comes from another source, so do the first variables."""
    lines = scan(text)
    sections = split_sections(lines[take_parties(lines, tree):])
    declared = Declared(tree)
    for line in flat(sections["variables"].lines):
        declared.add(line)
    if tree is None:
        nodes, node_names, node_places = parse_tree(sections["tree"].lines)
    else:
        refuse_section(sections["tree"], f"the tree comes from {tree.path}, so there is none here")
        nodes, node_names, node_places = tree.job.nodes, tree.names.nodes, tree.names.node_places
    records, record_places = Script(declared.names).parse(sections["script"].lines)
    job = Job(declared.variables, nodes, records)
    if len(job.variables) * 8 + len(nodes) * 12 + len(records) * 16 > 65_535:
        raise JobError(f"{text.path}: the job is too large to be written: an offset has 16 bits")
    names = Names(list(declared.names), node_names, list(declared.names.values()), node_places, record_places)
    return Source(text.path, job, names)


def take_parties(lines, tree=None):
    """How many lines name the parties: the first or none. Without such a line there is one party, house; a tree brings those of its source."""
    words = Words(lines[0]) if lines else None
    heading = words.take("parties") if words else None
    if heading is None:
        if tree is None:
            LEVELS.use(UNNAMED[:1])
        return 0
    if tree is not None:
        raise SourceError(heading.place, f"the parties are those of {tree.path}, so there are none here")
    names = []
    while not names or words.take(","):
        token = words.name("a party's name")
        if token.text in LEVEL_WORDS and token.text != UNNAMED[0] or token.text in names:
            said = "is named twice" if token.text in names else "is a word of the language and cannot name a party"
            raise SourceError(token.place, f"'{word(token.text)}' {said}")
        names.append(token.text)
    words.finish()
    if len(names) > MAX_PARTIES:
        raise SourceError(lines[0].place(), f"there are {len(names)} parties; there may be {MAX_PARTIES}")
    LEVELS.use(names)
    return 1


def parse_tree_text(text):
    """A source that has variables and a tree, and no script."""
    lines = scan(text)
    refuse_section(split_sections(lines[take_parties(lines):])["script"], "a tree in a file of its own has no script")
    return parse_text(text)


def parse_script_text(text, over):
    """A follow-on script: a script section alone, over the variables and the tree of another source."""
    lines = scan(text)
    sections = split_sections(lines[take_parties(lines, over):])
    for name in ("variables", "tree"):
        refuse_section(sections[name], f"a follow-on script has no {name} of its own: it runs over those that stand")
    if sections["script"].heading is None:
        raise JobError(f"{text.path}: a follow-on script has the section script, and there is none here")
    script = Script(over.names.variables, f"the variables are those of {over.path}")
    records, record_places = script.parse(sections["script"].lines)
    return Source(text.path, over.job._replace(records=records), over.names._replace(record_places=record_places), over.path)


def unknown_tree():
    """What a follow-on script runs over where it is not said: as many variables as there may be, with the names that `list` gives."""
    LEVELS.use(UNNAMED)
    names = [f"v{index}" for index in range(MAX_VARIABLES)]
    return Source(f"a job that is not named: v0 to v{MAX_VARIABLES - 1} (--tree TREE names one)",
                  Job([Variable(PUBLIC, 0)] * MAX_VARIABLES, [], []), Names(names, [], [], [], []))


class Section(NamedTuple):
    heading: Token  # or None
    lines: list


def refuse_section(section, text):
    if section.heading:
        raise SourceError(section.heading.place, text)


def split_sections(lines):
    """The lines of each section. A heading stands in the column of the first line."""
    sections = {name: Section(None, []) for name in SECTIONS}
    current, order = None, -1
    for line in lines:
        first = line.tokens[0]
        if line.indent <= lines[0].indent:
            if first.text not in SECTIONS or line.indent < lines[0].indent:
                hint = "; the lines of a section are indented" if current else ""
                raise SourceError(line.place(), "a section is expected here: variables, tree or script" + hint)
            if len(line.tokens) > 1:
                raise SourceError(line.tokens[1].place, f"nothing may follow '{first.text}' in its line")
            if SECTIONS.index(first.text) <= order:
                raise SourceError(first.place, "sections come once each, in the order variables, tree, script")
            order, current = SECTIONS.index(first.text), first.text
            sections[current] = Section(first, [])
        else:
            sections[current].lines.append(line)
    return sections


def flat(lines):
    for line in lines:
        if line.indent != lines[0].indent:
            raise SourceError(line.place(), "all variables are indented alike")
        yield line


class Declared:
    """The variables so far, and each name with its place."""

    def __init__(self, tree):
        self.variables = list(tree.job.variables) if tree else []
        self.names = dict(zip(tree.names.variables, tree.names.variable_places)) if tree else {}

    def add(self, line):
        """A line such as `beds house = 12`."""
        words = Words(line)
        name = words.name("a variable's name")
        if name.text in RESERVED:
            raise SourceError(name.place, f"'{name.text}' is a word of the language and cannot name a variable")
        if name.text in self.names:
            first = self.names[name.text]
            where = f"line {first.line}" if first.text is name.place.text else f"line {first.line} of {first.text.path}"
            raise SourceError(name.place, f"'{word(name.text)}' is declared twice, first in {where}")
        level = words.level()
        words.need("=")
        value = words.number()
        words.finish()
        self.variables.append(Variable(level or PUBLIC, value))
        self.names[name.text] = name.place


def parse_tree(lines):
    """Lines such as `cellar house = 5`, `gate content house list house = 7`. The job has its node records in their order: each is followed by its subtree."""
    nodes, names, places = [], [], []
    above = []  # the indent and index of each line on the way to the root
    for line in lines:
        while above and above[-1][0] > line.indent:
            above.pop()
            if not above or above[-1][0] < line.indent:
                raise SourceError(line.place(), "this indentation is that of no line above")
        if above and above[-1][0] == line.indent:
            above.pop()
        name, levels, value = parse_node(line)
        above.append((line.indent, len(nodes)))
        nodes.append(Node(above[-2][1] if len(above) > 1 else NO_PARENT, *levels, value))
        names.append(name.text)
        places.append(name.place)
    return nodes, names, places


def parse_node(line):
    words = Words(line)
    name = words.name("a node's name")
    if name.text in LEVEL_WORDS:
        raise SourceError(name.place, f"'{name.text}' is a word of the language; the node's name comes first")
    existence = words.level() or PUBLIC
    content = words.need_level() if words.take("content") else existence
    below = words.need_level() if words.take("list") else existence
    words.need("=")
    value = words.number()
    record = words.take("record")
    if record:
        raise SourceError(record.place, "a node's record has no number of its own any more: the records stand in the order of these lines")
    words.finish()
    return name, (existence, content, below), value
