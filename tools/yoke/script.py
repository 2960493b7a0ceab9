"""The language of sources: scripts."""

import difflib

from .commands import (
    ALONE, ASSIGN, CHILDREN, COMMANDS, CONSTANT, ELSE, END, IF, IF_BACK, INFIX, MARK_CONTENT, MARK_LIST, MEAN, NAMED, VALUE)
from .encoding import Record
from .errors import SourceError, word
from .limits import HOUSE, LEVELS, PUBLIC
from .words import Words, known_parties

# The words of each command that is written as a line of its own.
PHRASES = {tuple(row.words.split()): number for number, row in enumerate(COMMANDS) if number not in (ASSIGN, ELSE, END, IF_BACK)}
STATEMENTS = tuple(dict.fromkeys(phrase[0] for phrase in PHRASES)) + ("else", "end")
EMPTY = "empty"  # the one line of a block that has no records


class Block:
    """An open block of the script section."""

    def __init__(self, opens, line):
        self.opens = opens
        self.line = line
        self.indent = line.indent
        self.has_else = False
        self.start(line)

    def start(self, line):
        """A part of the block: behind its first line, or behind its else."""
        self.part = line
        self.inside = None  # the indent of its lines, once there is one
        self.empty = False  # whether its one line is `empty`

    def finish(self):
        """The part has ended."""
        if self.inside is None:
            opener = self.part.tokens[0].text
            raise SourceError(self.part.place(), f"this {opener} has no lines: they stand below it, further in; "
                              f"where there is nothing to do, write '{EMPTY}' there")


class Script:
    """The script section: statements, and blocks by indentation."""

    def __init__(self, variables, hint="declare it in the section variables"):
        self.variables = list(variables)
        self.hint = hint  # where a name is unknown
        self.index = {name: index for index, name in enumerate(self.variables)}
        self.records = []
        self.places = []
        self.blocks = []
        self.base = None

    def parse(self, lines):
        for line in lines:
            self.take(line)
        self.close(-1)
        return self.records, self.places

    def add(self, record, place):
        self.records.append(record)
        self.places.append(place)

    def close(self, indent, keep=None):
        """Ends the blocks that a line with this indent is not inside of."""
        while self.blocks and self.blocks[-1].indent >= indent and self.blocks[-1] is not keep:
            block = self.blocks.pop()
            block.finish()
            self.add(Record(END), block.line.place())

    def take(self, line):
        if self.base is None:
            self.base = line.indent
        words = Words(line)
        if words.sees("else"):
            return self.take_else(words)
        self.close(line.indent)
        first = self.check_indent(line)
        if words.sees(EMPTY) and len(line.tokens) == 1:
            return self.take_empty(line, first)
        if self.blocks and self.blocks[-1].empty:
            raise SourceError(line.place(), f"there is a line above in this block, '{EMPTY}', which stands alone")
        record = self.statement(words)
        words.finish()
        self.add(record, line.place())
        opens = COMMANDS[record.command].opens
        if opens:
            self.blocks.append(Block(opens, line))
        return None

    def check_indent(self, line):
        """Whether the line is the first of its block."""
        block = self.blocks[-1] if self.blocks else None
        first = block is not None and block.inside is None
        if first:
            block.inside = line.indent
        wanted = block.inside if block else self.base
        if line.indent > wanted:
            raise SourceError(line.place(), "this line is indented more than the one above, which opens no block")
        if line.indent < wanted:
            raise SourceError(line.place(), "this indentation is that of no open block")
        return first

    def take_empty(self, line, first):
        if not first:
            raise SourceError(line.place(), f"'{EMPTY}' is the only line of its block; 'nothing' is a step that does nothing")
        self.blocks[-1].empty = True

    def take_else(self, words):
        line = words.line
        block = next((b for b in reversed(self.blocks) if b.indent <= line.indent), None)
        if block is None or block.indent != line.indent or block.opens != "if":
            raise SourceError(line.place(), "this else belongs to no if: it stands below its if, in the same column")
        if block.has_else:
            raise SourceError(line.place(), f"the if of line {block.line.number} has an else already")
        self.close(line.indent, block)
        block.finish()
        words.need("else")
        words.finish()
        self.add(Record(ELSE), line.place())
        block.has_else = True
        block.start(line)

    def statement(self, words):
        first = words.next()
        if len(words.line.tokens) > 1 and words.line.tokens[1].text in (":=", "="):
            return self.assignment(words)
        if first.text == "end":
            raise SourceError(first.place, "no end is written: a block ends where its indentation ends")
        if first.text not in STATEMENTS:
            raise SourceError(first.place, f"'{word(first.text)}' starts no statement{meant(first.text, STATEMENTS)}")
        command = self.command(words)
        row = COMMANDS[command]
        if not row.expression:
            return Record(command, content_set=words.level() or 0 if row.sets else 0)
        target, content, below = self.marks(words) if row.target == "mark" else (0, 0, 0)
        record = self.expression(words, command, target)._replace(content_set=content, list_set=below)
        if row.target == "readers" and words.take("for"):
            return record._replace(target=words.need_level())
        return self.coming_back(words, record) if command == IF else record

    def coming_back(self, words, record):
        """The if, or the one that comes back."""
        behind = COMMANDS[IF_BACK].behind.split()
        if not words.take(behind[0]):
            return record
        for each in behind[1:]:
            words.need(each)
        return record._replace(command=IF_BACK)

    def command(self, words):
        """The command whose words stand here."""
        taken = ()
        while taken not in PHRASES:
            behind = {phrase[len(taken):]: None for phrase in PHRASES if phrase[:len(taken)] == taken}
            token = words.take(*(rest[0] for rest in behind))
            if token is None:
                words.fail(" or ".join(f"'{' '.join(rest)}'" for rest in behind))
            taken += (token.text,)
        return PHRASES[taken]

    def marks(self, words):
        """The mark of a new node with its two sets, and the colon behind them. The first party in front is the mark; behind it, it is of the set."""
        mark, sets = 0, [0, 0]
        for index, (part, bit) in enumerate((("content", MARK_CONTENT), ("list", MARK_LIST))):
            if words.take(part):
                at = words.at
                parties = words.parties()
                if parties == [PUBLIC]:  # it says nothing
                    parties, words.at = [], at
                if not parties:
                    words.fail(f"'{LEVELS.names[0]}'" if len(LEVELS.names) == 1 else known_parties())
                if parties[0] == HOUSE:
                    mark |= bit
                    del parties[0]
                for party in parties:
                    sets[index] |= party
        words.need(":")
        return mark, *sets

    def assignment(self, words):
        index = self.variable(words.name("a variable's name"))
        if words.sees("="):
            raise SourceError(words.next().place, "'=' compares; to give a variable a number write ':='")
        words.need(":=")
        return self.expression(words, ASSIGN, index)

    def expression(self, words, command, target=0):
        if words.take("mean"):
            words.need("(")
            left = self.operand(words)
            words.need(",")
            right = self.operand(words)
            words.need(")")
            operator = MEAN
        else:
            left = self.operand(words)
            operator, right = self.operation(words)
        if words.sees(*INFIX):
            raise SourceError(words.next().place, "an expression has one operator; put a part of it into a variable first")
        return Record(command, target, operator, left[0], right[0], left=left[1], right=right[1])

    def operation(self, words):
        sign = words.next()
        if sign is None or sign.kind in ("name", "number"):
            return ALONE, (0, 0)
        hints = {">": "write 'b < a' for 'a > b'", "==": "write '=' for equal",
                 "<=": "there are = and < only", ">=": "there are = and < only",
                 "!=": "there are = and < only; use the else of an if with =",
                 ":=": "'=' compares, ':=' gives a variable a number"}
        if sign.text in hints:
            raise SourceError(sign.place, f"'{sign.text}' is no operator: {hints[sign.text]}")
        if sign.text not in INFIX:
            return ALONE, (0, 0)
        words.at += 1
        return INFIX[sign.text], self.operand(words)

    def operand(self, words):
        token = words.next()
        if token is None or token.kind not in ("name", "number", "-"):
            words.fail("a number, a variable, 'value' or 'children'")
        if token.kind in ("number", "-"):
            return CONSTANT, words.number() % 2**32
        words.at += 1
        if token.text == "value":
            return VALUE, 0
        if token.text == "children":
            return CHILDREN, 0
        if token.text == "mean":
            raise SourceError(token.place, "an expression has one operator; put the mean into a variable first")
        return NAMED, self.variable(token)

    def variable(self, token):
        if token.text in self.index:
            return self.index[token.text]
        if token.text == "value":
            raise SourceError(token.place, "'value' is no variable; to give the node a value write 'set'")
        hint = meant(token.text, self.variables) or f"; {self.hint}"
        raise SourceError(token.place, f"there is no variable '{word(token.text)}'{hint}")


def meant(text, known):
    """A question after the one of these words that is like the text. Very long words are like none."""
    close = difflib.get_close_matches(text, known, 1) if len(text) <= 40 else []
    return f"; is '{close[0]}' meant?" if close else ""
