"""The lines and words of a source."""

import functools
import operator
import re
from typing import NamedTuple

from .errors import Place, SourceError, Text, word
from .limits import LEVELS, PUBLIC


class Token(NamedTuple):
    kind: str  # "name", "number" or the symbol itself
    text: str
    place: Place


class Line(NamedTuple):
    number: int
    indent: int
    tokens: list

    def place(self):
        first, last = self.tokens[0].place, self.tokens[-1].place
        return first._replace(width=last.column + last.width - first.column)


WORD = re.compile(r"(?P<name>[^\W\d]\w*)|(?P<number>\d\w*)|(?P<symbol>:=|==|<=|>=|!=|[-+=<>(),:])|(?P<space>\s+)|(?P<other>.)")


def decoded(data, path):
    """The characters of a source."""
    try:
        return Text(path, data.decode("utf-8-sig").replace("\r\n", "\n").split("\n"))
    except UnicodeDecodeError as problem:
        before = data[:problem.start].decode("utf-8-sig").replace("\r\n", "\n").split("\n")
        lines = data.decode("utf-8-sig", "replace").replace("\r\n", "\n").split("\n")
        place = Place(Text(path, lines), len(before), len(before[-1]) + 1, 1)
        raise SourceError(place, f"byte {problem.start} of the file, {data[problem.start]:#04x}, is not UTF-8") from None


def scan(text):
    """The lines of a source that are not empty, as words."""
    lines = []
    for number, line in enumerate(text.lines, 1):
        code = line.split("#", 1)[0].rstrip()
        if not code.strip():
            continue
        indent = len(code) - len(code.lstrip())
        if "\t" in code[:indent]:
            raise SourceError(Place(text, number, code.index("\t") + 1, 1), "a tab; indent with spaces")
        lines.append(Line(number, indent, scan_line(text, number, code)))
    return lines


def scan_line(text, number, code):
    tokens = []
    for match in WORD.finditer(code):
        kind, found = match.lastgroup, match.group()
        place = Place(text, number, match.start() + 1, len(found))
        if kind == "space":
            continue
        if kind == "other":
            sign = f"'{found}'" if found.isprintable() else f"the character U+{ord(found):04X}"
            raise SourceError(place, f"{sign} has no meaning here")
        if kind == "number" and not re.fullmatch(r"[0-9]+", found):
            raise SourceError(place, f"'{word(found)}' is neither a number nor a name; a name starts with a letter")
        tokens.append(Token(found if kind == "symbol" else kind, found, place))
    return tokens


def natural(digits):
    """A number in digits; of more than ten digits, one that fits in no 32 bits either, since reading thousands takes too long."""
    digits = digits.lstrip("0")
    return int(digits or "0") if len(digits) <= 10 else 10**10


def known_parties():
    return " or ".join(f"'{name}'" for name in ("public", *LEVELS.names))


class Words:
    """The words of one line, taken from left to right."""

    def __init__(self, line):
        self.line = line
        self.at = 0

    def next(self):
        return self.line.tokens[self.at] if self.at < len(self.line.tokens) else None

    def end_place(self):
        last = self.line.tokens[-1].place
        return last._replace(column=last.column + last.width, width=1)

    def fail(self, wanted):
        token = self.next()
        if token is None:
            raise SourceError(self.end_place(), f"the line ends here; {wanted} is missing")
        raise SourceError(token.place, f"'{word(token.text)}' stands where {wanted} is expected")

    def sees(self, *texts):
        token = self.next()
        return token is not None and token.text in texts

    def take(self, *texts):
        """The next word if it is one of these, else None."""
        if not self.sees(*texts):
            return None
        self.at += 1
        return self.line.tokens[self.at - 1]

    def need(self, text):
        token = self.take(text)
        if token is None:
            self.fail(f"'{text}'")
        return token

    def of_kind(self, kind, wanted):
        token = self.next()
        if token is None or token.kind != kind:
            self.fail(wanted)
        self.at += 1
        return token

    def name(self, wanted):
        return self.of_kind("name", wanted)

    def number(self):
        minus = self.take("-")
        token = self.of_kind("number", "a number")
        value = -natural(token.text) if minus else natural(token.text)
        if not -2**31 <= value < 2**31:
            first = (minus or token).place
            place = first._replace(width=token.place.column + token.place.width - first.column)
            said = ("-" if minus else "") + word(token.text)
            raise SourceError(place, f"{said} does not fit in 32 bits: numbers go from -2147483648 to 2147483647")
        return value

    def parties(self):
        """The names of parties that stand next, joined by +, each as its set; none where there is no name."""
        found = [self.party()]
        while found[-1] is not None and self.take("+"):
            found.append(self.party())
            if found[-1] is None:
                self.fail(known_parties())
        return [] if found == [None] else found

    def party(self):
        token = self.take("public", *LEVELS.names)
        if token is None or token.text == "public":
            return None if token is None else PUBLIC
        return 1 << LEVELS.names.index(token.text)

    def level(self):
        """public, or names of parties joined by +, if they stand next."""
        parties = self.parties()
        return functools.reduce(operator.or_, parties) if parties else None

    def need_level(self):
        level = self.level()
        if level is None:
            self.fail(known_parties())
        return level

    def finish(self):
        token = self.next()
        if token is not None:
            raise SourceError(token.place, f"nothing may follow here, and there is '{word(token.text)}'")
