"""Places in sources, quoted for people, and mistakes that the user can mend."""

import unicodedata
from typing import NamedTuple

from .checks import describe
from .limits import PROGRAM

QUOTED = 100  # so many characters of a line are quoted
BEFORE = 40  # so many of them stand before the place


class Text(NamedTuple):
    """A source as it was read."""

    path: str
    lines: list


class Place(NamedTuple):
    """A part of a source line; lines and columns count from 1."""

    text: Text
    line: int
    column: int
    width: int

    def __str__(self):
        return f"{self.text.path}:{self.line}:{self.column}"


def visible(text):
    """The text with a sign in place of each character that a terminal would obey."""
    return "".join(sign if sign.isprintable() else " " if sign == "\t" else "\ufffd" for sign in text)


def word(text):
    """A word of a source, for a message."""
    return visible(text if len(text) <= BEFORE else text[:BEFORE] + "\u2026")


def cells(text):
    """How many columns of a terminal the text takes."""
    return sum(0 if unicodedata.combining(sign) else 2 if unicodedata.east_asian_width(sign) in "WF" else 1 for sign in text)


def quoted(place):
    """The line of a place, with carets under it. Of a long line only what stands around the place."""
    text = visible(place.text.lines[place.line - 1].rstrip())
    at = place.column - 1
    start = max(0, at - BEFORE) if len(text) > QUOTED else 0
    shown = ("\u2026" if start else "") + text[start:start + QUOTED] + ("\u2026" if len(text) > start + QUOTED else "")
    at += (1 if start else 0) - start
    marked = shown[at:at + place.width]
    return [f"{place.line:>6} | {shown}", " " * 6 + " | " + " " * cells(shown[:at]) + "^" * max(1, cells(marked))]


class JobError(Exception):
    """A mistake that the user can mend."""


class RefusedError(JobError):
    """A job that the monitor turns back."""

    def __init__(self, path, fault):
        super().__init__(f"{path}: {describe(fault)}\nMore: {PROGRAM} explain {fault.number}")


class SourceError(JobError):
    """A mistake in a source, with its place."""

    def __init__(self, place, text):
        super().__init__("\n".join([f"{place}: error: {text}", *quoted(place)]))
