"""Jobs as bytes."""

import struct
from typing import NamedTuple

from .commands import ALONE, COMMANDS, CONSTANT, NAMED

VARIABLE = struct.Struct("<B3xi")
NODE = struct.Struct("<HBBB3xi")
RECORD = struct.Struct("<BBBBBBBxII")
TRAILER = struct.Struct("<HHHH")


class Variable(NamedTuple):
    level: int
    value: int


class Node(NamedTuple):
    parent: int
    existence: int
    content: int
    list: int
    value: int


class Record(NamedTuple):
    command: int
    target: int = 0
    operator: int = 0
    left_kind: int = 0
    right_kind: int = 0
    content_set: int = 0  # of a new node; of a cover, its set
    list_set: int = 0
    left: int = 0
    right: int = 0

    def operands(self):
        """The operands that are read, each a kind and a number."""
        if not COMMANDS[self.command].expression:
            return []
        left = [(self.left_kind, self.left)]
        return left if self.operator == ALONE else left + [(self.right_kind, self.right)]

    def clean(self, sets=True):
        """The same record with zero in every field that is not read, today or before levels were sets."""
        row = COMMANDS[self.command] if sets else COMMANDS[self.command].before_sets()
        own = {"content_set": self.content_set if row.sets > 0 else 0, "list_set": self.list_set if row.sets > 1 else 0}
        if not row.expression:
            return Record(self.command, **own)

        def number(kind, stored):
            return stored if kind in (CONSTANT, NAMED) else 0

        alone = self.operator == ALONE
        return Record(
            self.command,
            self.target if row.target else 0,
            self.operator,
            self.left_kind,
            0 if alone else self.right_kind,
            left=number(self.left_kind, self.left),
            right=0 if alone else number(self.right_kind, self.right),
            **own,
        )


class Job(NamedTuple):
    variables: list
    nodes: list
    records: list

    def clean(self):
        """The same job with zero in every field that is not read."""
        return Job(self.variables, self.nodes, [record.clean() for record in self.records])

    def encode(self):
        sections = [
            b"".join(VARIABLE.pack(*v) for v in self.variables),
            b"".join(NODE.pack(*n) for n in self.nodes),
            encode_script(self.records),
        ]
        nodes = len(sections[0])
        script = nodes + len(sections[1])
        trailer = script + len(sections[2])
        return b"".join(sections) + TRAILER.pack(0, nodes, script, trailer)


def decode(data):
    """The parts of a job that passed the checks 1 to 3."""
    variables, nodes, script, trailer = TRAILER.unpack(data[-8:])
    return Job(
        [Variable(*v) for v in VARIABLE.iter_unpack(data[variables:nodes])],
        [Node(*n) for n in NODE.iter_unpack(data[nodes:script])],
        decode_script(data[script:trailer]),
    )


def encode_script(records):
    """A script section; alone it is a follow-on script's."""
    return b"".join(RECORD.pack(*r) for r in records)


def decode_script(data):
    return [Record(*r) for r in RECORD.iter_unpack(data)]


def signed(number):
    """A 32-bit number as it is stored, read as a signed one."""
    return (number + 2**31) % 2**32 - 2**31
