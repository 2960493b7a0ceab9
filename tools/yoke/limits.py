"""The numbers of paper 01, the levels, and where the repository stands."""

from pathlib import Path
from typing import NamedTuple

HOME = Path(__file__).resolve().parent.parent.parent
PROGRAM = "tools/job"

MAX_BYTES = 23_048
MAX_VARIABLES = 64
MAX_NODES = 512
MAX_RECORDS = 1_024
MAX_DEPTH = 16
MAX_BUDGET = 1_000_000
NO_PARENT = 65_535
MAX_RUNS = 8
TURN_STEPS = 5_000

# The longest job without a script.
MAX_WRITTEN = 8 * MAX_VARIABLES + 12 * MAX_NODES + 8

# What the program replay can be asked for: fields of 32 and 16 bits, and what it has.
ASKED_BUDGET = 2**32 - 1
ASKED_PLACES = MAX_NODES + 1
ASKED_LINES = 1_024

PUBLIC, HOUSE = 0, 1
MAX_PARTIES = 8
# What parties are called where no source names them.
UNNAMED = ("house",) + tuple(f"party{number}" for number in range(2, MAX_PARTIES + 1))


def within(level, other):
    """Whether every party of a level is one of the other: "not above" in the rules."""
    return level & ~other == 0


class Levels:
    """Sets of parties in words, by the names of the source that is worked on."""

    def __init__(self):
        self.names = UNNAMED[:1]

    def use(self, names):
        self.names = tuple(names)

    def party(self, index):
        return self.names[index] if index < len(self.names) else UNNAMED[index]

    def parties(self, level):
        """The names of the parties of a set, the first party first."""
        return [self.party(index) for index in range(MAX_PARTIES) if level >> index & 1]

    def __getitem__(self, level):
        return "+".join(self.parties(level)) or "public"


LEVELS = Levels()


class Limits(NamedTuple):
    """What a run is given; by default, what the board runner gives."""

    budget: int = 100_000
    places: int = MAX_NODES
    lines: int = 256
