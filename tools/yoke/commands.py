"""The table of commands, and the numbers of kinds, operators and marks."""

from typing import NamedTuple

class Row(NamedTuple):
    """A command's words in the source, and the fields that it reads."""

    words: str
    target: str = ""  # "variable", "mark" or "readers" where the target is read
    expression: bool = False
    opens: str = ""  # "if" or "while" where it opens a block
    behind: str = ""  # its words behind the expression
    sets: int = 0  # how many of the bytes 5 and 6 are read, as sets of parties

    def before_sets(self):
        """The row of the editions before levels were sets."""
        return self._replace(sets=0, target="" if self.target == "readers" else self.target)


COMMANDS = (
    Row("nothing"),
    Row(":=", "variable", True),
    Row("if", "", True, "if"),
    Row("else"),
    Row("while", "", True, "while"),
    Row("end"),
    Row("print", "readers", True),
    Row("root"),
    Row("up"),
    Row("first child"),
    Row("right sibling"),
    Row("new first child", "mark", True, sets=2),
    Row("new right sibling", "mark", True, sets=2),
    Row("remove first child"),
    Row("remove right sibling"),
    Row("set", "", True),
    Row("cover", sets=1),
    Row("if", "", True, "if", "and come back"),
    Row("left sibling"),
    Row("last child"),
)
(NOTHING, ASSIGN, IF, ELSE, WHILE, END, PRINT, ROOT, UP, FIRST_CHILD, RIGHT_SIBLING,
 NEW_FIRST_CHILD, NEW_RIGHT_SIBLING, REMOVE_FIRST_CHILD, REMOVE_RIGHT_SIBLING,
 SET, COVER, IF_BACK, LEFT_SIBLING, LAST_CHILD) = range(len(COMMANDS))

MOVES = (ROOT, UP, FIRST_CHILD, RIGHT_SIBLING, COVER, LEFT_SIBLING, LAST_CHILD)
INSERTIONS = (NEW_FIRST_CHILD, NEW_RIGHT_SIBLING)
REMOVALS = (REMOVE_FIRST_CHILD, REMOVE_RIGHT_SIBLING)
MARK_CONTENT, MARK_LIST = 1, 2

CONSTANT, NAMED, VALUE, CHILDREN = range(4)
ALONE, SUM, DIFFERENCE, EQUAL, LESS, MEAN = range(6)
INFIX = {"+": SUM, "-": DIFFERENCE, "=": EQUAL, "<": LESS}
SIGNS = {number: sign for sign, number in INFIX.items()}
