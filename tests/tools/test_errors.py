"""assemble: mistakes in a source, each with its line and column."""

import unittest

from support import tool

HEAD = "variables\n  depth = 0\n  beds house = 1\ntree\n  resort = 10\nscript\n"  # the script starts in line 7

SCRIPTS = (
    # statement lines, line, column, part of the message
    ("  depth := rooms", 7, 12, "there is no variable 'rooms'; declare it"),
    ("  depth := dept", 7, 12, "is 'depth' meant?"),
    ("  depth = 1", 7, 9, "'=' compares; to give a variable a number write ':='"),
    ("  value := 1", 7, 3, "to give the node a value write 'set'"),
    ("  depth := 1 + 2 + 3", 7, 18, "an expression has one operator"),
    ("  depth := 1 + mean(1, 2)", 7, 16, "an expression has one operator"),
    ("  depth := mean(1, 2) + 3", 7, 23, "an expression has one operator"),
    ("  depth := ", 7, 11, "the line ends here; a number, a variable, 'value' or 'children' is missing"),
    ("  depth := + 1", 7, 12, "'+' stands where a number, a variable, 'value' or 'children' is expected"),
    ("  depth := 2147483648", 7, 12, "2147483648 does not fit in 32 bits"),
    ("  depth := -2147483649", 7, 12, "-2147483649 does not fit in 32 bits"),
    ("  depth := mean(1 2)", 7, 19, "'2' stands where ',' is expected"),
    ("  depth := mean(1, 2", 7, 21, "the line ends here; ')' is missing"),
    ("  depth := 1 beds", 7, 14, "nothing may follow here, and there is 'beds'"),
    ("  if depth > 1", 7, 12, "write 'b < a' for 'a > b'"),
    ("  if depth == 1", 7, 12, "write '=' for equal"),
    ("  if depth != 1", 7, 12, "use the else of an if with ="),
    ("  if depth:", 7, 11, "nothing may follow here, and there is ':'"),
    ("  if", 7, 5, "the line ends here"),
    ("  up up", 7, 6, "nothing may follow here"),
    ("  first", 7, 8, "the line ends here; 'child' is missing"),
    ("  right child", 7, 9, "'child' stands where 'sibling' is expected"),
    ("  new child: 1", 7, 7, "'child' stands where 'first child' or 'right sibling' is expected"),
    ("  new first child 1", 7, 19, "'1' stands where ':' is expected"),
    ("  new first child content public: 1", 7, 27, "'public' stands where 'house' is expected"),
    ("  new first child list house content house: 1", 7, 30, "'content' stands where ':' is expected"),
    ("  remove it", 7, 10, "'it' stands where 'first child' or 'right sibling' is expected"),
    ("  prnt 1", 7, 3, "'prnt' starts no statement; is 'print' meant?"),
    ("  goto 1", 7, 3, "'goto' starts no statement"),
    ("  end", 7, 3, "no end is written"),
    ("  else", 7, 3, "this else belongs to no if"),
    ("  while 1\n  else", 8, 3, "this else belongs to no if"),
    ("  if 1\n    up\n    else", 9, 5, "this else belongs to no if"),
    ("  if 1\n    up\n  else\n    up\n  else", 11, 3, "the if of line 7 has an else already"),
    ("  if 1", 7, 3, "this if has no lines"),
    ("  if 1\n  up", 7, 3, "this if has no lines"),
    ("  up\n  while depth\n    # later\n", 8, 3, "this while has no lines"),
    ("  if 1\n  else\n    up", 7, 3, "this if has no lines"),
    ("  if 1\n    up\n  else\n  up", 9, 3, "this else has no lines"),
    ("  if 1\n    while depth\n  up", 8, 5, "this while has no lines"),
    ("  empty", 7, 3, "'empty' is the only line of its block"),
    ("  if 1\n    up\n    empty", 9, 5, "'empty' is the only line of its block"),
    ("  if 1\n    empty\n    up", 9, 5, "'empty', which stands alone"),
    ("  if 1\n    empty\n    empty", 9, 5, "'empty' is the only line of its block"),
    ("  up\n    up", 8, 5, "indented more than the one above, which opens no block"),
    ("  if 1\n      up\n    up", 9, 5, "this indentation is that of no open block"),
    ("    up\n  up", 8, 3, "this indentation is that of no open block"),
    ("  if 1\n\tup", 8, 1, "a tab; indent with spaces"),
    ("  depth := 1 $ 2", 7, 14, "'$' has no meaning here"),
    ("  depth := 12x", 7, 12, "'12x' is neither a number nor a name"),
)

SOURCES = (
    ("  up\n", 1, 3, "a section is expected here"),
    ("tree\n  a = 1\nscrip\n", 3, 1, "a section is expected here"),
    ("tree\na = 1\n", 2, 1, "the lines of a section are indented"),
    ("tree:\n  a = 1\n", 1, 5, "nothing may follow 'tree' in its line"),
    ("script\n  up\ntree\n  a = 1\n", 3, 1, "in the order variables, tree, script"),
    ("tree\n  a = 1\ntree\n  a = 1\n", 3, 1, "sections come once each"),
    ("variables\n  a = 1\n  a = 2\n", 3, 3, "'a' is declared twice, first in line 2"),
    ("variables\n  value = 1\n", 2, 3, "'value' is a word of the language"),
    ("variables\n  a\n", 2, 4, "the line ends here; '=' is missing"),
    ("variables\n  a := 1\n", 2, 5, "':=' stands where '=' is expected"),
    ("variables\n  a secret = 1\n", 2, 5, "'secret' stands where '=' is expected"),
    ("variables\n  a = b\n", 2, 7, "'b' stands where a number is expected"),
    ("variables\n  a = 1\n    b = 1\n", 3, 5, "all variables are indented alike"),
    ("variables\n  1 = 1\n", 2, 3, "'1' stands where a variable's name is expected"),
    ("tree\n  house = 1\n", 2, 3, "the node's name comes first"),
    ("tree\n  a content = 1\n", 2, 13, "'=' stands where 'public' or 'house' is expected"),
    ("tree\n  a list house content house = 1\n", 2, 16, "'content' stands where '=' is expected"),
    ("tree\n  a = 1\n      b = 1\n    c = 1\n", 4, 5, "this indentation is that of no line above"),
    ("tree\n  a = 1\n    b = 1 record 1\n", 3, 11, "a node's record has no number of its own any more: the records stand in the order of these lines"),
)


class Errors(unittest.TestCase):
    def refused(self, text, line, column, message):
        with self.subTest(text):
            done = tool("assemble", "-", "-o", "-", data=text)
            self.assertEqual((done.status, done.bytes), (2, b""))
            first, *rest = done.error.split("\n")
            self.assertTrue(first.startswith(f"<standard input>:{line}:{column}: error: "), done.error)
            self.assertIn(message, first)
            # The line is quoted, with a caret in the column.
            self.assertEqual(rest[0], f"{line:>6} | {text.split(chr(10))[line - 1].rstrip()}".replace("\t", " "))
            self.assertEqual(rest[1].index("^"), len(f"{line:>6} | ") + column - 1)

    def test_scripts(self):
        for script, line, column, message in SCRIPTS:
            self.refused(HEAD + script + "\n", line, column, message)

    def test_other_sections(self):
        for text, line, column, message in SOURCES:
            self.refused(text, line, column, message)

    def test_too_large_to_be_written(self):
        text = "tree\n  a = 1\nscript\n" + "  up\n" * 4100
        done = tool("assemble", "-", "-o", "-", data=text)
        self.assertEqual((done.status, done.bytes), (2, b""))
        self.assertIn("too large", done.error)

    def test_not_text(self):
        done = tool("assemble", "-", "-o", "-", data=b"tree\r\n  h\xc3\xb6he \xff = 1\n")
        self.assertEqual((done.status, done.bytes), (2, b""))
        self.assertEqual(done.error, "<standard input>:2:8: error: byte 14 of the file, 0xff, is not UTF-8\n"
                         "     2 |   höhe \ufffd = 1\n       |        ^\n")


if __name__ == "__main__":
    unittest.main()
