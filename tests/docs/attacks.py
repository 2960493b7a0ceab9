"""examples/attacks: for each of two secrets the board and the stop that the source's comment has; one board begins the other; the tool names the rule."""

import re
import subprocess
import unittest
from pathlib import Path

from support import HOME, assembled, program, scratch, tool

FOLDER = HOME / "examples" / "attacks"
SOURCES = {path.stem: path.read_text(encoding="utf-8") for path in sorted(FOLDER.glob("*.yoke"))}

# How the tool's account of a stop starts, by the name that the comments use.
RULES = {
    "prints": "A board line must be public",
    "assignments": "A variable takes a number only if",
    "sets": "A node takes a value only if",
    "moves": "The cursor moves only if",
    "insertions": "A new node is as secret as",
    "removals": "A node is removed only if",
    "absent nodes": "The cursor stands on",
    "budgets": "The script has used its 100,000 steps",
}

SECRET = re.compile(r"^(?P<line>.*\S) +# or (?P<other>none|-?\d+)$", re.M)
EXPECTED = re.compile(r"^# (first|second): +(none|-?\d+(?: -?\d+)*); "
                      r"(?:(finished)|stopped with (\d+) at `([^`]+)`, rule of ([a-z ]+))$", re.M)


def secrets(text):
    """The source with its secret, and with the other one."""
    (found,) = SECRET.finditer(text)
    line = found["line"]
    assert re.search(r"\bhouse\b", line), f"the secret is no house matter: {line}"
    other = "" if found["other"] == "none" else re.sub(r"-?\d+$", found["other"], line)
    assert other != line
    return [text[:found.start()] + line + text[found.end():], text[:found.start()] + other + text[found.end():]]


class Expected:
    """A comment's line about one of the two runs."""

    def __init__(self, match):
        self.which, board, finished, ending, self.statement, self.rule = match.groups()
        self.board = [] if board == "none" else board.split()
        self.ending = 0 if finished else int(ending)


def expected(text):
    found = [Expected(match) for match in EXPECTED.finditer(text)]
    assert [item.which for item in found] == ["first", "second"], "a line for each secret is missing"
    return found


def runs():
    """Each source with each of its secrets, and what its comment says of that run."""
    for name, text in SOURCES.items():
        for source, item in zip(secrets(text), expected(text)):
            yield name, source, item


def board(source):
    done = subprocess.run([program("board")], input=assembled(source), stdout=subprocess.PIPE, stderr=subprocess.PIPE, check=False)
    said, *lines, end = done.stdout.decode().splitlines()
    assert (said, end) == ("board", f"end {len(lines)}"), done.stdout
    assert all(line.endswith(" 0") for line in lines), done.stdout  # each is for everyone
    lines = [line.removesuffix(" 0") for line in lines]
    return lines, done.stderr.decode()


def unwrapped(text):
    return " ".join(text.split())


class Attacks(unittest.TestCase):
    def test_boards(self):
        for name, source, item in runs():
            with self.subTest(name, secret=item.which):
                lines, ended = board(source)
                self.assertEqual(lines, item.board)
                self.assertTrue(ended.startswith(f"stopped {item.ending} at " if item.ending else "finished steps "), ended)

    def test_one_board_begins_the_other(self):
        for name, text in SOURCES.items():
            with self.subTest(name):
                (first, one), (second, other) = (board(source) for source in secrets(text))
                shorter, longer = sorted((first, second), key=len)
                self.assertEqual(longer[:len(shorter)], shorter)
                if one.startswith("finished") and other.startswith("finished"):
                    self.assertEqual(first, second)

    def test_each_is_stopped(self):
        """A source that finishes for both secrets would be no attack."""
        for name, text in SOURCES.items():
            with self.subTest(name):
                self.assertTrue(any(item.ending for item in expected(text)))

    def test_the_tool_names_the_rule(self):
        for name, source, item in runs():
            with self.subTest(name, secret=item.which), scratch() as folder:
                path = Path(folder, f"{name}.yoke")
                path.write_text(source, encoding="utf-8")
                done = tool("run", str(path), INSPECT=program("inspect"))
                self.assertEqual(done.status, 1 if item.ending else 0)
                if item.ending:
                    line = re.match(rf"\S+{name}\.yoke:(\d+):\d+: stopped with {item.ending} ", done.output).group(1)
                    self.assertEqual(source.split("\n")[int(line) - 1].strip(), item.statement)
                    self.assertIn(f"The rule: {RULES[item.rule]}", unwrapped(done.output))


class Texts(unittest.TestCase):
    def test_each_source_names_its_place(self):
        for name, text in SOURCES.items():
            with self.subTest(name):
                self.assertEqual(re.search(r"^# Document (\d{3}), ", text, re.M).group(1), name[:3])

    def test_table(self):
        """The page lists each source with the rules of its comment."""
        page = (FOLDER / "README.md").read_text(encoding="utf-8")
        rows = re.findall(r"^\| `([\w-]+)` \| [^|]+ \| ([^|]+) \|$", page, re.M)
        self.assertEqual(sorted(name for name, _ in rows), sorted(SOURCES))
        for name, said in rows:
            with self.subTest(name):
                rules = [f"rule of {item.rule}" for item in expected(SOURCES[name]) if item.rule]
                self.assertEqual(said.split(", "), list(dict.fromkeys(rules)))

    def test_papers(self):
        page = (FOLDER / "README.md").read_text(encoding="utf-8")
        self.assertEqual(sorted(re.findall(r"^\| (\d{3}) \| ", page, re.M)), sorted({name[:3] for name in SOURCES}))


if __name__ == "__main__":
    unittest.main(verbosity=2)
