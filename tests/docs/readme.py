"""README.md: what it shows is what comes, in the folder that it names. The C program is built with the library and run."""

import ast
import os
import re
import subprocess
import sys
import textwrap
import unittest
from pathlib import Path

from support import HOME, assembled, examples, program, scratch, tool

TEXT = (HOME / "README.md").read_text(encoding="utf-8")
# Indented blocks, without their indentation; blank lines belong to the block around them.
BLOCKS = [textwrap.dedent(block).strip("\n") for block in re.findall(r"(?:^    .*\n|^\n(?=    ))+", TEXT, re.M)]


def block(start):
    """The one block that starts so."""
    found = [text for text in BLOCKS if text.startswith(start)]
    assert len(found) == 1, f"README.md has {len(found)} blocks that start with '{start}'"
    return found[0]


def example(name):
    return (HOME / "examples" / name).read_text(encoding="utf-8")


class Transcript:
    """A block of commands, each after a `$ `, with what the last one prints. A line `..` stands for any lines."""

    def __init__(self, text):
        rows = text.split("\n")
        count = next((at for at, row in enumerate(rows) if not row.startswith("$ ")), len(rows))
        self.commands, self.shown = [row[2:] for row in rows[:count]], rows[count:]

    def pattern(self):
        rows = ["(?:.*\n)*?" if row == ".." else re.escape(row) + "\n" for row in self.shown]
        return re.compile("".join(rows))

    def output(self):
        """What the last command prints, in the folder that README.md names; under `make test`, too, where make would say more."""
        given = {name: value for name, value in os.environ.items() if name not in ("MAKEFLAGS", "MAKELEVEL", "MFLAGS")}
        for command in self.commands:
            done = subprocess.run(["bash", "-c", command], cwd=HOME, env=given, stdout=subprocess.PIPE, stderr=subprocess.PIPE, check=False)
        return done.stdout.decode(), done.stderr.decode()


class Shown(unittest.TestCase):
    def test_commands(self):
        """Each command, as a reader gives it."""
        transcripts = [Transcript(text) for text in BLOCKS if text.startswith("$ ")]
        self.assertEqual([transcript.commands[-1].split()[0] for transcript in transcripts], ["make", *["tools/job"] * 5, "cat", *["tools/job"] * 3])
        for transcript in transcripts:
            with self.subTest(transcript.commands[-1]):
                output, error = transcript.output()
                self.assertIsNotNone(transcript.pattern().fullmatch(output), output + error)

    def test_board_of_make_run(self):
        self.assertIn(example("expected/depths.out"), block("$ make run") + "\n")

    def test_first_script(self):
        self.assertEqual(block("variables") + "\n", example("first.yoke").split("\n", 1)[1])

    def test_c_program(self):
        """With the very command that is shown; it publishes what is for everyone, of finished boards only."""
        with scratch() as folder:
            path, built = Path(folder, "program.c"), Path(folder, "program")
            path.write_text(block("#include <stdio.h>") + "\n", encoding="utf-8")
            command = block("cc -I include").replace("program.c", str(path)).split()
            subprocess.run([*command, "-std=c11", "-Wall", "-Wextra", "-Werror", "-o", str(built)], cwd=HOME, check=True)
            for name, ending, status in (("first", "finished", 0), ("hotels", "finished", 0), ("trap-4-removal", "flow rule broken", 1)):
                done = subprocess.run([str(built)], input=assembled(example(f"{name}.yoke")), stdout=subprocess.PIPE,
                                      stderr=subprocess.PIPE, check=False)
                board = [line[:-2] for line in example(f"expected/{name}.out").split("\n")[1:-2] if line.endswith(" 0")]
                self.assertTrue(board)
                self.assertEqual(done.stdout.decode().split("\n")[:-1], board if status == 0 else [], name)
                self.assertEqual((done.stderr.decode(), done.returncode), (f"{ending}\n", status), name)

    def test_the_board_that_ends_early(self):
        """The example at the top: so many lines for so many beds."""
        source = "variables\n  count = 0\n  beds house = {}\ntree\n  resort = 0\nscript\n  while count < 100\n" \
                 "    count := count + 1\n    print count\n    if count = beds\n      up\n"
        said = re.search(r"leaves a board of (\d+) lines for (\d+) beds, and of (\d+) for (\d+)", TEXT).groups()
        for lines, beds in (said[:2], said[2:]):
            done = subprocess.run([program("board")], input=assembled(source.format(beds)), stdout=subprocess.PIPE,
                                  stderr=subprocess.PIPE, check=False)
            self.assertEqual(done.stdout.decode().split("\n")[-2], f"end {lines}")

    def test_no_exit_status(self):
        """A program ends with 0 even where its board is lost."""
        self.assertIn("shows on no exit status", TEXT)
        with open("/dev/full", "wb") as full:
            done = subprocess.run([program("board")], input=assembled(example("first.yoke")), stdout=full, stderr=subprocess.PIPE, check=False)
        self.assertEqual(done.returncode, 0)


class Said(unittest.TestCase):
    def test_words(self):
        """Each word of ours is explained where it is used first; a name in backticks is no use."""
        prose = re.sub(r"`[^`\n]+`", lambda found: "~" * len(found.group()), TEXT)
        for word, used in (("paper 01", r"paper 01"), ("demands", r"demand"), ("lent", r"\b(?:lent|lends?)\b"), ("walk", r"\bwalk"),
                           ("landing", r"\bland(?:ing|ed)")):
            with self.subTest(word):
                first = re.search(used, prose, re.I).start()
                self.assertEqual(TEXT[first - 1:first + len(word) + 1], f"*{word}*")

    def test_needs(self):
        """What is needed for which command: each command of the Makefile that needs something, each program."""
        (table,) = re.findall(r"^\| to use \| you need \|\n\|[-|]+\|\n((?:\|.*\|\n)+)", TEXT, re.M)
        for program_name in ("gcc", "g++", "valgrind", "objdump", "cargo", "clang", "rt", "pkg-config", "xxd", "python3"):
            self.assertIn(f"`{program_name}`", table)
        self.assertIn("Python 3.7", table)
        rules = set(re.findall(r"^([a-z]+):", (HOME / "Makefile").read_text(encoding="utf-8"), re.M))
        self.assertEqual(rules - {"help", "fmt", "clean"}, set(re.findall(r"`make ([a-z]+)`", "".join(re.findall(r"^\| ([^|]+)\|", table, re.M)))))

    def test_python(self):
        """The Python that is asked for can read the tool."""
        version = {"feature_version": (3, 7)} if sys.version_info >= (3, 8) else {}
        files = [HOME / "tools" / "job", *(HOME / "tools").rglob("*.py"), *(HOME / "tests").rglob("*.py")]
        for path in files:
            with self.subTest(str(path)):
                ast.parse(path.read_text(encoding="utf-8"), **version)

    def test_tool(self):
        """Each verb and option of the tool that is shown."""
        for call in re.findall(r"`tools/job ([a-z][^`]*)`", TEXT):
            with self.subTest(call):
                verb, *words = call.split()
                help_text = tool(verb, "--help")
                self.assertEqual(help_text.status, 0)
                for option in (word for word in words if word.startswith("-")):
                    self.assertRegex(help_text.output, rf"(?m)^  (?:-\w[^,\n]*, )?{option}\b|^  {option}\b")

    def test_examples(self):
        """Each example that is named, and no example is left out."""
        (said,) = re.findall(r"^`examples/` has more:(.*?)\n\n", TEXT, re.M | re.S)
        named = {name for name in re.findall(r"\(`([\w-]+)`", said)}
        found = {path.stem for path in examples()}
        self.assertEqual({name for name in named if not name.startswith("trap")} | {"first"},
                         {name for name in found if not name.startswith("trap")})

    def test_rattle(self):
        """The public run and its answers are declared as they are shown."""
        source = (HOME / "crates/entry/src/lib.rt").read_text(encoding="utf-8")
        (declared,) = re.findall(r"^pub fn run_job\((.*?)\) -> (\w+)", source, re.M | re.S)
        parameters = ", ".join(word.strip() for word in declared[0].split(",") if word.strip())
        self.assertEqual(block("pub fn run_job"), f"pub fn run_job({parameters}) -> {declared[1]}")
        source = "".join(path.read_text(encoding="utf-8") for path in (HOME / "crates/monitor/src").glob("*.rt"))
        (body,) = re.findall(r"^pub enum Outcome \{\n(.*?)^\}", source, re.M | re.S)
        cases = [(name, re.findall(r"(\w+):", fields)) for name, fields in re.findall(r"(\w+) \{(.*?)\}", body, re.S)]
        shown = re.findall(r"^\| `(\w+) \{ ([\w, ]+) \}` \|", TEXT, re.M)
        self.assertEqual([(name, fields.split(", ")) for name, fields in shown], cases)

    def test_pages(self):
        for path in re.findall(r"\bdocs/[\w/]+\.md", TEXT):
            self.assertTrue((HOME / path).is_file(), path)
        for path in (HOME / "docs").glob("*.md"):
            self.assertIn(f"docs/{path.name}", TEXT)


if __name__ == "__main__":
    os.chdir(HOME)
    unittest.main(verbosity=2)
