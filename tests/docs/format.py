"""docs/FORMAT.md: the job that it takes apart is the one that its source makes, and runs as the page says."""

import re
import struct
import subprocess
import unittest

from support import HOME, assembled, job, played, program, tool

TEXT = (HOME / "docs" / "FORMAT.md").read_text(encoding="utf-8")
ROWS = [(int(at), bytes.fromhex(digits)) for at, digits in re.findall(r"^\| (\d+) \| `([0-9a-f ]+)` \| ", TEXT, re.M)]
DATA = b"".join(part for _, part in ROWS)


def block(kind):
    (found,) = re.findall(rf"^```{kind}\n(.*?)^```$", TEXT, re.M | re.S)
    return found


class Dissected(unittest.TestCase):
    def test_offsets(self):
        at = 0
        for offset, part in ROWS:
            self.assertEqual(offset, at)
            at += len(part)
        self.assertEqual(f"these {at} bytes", re.search(r"these \d+ bytes", TEXT).group())

    def test_source(self):
        self.assertEqual(DATA.hex(), assembled(block("yoke")).hex())

    def test_statements_stand_at_their_records(self):
        """Each record's first row quotes the statement that is there."""
        names = job.parse(block("yoke"), "FORMAT.md").names
        quoted = re.findall(r"^\| (\d+) \| `[0-9a-f]{2}` \| record (\d+), (?:`([^`]+)`|the end of the if): command (\d+) \|$", TEXT, re.M)
        records = job.decode(DATA).records
        self.assertEqual(len(quoted), len(records))
        for (at, index, statement, command), record in zip(quoted, records):
            self.assertEqual(int(at), 40 + 16 * int(index))
            self.assertEqual(int(command), record.command)
            self.assertEqual(statement or "end", job.record_text(record, names.variables))

    def test_board(self):
        done = subprocess.run([program("board")], input=DATA, stdout=subprocess.PIPE, stderr=subprocess.PIPE, check=False)
        self.assertEqual(done.stdout.decode(), block("text"))
        said = re.search(r"to standard error `([^`]+)`", TEXT).group(1)
        self.assertEqual(done.stderr.decode(), said + "\n")


class Tables(unittest.TestCase):
    def test_commands(self):
        rows = re.findall(r"^\| (\d+) \| (`[^`]+`|the end of a block) \| (variable|mark|readers|) ?\| (read|) ?\| ([56, ]*)\|$", TEXT, re.M)
        self.assertEqual([int(row[0]) for row in rows], list(range(20)))
        for (_, words, target, expression, sets), row in zip(rows, job.COMMANDS):
            self.assertEqual((target, bool(expression)), (row.target, row.expression))
            self.assertEqual(sets.strip(), ("", "5", "5, 6")[row.sets])
            self.assertTrue(row.words in words or row.words == "end")


def rows(head, which=0):
    """The cells of a table with this head."""
    body = re.findall(rf"^\| {re.escape(head)} \|\n\|[-|]+\|\n((?:\|.*\|\n)+)", TEXT, re.M)[which]
    return [[cell.strip() for cell in row.strip("|").split("|")] for row in body.splitlines()]


class FollowOn(unittest.TestCase):
    def test_section(self):
        done = tool("assemble", "--bare", "-", "-o", "-", data=block("script"))
        self.assertEqual((done.status, done.error), (0, ""))
        self.assertEqual(done.bytes.hex(" ", 1), " ".join(block("hex").split()))
        self.assertIn(f"is these {len(done.bytes)} bytes", TEXT)
        answers = played(assembled("tree\n  resort = 10\n    slope = 3\n"), [done.bytes, done.bytes[1:], bytes(16 * 1025)], 100)
        self.assertEqual([answer[0].split()[1] for answer in answers], ["0", "0", "11", "11"])
        self.assertIn("line 3 0", answers[1])

    def test_words(self):
        """The words of a place, in the order of the node table."""
        names = ["first child", "right sibling", "parent", "existence", "value", "children", "content", "list", "left sibling", "last child"]
        found = rows("word | what")
        self.assertEqual([int(row[0]) for row in found], list(range(10)))
        for name, row in zip(names, found):
            self.assertIn(name, row[1])
        table = (HOME / "crates/table/src/lib.rt").read_text(encoding="utf-8") + (HOME / "crates/table/src/cells.rt").read_text(encoding="utf-8")
        constants = dict(re.findall(r"^pub const (\w+): usize = (\d+);$", table, re.M))
        code = ["FIRST", "RIGHT", "PARENT", "EXISTENCE", "VALUE", "CHILDREN", "CONTENT", "STRUCTURE", "LEFT", "LAST"]
        self.assertEqual([int(constants[name]) for name in code], list(range(10)))
        self.assertEqual((constants["CELL"], constants["NIL"]), ("10", "65535"))
        self.assertEqual(TEXT.count("or 65535"), 5)

    def test_the_words_are_checked(self):
        """Each rule of a place, broken by a poke of history, is 11; what stands in a free place is none's business."""
        fields = {"first": 0, "right": 1, "parent": 2, "children": 3, "existence": 5, "content": 6, "list": 7, "left": 16, "last": 17}
        first = assembled("variables\n  a = 0\ntree\n  resort = 10\n    slope = 3\n")

        def told(*events):
            data = b"".join(struct.pack("<IIIHH", kind, len(body), 100, 3, 3) + body for kind, body in events)
            return subprocess.run([program("history")], input=data, stdout=subprocess.PIPE, check=True).stdout.decode()

        def ending(what, index, value):
            return re.findall(r"^script 2\nending (\d+) ", told((0, first), (2, struct.pack("<HHI", what, index, value)), (1, b"")), re.M)

        root = 0
        slope = int(re.search(rf"^record {root} (\d+) ", told((0, first), (3, b"")), re.M).group(1))  # where it stands is the monitor's choice
        free = 3 - slope
        for name, place, value in (("first", root, 3), ("first", root, root), ("first", slope, slope), ("right", root, slope),
                                   ("right", slope, root), ("right", slope, 3), ("parent", root, root), ("parent", slope, slope), ("children", root, 2),
                                   ("children", slope, 1), ("existence", root, 1), ("existence", slope, 1), ("left", root, slope), ("left", slope, root), ("left", slope, slope), ("last", root, 65535),
                                   ("last", root, root), ("last", slope, slope), ("last", slope, 3)):
            with self.subTest(name, place=place, value=value):
                self.assertEqual(ending(fields[name], place, value), ["11"])
                self.assertEqual(ending(fields[name], free, value), ["0"])
        self.assertEqual((ending(8, 0, 255), ending(8, 0, 1)), (["0"], ["0"]))  # a variable's level is any set
        self.assertEqual((ending(10, 0, 65), ending(10, 0, 64)), (["11"], ["0"]))  # how many variables


class Turns(unittest.TestCase):
    def test_header(self):
        """The fields of an event stand where the page says."""
        found = [(row[0], row[1].split(":")[0].split(";")[0]) for row in rows("byte | what", 3)]
        self.assertEqual(found, [("0 to 3", "kind"), ("4 to 7", "how many bytes the body has"), ("8 to 11", "budget"),
                                 ("12, 13", "places of the node table"), ("14, 15", "line capacity"), ("from 16 on", "the body")])
        data = bytes.fromhex("".join(block("events").split()))
        kind, length, *limits = struct.unpack_from("<IIIHH", data)
        self.assertEqual((kind, limits), (0, [int(n) for n in re.search(r"budget (\d+), (\d+) places and (\d+) lines", TEXT).groups()]))
        self.assertEqual(data[16:16 + length], assembled("tree\n  resort = 10\n"))

    def test_answers(self):
        data = bytes.fromhex("".join(block("events").split()))
        done = subprocess.run([program("rounds")], input=data, stdout=subprocess.PIPE, check=True)
        self.assertEqual(done.stdout.decode(), block("answers"))
        done = subprocess.run([program("rounds")], input=data[:-1], stdout=subprocess.PIPE, check=True)
        self.assertEqual(done.stdout.decode(), block("answers").replace("turn 2\nidle\n", "truncated\n"))


if __name__ == "__main__":
    unittest.main(verbosity=2)
