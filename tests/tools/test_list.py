"""list: sources of jobs, what is wrong with damaged ones, and that assemble and list undo each other."""

import struct
import unittest
from pathlib import Path

from support import HOME, assembled, examples, generated, job, replayed, scratch, tool

ROOT = "ffff 000000 000000 0a000000"


def hexed(text):
    return bytes.fromhex("".join(text.split()))


def with_script(*records):
    """A root and these records, each 16 bytes."""
    script = b"".join(record.ljust(16, b"\0") for record in records)
    return hexed(ROOT) + script + struct.pack("<4H", 0, 0, 12, 12 + len(script))


def with_nodes(*nodes):
    """Nodes given as parent, existence, content, list."""
    data = b"".join(struct.pack("<H3B3xi", *node, 0) for node in nodes)
    return data + struct.pack("<4H", 0, 0, len(data), len(data))


TOP = (65535, 0, 0, 0)

DAMAGED = (
    # bytes, number, index, part of the message
    (b"", 1, 0, "the job has 0 bytes; it must have 8 to 23,048"),
    (bytes(7), 1, 0, "the job has 7 bytes"),
    (bytes(23_049), 1, 0, "the job has 23,049 bytes"),
    (hexed(f"{ROOT} 0600000200000000 0000000000000000 00000000 0c00 1b00"), 2, 0, "trailer 27; the first must be 0, the last 28"),
    (hexed(f"{ROOT} 0100 0000 0c00 0c00"), 2, 0, "variables 1"),
    (hexed(f"{ROOT} 0000 0000 0d00 0c00"), 2, 0, "none below the one before it"),
    (bytes(4) + hexed("0000 0000 0400 0400"), 2, 0, "the nodes take 4 bytes, which is no multiple of 12"),
    (bytes(4) + hexed("0000 0400 0400 0400"), 2, 0, "the variables take 4 bytes, which is no multiple of 8"),
    (hexed(ROOT) + bytes(8) + hexed("0000 0000 0c00 1400"), 2, 0, "the script takes 8 bytes, which is no multiple of 16"),
    (bytes(8), 3, 0, "the job has 0 nodes; it must have 1 to 512"),
    (bytes(65 * 8) + hexed(ROOT) + struct.pack("<4H", 0, 520, 532, 532), 3, 0, "65 variables; it must have 0 to 64"),
    (with_nodes(*[TOP] + [(0, 0, 0, 0)] * 512), 3, 0, "513 nodes"),
    (with_script(*[b"\0"] * 1025), 3, 0, "1,025 records; it must have 0 to 1,024"),
    (with_nodes((0, 0, 0, 0)), 5, 0, "node 0, bytes 0 to 11: it is the root, so its parent must be 65535, not 0"),
    (with_nodes(TOP, (1, 0, 0, 0)), 5, 1, "node 1, bytes 12 to 23: its parent is node 1; a parent must come before"),
    (with_nodes(TOP, TOP), 5, 1, "it has no parent"),
    (with_nodes(TOP, (0, 0, 0, 0), (0, 0, 0, 0), (1, 0, 0, 0)), 13, 3,
     "node 3, bytes 36 to 47: its parent is node 1, whose subtree has ended: the record before it is node 2, which is not below node 1"),
    (with_nodes(TOP, (0, 0, 0, 0), (1, 0, 0, 0), (1, 0, 0, 0), (2, 0, 0, 0)), 13, 4, "its parent is node 2, whose subtree has ended"),
    (with_nodes(TOP, (0, 2, 2, 2)), 6, 1, "it is a party2 node under node 0, whose list level is public"),
    (with_nodes((65535, 0, 0, 6), (0, 2, 4, 2)), 6, 1, "it is a party2 node, so its content level must be party2+party3 too"),
    (with_nodes((65535, 0, 0, 6), (0, 2, 2, 2), (0, 4, 4, 4)), 6, 2, "it is party3 and stands right of node 1, which is party2"),
    (with_nodes((65535, 1, 1, 1)), 6, 0, "it is the root, which must be public"),
    (with_nodes((65535, 0, 0, 1), (0, 1, 0, 1)), 6, 1, "its content level must be house too"),
    (with_nodes((65535, 0, 0, 1), (0, 1, 1, 0)), 6, 1, "its list level must be house too"),
    (with_nodes((65535, 0, 0, 1), (0, 1, 1, 1), (1, 0, 0, 0)), 6, 2, "it is public under node 1, which is house"),
    (with_nodes(TOP, (0, 1, 1, 1)), 6, 1, "a house node under node 0, whose list level is public"),
    (with_nodes((65535, 0, 0, 1), (0, 1, 1, 1), (0, 0, 0, 0)), 6, 2, "it is public and stands right of node 1, which is house"),
    (with_script(b"\0", b"\x14"), 7, 1, "record 1, bytes 28 to 43: its command is 20"),
    (with_script(b"\x01"), 7, 0, "its target is variable 0, and there are 0 variables"),
    (with_script(b"\x0b\x04"), 7, 0, "its mark is 4"),
    (with_script(b"\x06\0\x06"), 7, 0, "its operator is 6"),
    (with_script(b"\x06\0\0\x04"), 7, 0, "its left kind is 4"),
    (with_script(b"\x06\0\x01\0\x04"), 7, 0, "its right kind is 4"),
    (with_script(b"\x06\0\0\x01"), 7, 0, "its left side is variable 0"),
    (with_script(b"\x06\0\x01\0\x01"), 7, 0, "its right side is variable 0"),
    (b"\0\0\7" + bytes(5) + hexed(ROOT) + hexed("0000 0800 1400 1400"), 12, 0, "variable 0, bytes 0 to 7: its byte 2 is 7; nobody reads it there"),
    (hexed("ffff 000000 000009 0a000000 0000 0000 0c00 0c00"), 12, 0, "node 0, bytes 0 to 11: its byte 7 is 9"),
    (with_script(b"\0", b"\x08\1"), 12, 1, "record 1, bytes 28 to 43: its byte 1, of the target, is 1"),
    (with_script(b"\x06\0\0\0\x04"), 12, 0, "its byte 4, of the right kind, is 4"),
    (with_script(b"\x06\0\x01\x02\x03\0\0\0\0\1"), 12, 0, "its byte 9, of the left number, is 1"),
    (with_script(b"\x06\0\x01\x02\x03" + bytes(10) + b"\2"), 12, 0, "its byte 15, of the right number, is 2"),
    (with_script(b"\x05"), 8, 0, "record 0, bytes 12 to 27: it is an end, and no block is open"),
    (with_script(b"\x03"), 8, 0, "it is an else, and no block is open"),
    (with_script(b"\x04", b"\x03", b"\x05"), 8, 1, "it is an else, and the innermost open block is a while"),
    (with_script(b"\x02", b"\x03", b"\x03", b"\x05"), 8, 2, "it is a second else of the same if"),
    (with_script(b"\x02", b"\x04", b"\x05"), 8, 3, "the script's end, bytes 60 to 67: the script ends with 1 block still open"),
    (with_script(*[b"\x02"] * 17 + [b"\x05"] * 17), 8, 16, "it opens the 17th nested block"),
    # Each check goes over its whole section before the next number starts.
    (with_nodes((65535, 1, 1, 1), TOP), 5, 1, "it has no parent"),
    (with_nodes(TOP, (0, 0, 0, 0), (0, 0, 0, 0), (1, 0, 0, 0), TOP), 5, 4, "it has no parent"),
    (with_nodes((65535, 1, 1, 1), (0, 0, 0, 0), (0, 0, 0, 0), (1, 0, 0, 0), (2, 0, 0, 0)), 13, 3, "its parent is node 1, whose subtree has ended"),
    (with_script(b"\x05", b"\x14"), 7, 1, "its command is 20"),
    (with_script(b"\0\1", b"\x14"), 7, 1, "its command is 20"),
    (with_script(b"\x05", b"\0\1"), 12, 1, "its byte 1, of the target, is 1"),
)

CLEAN = """\
variables
  v0 = -1
  v1 house = 2147483647
tree
  n0 list house = 10
    n1 content house = 3
      n2 = 0
    n3 house = -2147483648
script
  v1 := mean(value, v0)
  if v0 < 3
    new first child content house list house: children
    while v0
      v0 := v0 - 1
  else
    print -5
  if value
    empty
  else
    empty
  cover
"""


class Lists(unittest.TestCase):
    def test_a_clean_job(self):
        done = tool("list", "-", data=assembled(CLEAN))
        self.assertEqual((done.status, done.error, done.output), (0, "", CLEAN))

    def test_a_source_is_no_job(self):
        done = tool("list", str(HOME / "examples" / "first.yoke"))
        self.assertEqual((done.status, done.output), (2, ""))
        self.assertIn("this is a source and no job", done.error)

    def test_damaged_jobs(self):
        for data, number, index, message in DAMAGED:
            with self.subTest(message):
                fault = job.check(data)
                self.assertEqual((fault.number, fault.index), (number, index))
                done = tool("list", "-", data=data)
                self.assertEqual((done.status, done.output), (1, ""))
                self.assertIn(f"refused with {number} ({job.ENDINGS[number]}): ", done.error)
                self.assertIn(message, done.error)

    def test_damaged_jobs_as_the_monitor_sees_them(self):
        answers = replayed([data for data, _, _, _ in DAMAGED], 100)
        for (data, number, index, message), answer in zip(DAMAGED, answers):
            self.assertEqual(answer, [f"ending {number} index {index} steps 0 lines 0"], message)


class Bare(unittest.TestCase):
    """Bare sections of follow-on scripts."""

    SCRIPT = "script\n  v1 := mean(value, v0)\n  if v0 < 3\n    new first child list house: children\n  else\n    empty\n"

    def section(self, text):
        done = tool("assemble", "--bare", "-", "-o", "-", data=text)
        self.assertEqual((done.status, done.error), (0, ""))
        return done.bytes

    def listed(self, data, *words):
        return tool("list", "--bare", "-", *words, data=data)

    def test_a_section(self):
        done = self.listed(self.section(self.SCRIPT))
        self.assertEqual((done.status, done.error, done.output), (0, "", self.SCRIPT))
        self.assertEqual(self.listed(b"").output, "script\n")

    def test_names_of_a_source(self):
        with scratch() as folder:
            path = Path(folder, "base")
            path.write_text("variables\n  depth = 0\n  beds house = 1\ntree\n  resort = 1\nscript\n  up\n")
            done = self.listed(self.section(self.SCRIPT), "--tree", str(path))
            self.assertEqual((done.status, done.output), (0, self.SCRIPT.replace("v0", "depth").replace("v1", "beds")))
            done = self.listed(self.section("script\n  print v2\n"), "--tree", str(path))
            self.assertEqual((done.status, done.output), (1, ""))
            self.assertIn("its left side is variable 2, and there are 2 variables", done.error)

    def test_sections_that_are_refused(self):
        for data, number, message in (
                (bytes(15), 11, "the section has 15 bytes, which is no multiple of 16"),
                (bytes(16 * 1025), 11, "the section has 1,025 records; it must have 0 to 1,024"),
                (b"\x14" + bytes(15), 7, "record 0, bytes 0 to 15: its command is 20"),
                (b"\x01\x40" + bytes(14), 7, "record 0, bytes 0 to 15: its target is variable 64, and there are 64 variables"),
                (bytes(16) + b"\x08\0\0\0\0\1" + bytes(9) + b"\2", 12, "record 1, bytes 16 to 31: its byte 5 is 1; nobody reads it there, so it must be 0"),
                (b"\x04" + bytes(14) + b"\7", 12, "record 0, bytes 0 to 15: its byte 15, of the right number, is 7"),
                (b"\x04" + bytes(15), 8, "the script's end: the script ends with 1 block still open")):
            done = self.listed(data)
            self.assertEqual((done.status, done.output), (1, ""))
            self.assertIn(f"<standard input>: refused with {number} ({job.ENDINGS[number]}): {message}", done.error)

    def test_what_is_no_section(self):
        for data, message in ((assembled(CLEAN), "this is a job; a follow-on script is"),
                              (self.SCRIPT.encode(), "this is a source and no bare section; `tools/job assemble --bare`"),
                              (self.SCRIPT.encode("utf-16"), "this is UTF-16")):
            done = self.listed(data)
            self.assertEqual((done.status, done.output), (2, ""))
            self.assertIn(message, done.error)
        done = tool("list", "-", "--tree", "x", data=assembled(CLEAN))
        self.assertEqual((done.status, done.output), (2, ""))
        self.assertIn("with --bare", done.error)

    def test_list_and_assemble_undo_each_other(self):
        for data in generated("clean", 30_000, 100):
            section = job.encode_script(job.decode(data).records)
            self.assertEqual(self.section(self.listed(section).output).hex(), section.hex())


class RoundTrips(unittest.TestCase):
    def back_and_forth(self, data):
        text = job.listing(job.decode(data))
        again = assembled(text)
        self.assertEqual(again.hex(), data.hex(), text)
        self.assertEqual(job.listing(job.decode(again)), text)
        return text

    def test_generated_jobs(self):
        jobs = generated("clean", 20_000, 400)
        for data in jobs:
            self.back_and_forth(data)
        # The jobs have everything that a source can say.
        records = [record for data in jobs for record in job.decode(data).records]
        self.assertEqual({record.command for record in records}, set(range(20)))
        self.assertEqual({r.target for r in records if r.command == job.NEW_FIRST_CHILD}, {0, 1, 2, 3})
        self.assertEqual({r.target for r in records if r.command == job.NEW_RIGHT_SIBLING}, {0, 1, 2, 3})
        self.assertEqual({r.operator for r in records if r.operands()}, set(range(6)))
        self.assertEqual({kind for r in records for kind, _ in r.operands()}, set(range(4)))

    def test_examples(self):
        sources = examples()
        self.assertGreaterEqual(len(sources), 6)
        for path in sources:
            with self.subTest(path.name):
                self.back_and_forth(assembled(path.read_text(encoding="utf-8")))

    def test_the_largest_job(self):
        variables = "".join(f"  v{n} = {n}\n" for n in range(64))
        nodes = "".join("  " * (n + 1) + f"n{n} = {n}\n" for n in range(512))
        text = f"variables\n{variables}tree\n{nodes}script\n" + "  up\n" * 1024
        data = assembled(text)
        self.assertEqual(len(data), 23_048)
        self.assertIsNone(job.check(data))
        self.assertEqual(self.back_and_forth(data), text)


class Checks(unittest.TestCase):
    def test_generated_jobs_as_the_monitor_sees_them(self):
        jobs = generated("any", 50_000, 1_000)
        seen = set()
        for data, answer in zip(jobs, replayed(jobs, 1)):
            fault = job.check(data)
            if fault:
                seen.add(fault.number)
                self.assertEqual(answer, [f"ending {fault.number} index {fault.index} steps 0 lines 0"], data.hex())
            else:
                self.assertRegex(answer[0], r"^ending (0|2[0-9]) ", data.hex())
        self.assertEqual(seen, {1, 2, 3, 5, 6, 7, 8, 12, 13})


if __name__ == "__main__":
    unittest.main()
