"""arrange: stored jobs with their nodes in any order, and jobs that are refused."""

import os
import struct
import unittest
from pathlib import Path

from support import HOME, assembled, generated, job, program, scratch, tool

SOURCE = "variables\n  v0 = 7\ntree\n  n0 = 10\n    n1 = 11\n      n2 = 13\n      n3 = 14\n    n4 = 12\n      n5 = 15\nscript\n  first child\n  print children\n"


def nodes_at(data):
    """Where the node section of a job starts and ends."""
    _, nodes, script, _ = struct.unpack("<4H", data[-8:])
    return nodes, script


def with_nodes(data, nodes):
    """The job with these nodes: parent and value of each, all levels public."""
    start, end = nodes_at(data)
    return data[:start] + b"".join(struct.pack("<H6xi", *node) for node in nodes) + data[end:]


# The same tree, level after level.
STORED = with_nodes(assembled(SOURCE), [(65535, 10), (0, 11), (0, 12), (1, 13), (1, 14), (2, 15)])


def arranged(data, output="-"):
    return tool("arrange", "-", output, data=bytes(data), ARRANGE=program("arrange"))


class Arrange(unittest.TestCase):
    def test_level_after_level(self):
        words = ["<standard input>: 3 of 6 nodes have another number now", "  node 2 is node 4", "  node 3 is node 2", "  node 4 is node 3", ""]
        done = arranged(STORED)
        self.assertEqual((done.status, done.bytes.hex(), done.error.split("\n")), (0, assembled(SOURCE).hex(), words))
        with scratch() as folder:
            path = Path(folder, "out")
            done = arranged(STORED, str(path))
            self.assertEqual((done.status, done.output.split("\n"), done.error, path.read_bytes()), (0, words, "", assembled(SOURCE)))
        self.assertEqual(tool("list", "-", data=assembled(SOURCE)).output, SOURCE)

    def test_a_job_in_order(self):
        done = arranged(assembled(SOURCE))
        self.assertEqual((done.status, done.bytes, done.error),
                         (0, assembled(SOURCE), "<standard input>: the nodes were in order, and the job stays as it is\n"))

    def test_in_place(self):
        with scratch() as folder:
            path = Path(folder, "stored")
            path.write_bytes(STORED)
            self.assertEqual(tool("arrange", str(path), str(path), ARRANGE=program("arrange")).status, 0)
            self.assertEqual(path.read_bytes(), assembled(SOURCE))

    def test_other_verbs_refuse_it_before(self):
        for words in (("list", "-"), ("picture", "-"), ("probe", "-", "--count", "2")):
            done = tool(*words, data=STORED, REPLAY=program("replay"))
            self.assertEqual((done.status, done.output), (1, ""), words)
            self.assertIn("refused with 13 (node out of order): node 3, bytes 44 to 55: its parent is node 1", done.error)

    def test_refused(self):
        """By its number so far, and nothing is written: a spare byte is refused, a later command than the cleaner's is not."""
        moved = assembled(SOURCE.replace("first child", "last child"))
        self.assertEqual(arranged(moved).bytes, moved)
        spare, late = bytearray(STORED), bytearray(STORED)
        spare[13], late[nodes_at(STORED)[1]] = 7, 20
        with scratch() as folder:
            path = Path(folder, "out")
            for data, number in ((b"", 1), (bytes(8), 3), (b"\2" + STORED[1:], 4), (spare, 12), (late, 7),
                                 (with_nodes(STORED, [(65535, 10), (0, 11), (0, 12), (3, 13), (1, 14), (2, 15)]), 5)):
                done = arranged(data, str(path))
                self.assertEqual((done.status, done.output, path.exists()), (1, "", False))
                self.assertIn(f"refused with {number} ({job.ENDINGS[number]}): ", done.error)

    def test_a_source(self):
        done = tool("arrange", str(HOME / "examples" / "first.yoke"), "-")
        self.assertEqual((done.status, done.output), (2, ""))
        self.assertIn("this is a source and no job; `tools/job assemble` lists the nodes the way they hang", done.error)

    def test_a_program_that_says_something_else(self):
        with scratch() as folder:
            path = Path(folder, "arrange")
            for script in ("true", "echo x", "echo refused >&2", "cat; echo 1 2 >&2"):
                path.write_text(f"#!/bin/sh\n{script}\n")
                os.chmod(path, 0o755)
                done = tool("arrange", "-", "-", data=STORED, ARRANGE=str(path))
                self.assertEqual((done.status, done.output), (2, ""), script)
                self.assertIn("arrange answered in a form that this tool does not know", done.error)

    def test_generated_jobs(self):
        """What comes out is accepted and draws the same tree; what the rules before 13 refuse is refused."""
        kinds = set()
        for data in generated("shuffled", 7, 300):
            if data and 0 not in data:
                continue  # bytes without a zero among them are a source to the tool
            done, fault = arranged(data), job.check(data, job.UNORDERED)
            kinds.add((fault is None, job.check(data) is None))
            self.assertEqual(done.status, 0 if fault is None else 1)
            if fault is None:
                self.assertIsNone(job.check(done.bytes))
                old, new = job.decode(data), job.decode(done.bytes)
                self.assertEqual((old.variables, old.records), (new.variables, new.records))
                rows = [[(depth, *one.nodes[index][1:]) for index, depth in job.preorder(one.nodes)] for one in (old, new)]
                self.assertEqual(*rows)
        # Refused by the old rules and accepted today: a job with sets of parties.
        self.assertEqual(kinds, {(True, True), (True, False), (False, False), (False, True)})


if __name__ == "__main__":
    unittest.main()
