"""clean: stored jobs, what was in their spare bytes in words, and jobs that are refused."""

import os
import unittest
from pathlib import Path

from support import HOME, assembled, generated, job, program, scratch, tool

SOURCE = "variables\n  v0 = 1\ntree\n  n0 = 1\nscript\n  up\n  print value\n"


def cleaned(data, output="-"):
    return tool("clean", "-", output, data=bytes(data), CLEAN=program("clean"))


class Clean(unittest.TestCase):
    def test_what_changed(self):
        plain = assembled(SOURCE)
        data = bytearray(plain)
        data[2], data[13], data[21], data[25], data[40], data[44] = 9, 7, 5, 6, 1, 255
        words = ["<standard input>: 6 bytes that nobody reads were not zero", "  variable 0: byte 2 was 9", "  node 0: byte 5 was 7",
                 "  record 0 (up): byte 1, of the target, was 5", "  record 0 (up): byte 5 was 6", "  record 1 (print value): byte 4, of the right kind, was 1",
                 "  record 1 (print value): byte 8, of the left number, was 255", ""]
        done = cleaned(data)
        self.assertEqual((done.status, done.bytes, done.error.split("\n")), (0, plain, words))
        with scratch() as folder:
            path = Path(folder, "out")
            done = cleaned(data, str(path))
            self.assertEqual((done.status, done.output.split("\n"), done.error, path.read_bytes()), (0, words, "", plain))

    def test_one_byte(self):
        done = cleaned(b"\0\1" + assembled(SOURCE)[2:])
        self.assertEqual(done.error, "<standard input>: 1 byte that nobody reads was not zero\n  variable 0: byte 1 was 1\n")

    def test_a_clean_job(self):
        done = cleaned(assembled(SOURCE))
        self.assertEqual((done.status, done.bytes, done.error), (0, assembled(SOURCE), "<standard input>: the job was clean and stays as it is\n"))

    def test_in_place(self):
        with scratch() as folder:
            path = Path(folder, "stored")
            path.write_bytes(b"\0\1" + assembled(SOURCE)[2:])
            self.assertEqual(tool("clean", str(path), str(path), CLEAN=program("clean")).status, 0)
            self.assertEqual(path.read_bytes(), assembled(SOURCE))

    def test_refused(self):
        """By its old number, and nothing is written."""
        with scratch() as folder:
            path = Path(folder, "out")
            for data, number in ((b"", 1), (bytes(8), 3), (b"\2\1" + assembled(SOURCE)[2:], 4), (assembled(SOURCE)[:20] + b"\x05\1" + assembled(SOURCE)[22:], 8)):
                done = cleaned(data, str(path))
                self.assertEqual((done.status, done.output, path.exists()), (1, "", False))
                self.assertIn(f"refused with {number} ({job.ENDINGS[number]}): ", done.error)

    def test_a_later_command(self):
        """To the cleaner an if that comes back is a 7, in a job that is accepted today."""
        data = assembled(SOURCE.replace("up", "if 1 and come back\n    up"))
        self.assertIsNone(job.check(data))
        done = cleaned(data)
        self.assertEqual((done.status, done.output), (1, ""))
        self.assertIn("record 0, bytes 20 to 35: its command is 17; commands are 0 to 16 to the cleaner", done.error)

    def test_a_source(self):
        done = tool("clean", str(HOME / "examples" / "first.yoke"), "-")
        self.assertEqual((done.status, done.output), (2, ""))
        self.assertIn("this is a source and no job", done.error)

    def test_a_program_that_says_something_else(self):
        with scratch() as folder:
            path = Path(folder, "clean")
            for script in ("true", "echo x", "echo refused >&2", "cat; echo 1 2 >&2", "cat; printf '0 0 1 7' >&2"):
                path.write_text(f"#!/bin/sh\n{script}\n")
                os.chmod(path, 0o755)
                done = tool("clean", "-", "-", data=assembled(SOURCE), CLEAN=str(path))
                self.assertEqual((done.status, done.output), (2, ""), script)
                self.assertIn("clean answered in a form that this tool does not know", done.error)

    def test_generated_jobs(self):
        """What comes out is accepted, but for its nodes' order, and has the same source; what the rules before 12 refuse is refused, later commands among it."""
        kinds = set()
        for data in generated("dirty", 7, 300):
            if data and 0 not in data:
                continue  # bytes without a zero among them are a source to the tool
            done, fault = cleaned(data), job.check(data, job.STORED)
            kinds.add((fault is None, job.check(data) is None))
            self.assertEqual(done.status, 0 if fault is None else 1)
            if fault is None:
                self.assertIsNone(job.check(done.bytes, job.UNORDERED))
                old = job.decode(data)
                clean = [record.clean(sets=False) for record in old.records]
                self.assertEqual(done.bytes, job.Job(old.variables, old.nodes, clean).encode())
        # Refused by the old rules and accepted today: a job with a later command, or with sets of parties.
        self.assertEqual(kinds, {(True, True), (True, False), (False, False), (False, True)})


if __name__ == "__main__":
    unittest.main()
