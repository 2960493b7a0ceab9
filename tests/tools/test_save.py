"""run --save: what stands in the end, written as a job. The bytes come from the repository's history."""

import os
import unittest
from pathlib import Path

from support import HOME, assembled, generated, job, program, scratch, tool
from test_history import ADDS, BASE, READS, SHOWS, STOPS, run, section
from test_trees import Files

# What stands behind BASE, ADDS and READS, as list shows it.
LEFT = """\
variables
  v0 = 15
  v1 house = 40
tree
  n0 = 10
    n1 = 3
    n2 = 5
    n3 list house = 0
"""
PRUNES = "script\n  first child\n  new first child: 8\n  root\n  remove first child\n  new first child: 9\n"


def saved(texts, *words):
    """The run of a source and scripts in order, and the file that it saves, or None."""
    with Files(**texts) as path:
        file = Path(path("x")).parent / "saved"
        done = run(*(path(name) for name in texts), "--save", str(file), *words)
        done.text = done.output.replace(str(file.parent) + "/", "")
        return done, file.read_bytes() if file.exists() else None


class Saved(unittest.TestCase):
    def test_scripts(self):
        done, data = saved({"base": BASE, "adds": ADDS, "reads": READS})
        self.assertEqual((done.status, done.error), (0, ""))
        self.assertEqual(done.text.split("\n")[-3:], ["", "saved: saved, a job of 2 variables and 4 nodes without a script", ""])
        self.assertEqual(tool("list", "-", data=data).output, LEFT)
        self.assertEqual(data, assembled(LEFT))

    def test_a_source_alone(self):
        done, data = saved({"base": BASE})
        self.assertEqual((done.status, done.error), (0, ""))
        self.assertEqual(data, assembled(BASE.split("script")[0].replace("depth = 0", "depth = 10")))

    def test_nodes_are_closed_up(self):
        """A removal, and a node in the place that it freed."""
        _, data = saved({"base": BASE, "prunes": PRUNES})
        self.assertEqual(data, assembled(BASE.split("script")[0].replace("depth = 0", "depth = 10").replace("slope = 3", "slope = 9")))

    def test_what_a_stop_leaves(self):
        done, data = saved({"base": BASE, "stops": STOPS})
        self.assertEqual((done.status, done.error), (1, ""))
        self.assertEqual(data, assembled("variables\n  v0 = 7\n  v1 house = 40\ntree\n  a = 10\n    b = 8\n    c = 3\n    d list house = 0\n"))

    def test_it_goes_on(self):
        """Scripts over the saved job find what they would have found without it."""
        whole = run_texts(base=BASE, adds=ADDS, reads=READS, shows=SHOWS)
        _, data = saved({"base": BASE, "adds": ADDS})
        with Files(reads=READS.replace("depth", "v0"), shows=SHOWS.replace("depth", "v0")) as path:
            file = Path(path("x")).parent / "base.job"
            file.write_bytes(data)
            rest = run(str(file), path("reads"), path("shows"))
        boards = [line for line in whole.output.split("\n") if line.strip().lstrip("-").isdigit()]
        self.assertEqual([line for line in rest.output.split("\n") if line.strip().lstrip("-").isdigit()], boards[1:])

    def test_limits(self):
        done, data = saved({"base": BASE, "adds": ADDS, "shows": SHOWS}, "--places", "4", "--budget", "4", "--lines", "3")
        self.assertEqual((done.status, done.error), (0, ""))
        self.assertEqual(len(job.decode(data).nodes), 4)

    def test_refused(self):
        for texts in ({"base": BASE.replace("office", "office house")}, {"base": BASE.replace("office", "office house"), "adds": ADDS}):
            done, data = saved(texts)
            self.assertEqual((done.status, data), (1, None))
            self.assertTrue(done.output.endswith("\nThere is no tree to save, so no file was written.\n"), done.output)

    def test_a_script_that_is_refused_changes_nothing(self):
        _, data = saved({"base": BASE, "adds": ADDS})
        done, same = saved({"base": BASE, "adds": ADDS, "bare": section(bytes([20]))})
        self.assertEqual((done.status, same), (1, data))

    def test_no_file(self):
        done = run("-", "--save", "-", data=BASE)
        self.assertEqual((done.status, done.output), (2, ""))
        self.assertIn("--save needs a file", done.error)
        with scratch() as folder:
            done = run("-", "--save", str(Path(folder, "none", "saved")), data=BASE)
            self.assertEqual(done.status, 2)
            self.assertIn("No such file", done.error)

    def test_a_program_that_cannot_write(self):
        """An older history, one that turns what stands away, and one that writes what is no job."""
        first = "job 0\nending 0 index 0 steps 1 lines 0\n"
        for said, words in ((first + "unknown 1\n", "what stands was not written"), (first + "written 1 14\narea \n", "turned away with 14"),
                            (first + "written 1 20\narea " + "aa" * 20 + "\n", "Please report"), ("", "what stands was not written")):
            with scratch() as folder:
                path = Path(folder, "history")
                path.write_text(f"#!/bin/sh\ncat > {folder}/in\nprintf '{said}'\n", encoding="utf-8")
                os.chmod(path, 0o755)
                file = Path(folder, "saved")
                done = run("-", "--save", str(file), data=BASE, HISTORY=str(path))
                self.assertEqual((done.status, file.exists()), (2, False), said)
                self.assertIn(words, done.error)

    def test_generated_jobs(self):
        """What stands in the end is the tree that run shows, and it is a job that runs nothing."""
        for number, data in enumerate(generated("clean", 70, 12)):
            with self.subTest(number), scratch() as folder:
                file, again = Path(folder, "saved"), Path(folder, "again")
                run("-", "--save", str(file), data=data)
                self.assertIsNone(job.check(file.read_bytes()))
                self.assertEqual(run(str(file), "--save", str(again)).status, 0)
                self.assertEqual(again.read_bytes(), file.read_bytes())


def run_texts(**texts):
    with Files(**texts) as path:
        return run(*(path(name) for name in texts))


class Manual(unittest.TestCase):
    def test_help(self):
        self.assertIn("--save FILE", tool("run", "--help").output)
        self.assertTrue((HOME / "docs" / "endings" / "14.md").is_file())
        self.assertIn("PORTAL_BAD_AREA", tool("explain", "14").output)


if __name__ == "__main__":
    unittest.main()
