"""run with scripts behind the source: script after script over the tree that stays. The monitor's answers come from the repository's history."""

import unittest
from pathlib import Path

from support import HOME, assembled, examples, generated, job, played, program, scratch, scripts_of, tool
from test_trees import Files

BASE = """\
variables
  depth = 0
  beds house = 40
tree
  resort = 10
    slope = 3
    office list house = 0
script
  depth := value
"""
ADDS = "script\n  first child\n  new right sibling: 5\n  up\n  print children\n"
READS = "script\n  first child\n  right sibling\n  depth := depth + value\n  print depth\n"
STOPS = "script\n  depth := 7\n  new first child: 8\n  depth := beds\n  print 1\n"
SHOWS = "script\n  print depth\n  print children\n"


def run(*words, **more):
    return tool("run", *words, **{"HISTORY": program("history"), "INSPECT": program("inspect"), "REPLAY": program("replay"), **more})


def history(**texts):
    """A source and scripts in order, each in a file of its name; what is said, with names of files in place of paths."""
    with Files(**texts) as path:
        done = run(*(path(name) for name in texts))
        folder = str(Path(path("x")).parent)
        done.text = done.output.replace(folder + "/", "")
        return done


def section(*records):
    """Records of 16 bytes, one behind the other."""
    return b"".join(record.ljust(16, b"\0") for record in records)


class Scripts(unittest.TestCase):
    def test_what_one_leaves_the_next_finds(self):
        done = history(base=BASE, adds=ADDS, reads=READS)
        self.assertEqual((done.status, done.error), (0, ""))
        self.assertEqual(done.text, """\
base: finished after 1 step

board, 0 lines

script 1 of 2
adds: finished after 4 steps

board, 1 line
  3

script 2 of 2
reads: finished after 4 steps

board, 1 line
  15

variables at the end
  depth = 15
  beds house = 40

tree at the end
  resort = 10
  ├─ slope = 3
  ├─ new1_3 = 5
  └─ office = 0   [house list]
""")

    def test_each_starts_at_the_root_with_a_public_cursor(self):
        done = history(base=BASE, cover="script\n  first child\n  cover\n", shows="script\n  print value\n")
        self.assertEqual(done.status, 0)
        self.assertIn("shows: finished after 1 step\n\nboard, 1 line\n  10\n", done.text)

    def test_a_stop_stays_and_the_next_goes_on(self):
        done = history(base=BASE, stops=STOPS, shows=SHOWS)
        self.assertEqual((done.status, done.error), (1, ""))
        self.assertIn("script 1 of 2\nstops:4:3: stopped with 21 (flow rule broken) after 2 steps\n\n"
                      "     4 |   depth := beds\n       |   ^^^^^^^^^^^^^\n\nThe rule:\n", done.text)
        self.assertIn("  depth    public  the variable that should take the number\n  beds     house   a variable\n", done.text)
        self.assertIn("board, 0 lines\n\nscript 2 of 2\nshows: finished after 2 steps\n\nboard, 2 lines\n  7\n  3\n\nvariables", done.text)
        self.assertIn("  ├─ new1_3 = 8\n  ├─ slope = 3\n", done.text)
        self.assertIn("Script 1 was stopped. What it left may tell where, and so may each board after it:\n", done.text)

    def test_a_source_that_stops_leaves_its_tree(self):
        done = history(base=BASE + "  up\n", shows=SHOWS)
        self.assertEqual(done.status, 1)
        self.assertIn("base:10:3: stopped with 22 (node does not exist) after 1 step\n", done.text)
        self.assertIn("board, 2 lines\n  10\n  2\n", done.text)
        self.assertIn("The job was stopped. What it left", done.text)

    def test_no_word_about_boards_where_none_follows(self):
        for texts in ({"base": BASE, "adds": ADDS, "stops": STOPS}, {"base": BASE, "adds": ADDS},
                      {"base": BASE, "bad": b"\0", "adds": ADDS}):
            done = history(**texts)
            self.assertIn("tree at the end", done.text)
            self.assertNotIn("was stopped.", done.text)

    def test_one_that_is_refused_changes_nothing(self):
        deep = "script\n  depth := 9\n" + "".join(" " * (n + 2) + "if 1\n" for n in range(17)) + " " * 19 + "up\n"
        done = history(base=BASE, deep=deep, shows=SHOWS)
        self.assertEqual((done.status, done.error), (1, ""))
        self.assertIn("script 1 of 2\ndeep:19:19: refused with 8 (blocks do not match)\n\n    19 | ", done.text)
        self.assertIn("it opens the 17th nested block; 16 are allowed.\n\nMore: tools/job explain 8\n", done.text)
        self.assertIn("script 2 of 2\nshows: finished after 2 steps\n\nboard, 2 lines\n  10\n  2\n", done.text)

    def test_the_last_tree_is_that_of_the_last_that_was_run(self):
        done = history(base=BASE, adds=ADDS, bad=section(b"\x05"))
        self.assertEqual(done.status, 1)
        self.assertTrue(done.text.endswith("  ├─ new1_3 = 5\n  └─ office = 0   [house list]\n"), done.text)

    def test_the_same_script_twice(self):
        with Files(base=BASE, adds=ADDS) as path:
            done = run(path("base"), path("adds"), path("adds"))
        self.assertEqual(done.status, 0)
        self.assertIn("  ├─ slope = 3\n  ├─ new2_3 = 5\n  ├─ new1_3 = 5\n", done.output)

    def test_an_empty_script(self):
        for text in ("script\n", "# nothing to do\nscript\n", b""):
            done = history(base=BASE, empty=text, shows=SHOWS)
            self.assertEqual(done.status, 0)
            self.assertIn("empty: finished after 0 steps\n\nboard, 0 lines\n", done.text)

    def test_a_tree_in_a_file_of_its_own(self):
        house, script = BASE.split("script\n")
        with Files(house=house, script="variables\n  n = 4\nscript\n" + script, more="script\n  print n\n") as path:
            done = run("--tree", path("house"), path("script"), path("more"))
        self.assertEqual((done.status, done.error), (0, ""))
        self.assertIn("board, 1 line\n  4\n", done.output)

    def test_over_a_job(self):
        done = history(base=assembled(BASE), reads=ADDS.replace("5", "v0"))
        self.assertEqual((done.status, done.error), (0, ""))
        self.assertIn("  n0 = 10\n  ├─ n1 = 3\n  ├─ new1_3 = 10\n  └─ n2 = 0        [house list]\n", done.text)

    def test_standard_input(self):
        with Files(base=BASE, adds=ADDS) as path:
            self.assertEqual(run(path("base"), "-", data=ADDS).status, 0)
            self.assertEqual(run("-", path("adds"), data=BASE).status, 0)
            done = run(path("base"), "-", "-", data=ADDS)
            self.assertEqual((done.status, done.output), (2, ""))
            self.assertIn("standard input can be one of the files", done.error)

    def test_advice(self):
        """A follow-on script declares nothing: the advice names the file that does, or the line that made a node."""
        done = history(base=BASE, stops=STOPS)
        self.assertRegex(" ".join(done.output.split()), r"Declare a house variable in \S+/base and use it in place of `depth`")
        done = history(base=BASE, sets="script\n  set beds\n")
        self.assertRegex(" ".join(done.output.split()), r"Give resort the level `content house` in \S+/base: `resort content house = ...`")
        done = history(base=BASE, adds=ADDS, sets="script\n  first child\n  right sibling\n  set beds\n")
        self.assertRegex(" ".join(done.output.split()), r"Write `content house` where line 3 of \S+/adds makes the node\.")


class Bytes(unittest.TestCase):
    """Scripts as bare sections."""

    def test_a_section_is_shown_as_list_shows_it(self):
        done = history(base=BASE, bare=section(b"\x09", b"\x0c\0\0\x01", b"\x08", b"\x08"))
        self.assertEqual(done.status, 1)
        self.assertIn("list of bare:5:3: stopped with 22 (node does not exist) after 3 steps\n\n     5 |   up\n", done.text)
        self.assertIn("  ├─ new1_3 = 10\n", done.text)

    def test_sections_that_are_refused(self):
        for data, number, message in (
                (b"\0", 11, "the section has 1 byte, which is no multiple of 16"),
                (bytes(17), 11, "the section has 17 bytes, which is no multiple of 16"),
                (section(*[b""] * 1025), 11, "the section has 1,025 records; it must have 0 to 1,024"),
                (section(b"\x14", b"\x05") + b"\0", 11, "the section has 33 bytes"),
                (section(b"\x05", b"\x14"), 7, "record 1, bytes 16 to 31: its command is 20"),
                (section(b"\x01\x02"), 7, "record 0, bytes 0 to 15: its target is variable 2, and there are 2 variables"),
                (section(b"\x05"), 8, "record 0, bytes 0 to 15: it is an end, and no block is open"),
                (section(b"\x02", b"\x09"), 8, "the script's end: the script ends with 1 block still open")):
            with self.subTest(message):
                done = history(base=BASE, bare=data, shows=SHOWS)
                self.assertEqual((done.status, done.error), (1, ""))
                self.assertIn(f"bare: refused with {number} ({job.ENDINGS[number]}): {message}", done.text)
                self.assertIn(f"More: tools/job explain {number}\n", done.text)
                self.assertIn("shows: finished after 2 steps\n\nboard, 2 lines\n  10\n  2\n", done.text)

    def test_edges_that_are_taken(self):
        self.assertIn("finished after 1,024 steps", history(base=BASE, bare=section(*[b""] * 1024)).text)

    def test_a_source_of_too_many_records(self):
        done = history(base=BASE, long="script\n" + "  nothing\n" * 1025)
        self.assertEqual(done.status, 1)
        self.assertIn("long: refused with 11 (follow-on not whole)\n\n  the section has 1,025 records; it must have 0 to 1,024.\n", done.text)
        self.assertIn("finished after 1,024 steps", history(base=BASE, long="script\n" + "  nothing\n" * 1024).text)


class Limits(unittest.TestCase):
    LOOP = "script\n  while 1\n    print 7\n    new first child: 2\n"

    def ends(self, number, steps, *options):
        with Files(base=BASE, loop=self.LOOP, shows=SHOWS) as path:
            done = run(path("base"), path("loop"), *options, path("shows"))
        self.assertEqual((done.status, done.error), (1, ""))
        self.assertRegex(done.output, rf"loop:\d:\d: stopped with {number} \(.*\) after {steps} steps?\n")
        self.assertNotIn("another end", done.output)
        return done.output

    def test_each_has_a_budget_of_its_own(self):
        output = self.ends(25, 7, "--budget", "7")
        self.assertIn("The script has used its 7 steps", output)
        self.assertIn("shows: finished after 2 steps\n", output)

    def test_each_has_a_board_of_its_own(self):
        # Rounds of while, print, new, end: the third print is step 10.
        output = self.ends(24, 9, "--lines", "2")
        self.assertIn("board, 2 lines\n  7\n  7\n", output)
        self.assertIn("board, 2 lines\n  10\n  4\n", output)

    def test_they_share_the_places(self):
        # Three nodes stand, two more fit in: the third new node is step 11.
        output = self.ends(23, 10, "--places", "5")
        self.assertIn("The tree has 5 nodes, and there is room for 5.", output)
        self.assertIn("board, 2 lines\n  10\n  4\n", output)

    def test_a_source_that_is_refused_leaves_no_tree(self):
        with Files(base=BASE, adds=ADDS, none="script\n  up\n") as path:
            for option, value, number in (("--budget", "0", 9), ("--places", "2", 10), ("--places", "513", 10)):
                done = run(path("base"), path("adds"), option, value)
                self.assertEqual((done.status, done.error), (1, ""))
                self.assertIn(f"refused with {number} (", done.output)
                self.assertTrue(done.output.endswith("\nThere is no tree for the scripts, so none was run.\n"), done.output)
            self.assertIn("so none was run", run(path("none"), path("adds")).output)
            self.assertIn("so none was run", run("-", path("adds"), data=bytes(8)).output)

    def test_trace(self):
        with Files(base=BASE, adds=ADDS, reads=READS) as path:
            done = run("--trace", path("base"), path("adds"), path("reads"))
        self.assertEqual(done.status, 0)
        self.assertEqual(done.output.count("   step   line  record  statement"), 3)
        self.assertIn("      2      3       1  new right sibling: 5  public   slope   public     new1_3 = 5 under resort, public\n", done.output)
        self.assertIn("cursor on new1_3, public\n", done.output)

    def test_all(self):
        text = "tree\n  resort = 1\n" + "    slope = 2\n" * 40
        with Files(base=text, adds=ADDS) as path:
            self.assertIn("more\n", run(path("base"), path("adds")).output)
            self.assertEqual(run(path("base"), path("adds"), "--all").output.count("slope = 2"), 40)


class Mistakes(unittest.TestCase):
    """Nothing is run where a file cannot be read."""

    def fails(self, message, *words, **texts):
        with Files(**texts) as path:
            done = run(*(path(name) for name in texts), *words)
            self.assertEqual((done.status, done.output), (2, ""))
            self.assertIn(message.replace("FOLDER", str(Path(path("x")).parent)), done.error)

    def test_a_script_that_does_not_assemble(self):
        self.fails("FOLDER/bad:3:3: error: 'prnt' starts no statement; is 'print' meant?\n     3 |   prnt 1\n",
                   base=BASE, adds=ADDS, bad="script\n  up\n  prnt 1\n")
        self.fails("FOLDER/bad:2:9: error: there is no variable 'rooms'; the variables are those of FOLDER/base\n",
                   base=BASE, bad="script\n  print rooms\n")
        self.fails("is 'depth' meant?", base=BASE, bad="script\n  print dept\n")

    def test_a_source_as_a_script(self):
        self.fails("FOLDER/bad:1:1: error: a follow-on script has no tree of its own", base=BASE, bad="tree\n  a = 1\nscript\n  up\n")
        self.fails("FOLDER/bad:1:1: error: a follow-on script has no variables of its own", base=BASE, bad="variables\n  a = 1\nscript\n  up\n")
        self.fails("FOLDER/bad: a follow-on script has the section script, and there is none here", base=BASE, bad="# nothing\n")

    def test_a_job_as_a_script(self):
        for text in (BASE, "tree\n  a house = 1\n"):  # one that is refused is a job, too
            self.fails("FOLDER/bad: this is a job; a follow-on script is a script section alone", base=BASE, bad=assembled(text))

    def test_files_that_are_not_there(self):
        self.fails("no/such: No such file or directory", "no/such", base=BASE)
        self.fails("this is UTF-16", base=BASE, bad="script\n  up\n".encode("utf-16"))

    def test_options_that_are_not_there(self):
        self.fails("unrecognized arguments: --other", "--budget", "7", "--other", base=BASE, adds=ADDS)
        done = tool("probe", "a", "b")
        self.assertEqual(done.status, 2)
        self.assertIn("unrecognized arguments: b", done.error)


class Programs(unittest.TestCase):
    def test_history_is_missing(self):
        with Files(base=BASE, adds=ADDS) as path:
            done = run(path("base"), path("adds"), HISTORY="/no/such")
            self.assertEqual((done.status, done.output), (2, ""))
            self.assertIn("the program history is not there: the variable HISTORY names /no/such\n", done.error)
            self.assertIn("make programs", done.error)
            self.assertEqual(run(path("base"), HISTORY="/no/such").status, 0)  # without scripts it is not needed

    def answered(self, answer, *scripts):
        """A history with a monitor that answers this."""
        with scratch() as folder, Files(base=BASE, **{f"s{n}": text for n, text in enumerate(scripts)}) as path:
            program_path = Path(folder, "history")
            program_path.write_text(f"#!/bin/sh\ncat >/dev/null\ncat <<'.'\n{answer}.\n")
            program_path.chmod(0o755)
            return run(path("base"), *(path(f"s{n}") for n in range(len(scripts))), HISTORY=str(program_path))

    LOADED = "variable 0 10\nvariable 1 40\nnode 0 0 0 0 10\nnode 1 0 0 0 3\nnode 1 0 0 1 0\n"
    FIRST = f"job 0\nending 0 index 0 steps 1 lines 0\n{LOADED}"

    def test_history_answers_something_else(self):
        for said in ("", "hello\n", self.FIRST, self.FIRST + "job 1\nending 0 index 0 steps 0 lines 0\n", self.FIRST + "script 2\n",
                     self.FIRST + "script 1\nending x\n", self.FIRST + "truncated\n", "script 0\n"):
            with self.subTest(said):
                done = self.answered(said, SHOWS)
                self.assertEqual((done.status, done.output), (2, ""))
                self.assertIn("history answered in a form that this tool does not know", done.error)

    def test_another_monitor_is_not_explained(self):
        """The reasons come from following the rules. Where the monitor came to another end, the next script is followed from there."""
        left = "variable 0 6\nvariable 1 40\nnode 0 0 0 0 10\nnode 1 0 0 0 9\n"
        done = self.answered(f"{self.FIRST}script 1\nending 21 index 0 steps 0 lines 0\n{left}"
                             f"script 2\nending 22 index 2 steps 2 lines 2\nline 6 0\nline 1 0\n{left}", SHOWS, SHOWS + "  up\n")
        self.assertEqual((done.status, done.error), (1, ""))
        first, second = done.output.split("script 2 of 2\n")
        self.assertIn("came to another end than the monitor", first)
        self.assertNotIn("The rule:", first)
        self.assertIn("The cursor stands on node 0. node 0 is the root", " ".join(second.split()))
        self.assertIn("  node 0 = 10\n  └─ node 1 = 9\n", second)

    def test_another_monitor_refuses(self):
        done = self.answered(f"{self.FIRST}script 1\nending 7 index 3 steps 0 lines 0\n", SHOWS)
        self.assertEqual(done.status, 1)
        self.assertIn("refused with 7 (command or field out of range)\n  at record 3\n", done.output)
        done = self.answered("job 0\nending 6 index 0 steps 0 lines 0\nscript 1\nending 11 index 0 steps 0 lines 0\n", SHOWS)
        self.assertEqual(done.status, 1)
        self.assertTrue(done.output.endswith("refused with 6 (tree rule broken)\n  at record 0\n\nMore: tools/job explain 6\n\n"
                                             "There is no tree for the scripts, so none was run.\n"), done.output)

    def test_another_monitor_accepts(self):
        done = self.answered(f"{self.FIRST}script 1\nending 0 index 0 steps 1 lines 0\n{self.LOADED}", section(b"\x05"))
        self.assertEqual(done.status, 2)
        self.assertIn("the monitor ran this script, and this tool holds that it is refused with 8", done.error)


class Followed(unittest.TestCase):
    def test_generated_histories(self):
        """The checks and the rules as the tool follows them, beside the monitor: the scripts of generated jobs, one after the other over one tree."""
        budget, lines = 400, 3
        jobs = [job.decode(data) for data in generated("clean", 90_000, 300)]
        seen, followed = set(), 0
        for at in range(0, 300, 6):
            first, *others = jobs[at:at + 6]
            places = min(512, len(first.nodes) + 4)
            sections = [job.encode_script(other.records) for other in others]
            sections[1] = sections[1][:-16]  # a block may stay open
            sections[-1] += bytes(1 + at % 15)
            source = job.parse(job.listing(first), "test")
            answers = played(first.encode(), sections, budget, places, lines)
            standing = None
            for data, answer in zip([None] + sections, answers):
                fault = data is not None and job.check_section(data, len(first.variables))
                if fault:
                    self.assertEqual(answer, [f"ending {fault.number} index {fault.index} steps 0 lines 0"])
                    seen.add(fault.number)
                    continue
                script = source if data is None else job.source_of_section(data, "test", source)
                run_of = job.Run(script, job.Limits(budget, places, lines), standing).go()
                index = run_of.at if run_of.ending else 0
                rows = [f"ending {run_of.ending} index {index} steps {run_of.steps} lines {len(run_of.board)}"]
                rows += [f"line {number} {readers}" for number, readers in run_of.board]
                rows += [f"variable {v.level} {value}" for v, value in zip(first.variables, run_of.values)]
                rows += [f"node {n.depth} {n.existence} {n.content} {n.list} {n.value}" for n in job.drawn_tree(run_of.root)]
                self.assertEqual(answer, rows)
                standing = job.Standing(run_of.values, run_of.root)
                seen.add(run_of.ending)
                followed += data is not None and run_of.steps > 0
        self.assertEqual(seen, {0, 7, 8, 11, 21, 22, 23, 24, 25, 27})
        self.assertGreater(followed, 50)

    def test_examples(self):
        found = 0
        for base in examples():
            scripts = scripts_of(base)
            if scripts:
                done = run(str(base), *map(str, scripts))
                self.assertEqual((done.status, done.error), (0, ""))
                self.assertNotIn("another end", done.output)
                boards = [(HOME / "examples" / "expected" / f"{path.stem}.out").read_text().split("\n")[1:-2] for path in [base] + scripts]
                shown = [part.split("\n\n")[0].split("\n")[1:] for part in done.output.split("\nboard, ")[1:]]
                # The tool shows no readers where a line is for everyone.
                self.assertEqual([[f"{row.strip()} 0" for row in rows] for rows in shown], boards)
                found += 1
        self.assertGreaterEqual(found, 1)


if __name__ == "__main__":
    unittest.main()
