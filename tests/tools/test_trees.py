"""A tree and a script in files of their own, limits by option, traces."""

import unittest
from pathlib import Path

from support import assembled, program, scratch, tool

HOUSE = """\
variables
  beds house = 40
tree
  hotel = 4
    west content house = 31
    main = 52
"""

SCRIPT = """\
# A hotel's script.
variables
  left = 0
script
  left := children
  print left
  first child
  beds := beds + value
"""

WHOLE = """\
variables
  beds house = 40
  left = 0
tree
  hotel = 4
    west content house = 31
    main = 52
script
  left := children
  print left
  first child
  beds := beds + value
"""


class Files:
    """Files in a folder of their own, for as long as it is used."""

    def __init__(self, **texts):
        self.folder = scratch()
        self.texts = texts

    def __enter__(self):
        folder = Path(self.folder.__enter__())
        for name, text in self.texts.items():
            (folder / name).write_bytes(text if isinstance(text, bytes) else text.encode())
        return lambda name: str(folder / name)

    def __exit__(self, *problem):
        return self.folder.__exit__(*problem)


def run(*words, **more):
    return tool("run", *words, INSPECT=program("inspect"), REPLAY=program("replay"), **more)


class Trees(unittest.TestCase):
    def test_assemble(self):
        with Files(house=HOUSE, script=SCRIPT) as path:
            done = tool("assemble", "--tree", path("house"), path("script"), "-o", "-")
            self.assertEqual((done.status, done.error, done.bytes), (0, "", assembled(WHOLE)))
            self.assertEqual(tool("assemble", "--tree", path("house"), path("script")).status, 0)
            self.assertEqual(Path(path("script.job")).read_bytes(), assembled(WHOLE))

    def test_a_tree_of_a_job(self):
        with Files(house=assembled(HOUSE), script=SCRIPT.replace("beds", "v0")) as path:
            done = tool("assemble", "--tree", path("house"), path("script"), "-o", "-")
            self.assertEqual((done.status, done.bytes), (0, assembled(WHOLE)))

    def test_run(self):
        with Files(house=HOUSE, script=SCRIPT) as path:
            done = run("--tree", path("house"), path("script"))
            self.assertEqual((done.status, done.error), (0, ""))
            self.assertEqual(done.output, f"{path('script')}: finished after 4 steps\n\nboard, 1 line\n  2\n\nvariables at the end\n"
                             "  beds house = 71\n  left = 2\n\ntree at the end\n  hotel = 4\n  ├─ west = 31   [house value]\n"
                             "  └─ main = 52\n")

    def test_standard_input_is_one_of_them(self):
        with Files(house=HOUSE, script=SCRIPT) as path:
            self.assertEqual(run("--tree", path("house"), "-", data=SCRIPT).status, 0)
            self.assertEqual(run("--tree", "-", path("script"), data=HOUSE).status, 0)
            done = run("--tree", "-", "-", data=HOUSE)
            self.assertEqual(done.status, 2)
            self.assertIn("one of the files, not two", done.error)

    def test_a_stop_is_shown_in_the_script(self):
        with Files(house=HOUSE, script=SCRIPT + "  print beds\n") as path:
            done = run("--tree", path("house"), path("script"))
            self.assertEqual(done.status, 1)
            self.assertTrue(done.output.startswith(f"{path('script')}:9:3: stopped with 21 (flow rule broken) after 4 steps\n\n"
                                                   "     9 |   print beds\n       |   ^^^^^^^^^^\n"), done.output)

    def test_a_fault_of_the_tree_is_shown_in_the_tree(self):
        with Files(house=HOUSE + "    safe house = 7\n", script=SCRIPT) as path:
            done = run("--tree", path("house"), path("script"))
            self.assertEqual(done.status, 1)
            self.assertTrue(done.output.startswith(f"{path('house')}:7:5: refused with 6 (tree rule broken)\n\n"
                                                   "     7 |     safe house = 7\n"), done.output)
            done = tool("assemble", "--tree", path("house"), path("script"), "-o", "-")
            self.assertTrue(done.error.startswith(f"{path('house')}:7:5: warning: the monitor refuses"), done.error)

    def test_mistakes(self):
        for house, script, where, message in (
                (HOUSE, SCRIPT.replace("left", "beds"), ("script", 3, 3), "'beds' is declared twice, first in line 2 of "),
                (HOUSE, "tree\n  a = 1\nscript\n  up\n", ("script", 1, 1), "the tree comes from "),
                (HOUSE + "script\n  up\n", SCRIPT, ("house", 7, 1), "a tree in a file of its own has no script"),
                (HOUSE, SCRIPT.replace("beds", "bed"), ("script", 8, 3), "there is no variable 'bed'; is 'beds' meant?"),
                (HOUSE.replace("4", "x", 1), SCRIPT, ("house", 2, 16), "")):
            with self.subTest(message), Files(house=house, script=script) as path:
                done = run("--tree", path("house"), path("script"))
                self.assertEqual((done.status, done.output), (2, ""))
                name, line, column = where
                self.assertTrue(done.error.startswith(f"{path(name)}:{line}:{column}: error: {message}"), done.error)

    def test_jobs_where_they_do_not_belong(self):
        with Files(house=HOUSE, whole=assembled(WHOLE)) as path:
            done = run("--tree", path("whole"), "-", data=SCRIPT)
            self.assertEqual(done.status, 2)
            self.assertIn("this job has one of 4 records", done.error)
            done = run("--tree", path("house"), path("whole"))
            self.assertEqual(done.status, 2)
            self.assertIn("this is a job, which has a tree", done.error)

    def test_a_script_alone_is_told_of_the_option(self):
        text = "script\n  up\n"
        self.assertIn("--tree TREE", run("-", data=text).output)
        self.assertIn("--tree TREE", tool("assemble", "-", "-o", "-", data=text).error)


LOOP = "tree\n  resort = 1\nscript\n  while 1\n    print 7\n    new first child: 2\n"


class Limits(unittest.TestCase):
    def ends(self, number, steps, *options):
        done = run("-", *options, data=LOOP)
        self.assertEqual((done.status, done.error), (1, ""))
        self.assertRegex(done.output.split("\n")[0], rf"stopped with {number} \(.*\) after {steps}$")
        self.assertNotIn("another end", done.output)
        return done.output

    def test_budget(self):
        self.assertIn("The script has used its 7 steps", self.ends(25, "7 steps", "--budget", "7"))

    def test_lines(self):
        # Rounds of while, print, new, end: the third print is step 10.
        self.assertIn("there is room for 2.", self.ends(24, "9 steps", "--lines", "2"))
        self.assertIn("there is room for 0.", self.ends(24, "1 step", "--lines", "0"))

    def test_places(self):
        # The root and two new nodes fill three places; the third new node is step 11.
        self.assertIn("The tree has 3 nodes, and there is room for 3", self.ends(23, "10 steps", "--places", "3"))

    def test_all_three(self):
        # 511 rounds of four steps, a while and a print.
        self.ends(23, "2,046 steps", "--lines", "1024", "--budget", "1000000", "--places", "512")

    def test_more_than_the_board_runner_has(self):
        text = "variables\n  n = 300\ntree\n  resort = 1\nscript\n  while n\n    print n\n    n := n - 1\n"
        self.assertEqual(run("-", data=text).status, 1)
        done = run("-", "--lines", "300", data=text)
        self.assertEqual(done.status, 0)
        self.assertIn("board, 300 lines\n", done.output)

    def test_limits_that_are_refused(self):
        for option, value, number, said in (("--budget", "0", 9, "the budget is 0; it must be 1 to 1,000,000"),
                                            ("--budget", "1000001", 9, "the budget is 1,000,001"),
                                            ("--places", "0", 10, "there are 0 places; there must be 1 to 512"),
                                            ("--places", "513", 10, "there are 513 places")):
            done = run("-", option, value, data=LOOP)
            self.assertEqual(done.status, 1)
            self.assertIn(f"refused with {number} (", done.output)
            self.assertIn(said, done.output)
        done = run("-", "--places", "1", data="tree\n  a = 1\n    b = 1\n")
        self.assertIn("there is 1 place for 2 nodes", done.output)


TRACED = """\
variables
  n = 2
  h house = 1
tree
  resort list house = 1
    slope = 3
script
  while n
    n := n - 1
  cover
  if h
    first child
    new right sibling: n + 5
    remove right sibling
    h := value
  else
    empty
  root
  set 9
  print value
  up
"""

TRACE = """\
   step   line  record  statement                 context  cursor  its level  what changed
      1      8       0  while n                   public   resort  public     into the block
      2      9       1  n := n - 1                public   resort  public     n = 1
      3      8       2  end                       public   resort  public     to line 8, record 0
      4      8       0  while n                   public   resort  public     into the block
      5      9       1  n := n - 1                public   resort  public     n = 0
      6      8       2  end                       public   resort  public     to line 8, record 0
      7      8       0  while n                   public   resort  public     to line 10, record 3
      8     10       3  cover                     public   resort  public     cursor on resort, house
      9     11       4  if h                      public   resort  house      into the block
     10     12       5  first child               house    resort  house      cursor on slope, house
     11     13       6  new right sibling: n + 5  house    slope   house      new_13 = 5 under resort, house
     12     14       7  remove right sibling      house    slope   house      new_13 is gone
     13     15       8  h := value                house    slope   house      h = 3
     14     16       9  else                      house    slope   house
     15     11      10  end                       house    slope   house
     16     18      11  root                      public   slope   house      cursor on resort, public
     17     19      12  set 9                     public   resort  public     resort = 9
     18     20      13  print value               public   resort  public     board line 1: 9
      -     21      14  up                        public   resort  public     stopped with 22 (node does not exist)
"""


class Traces(unittest.TestCase):
    def test_a_line_for_each_step(self):
        done = run("-", "--trace", data=TRACED)
        self.assertEqual((done.status, done.error), (1, ""))
        trace, rest = done.output.split("\n\n", 1)
        self.assertEqual(trace + "\n", TRACE)
        self.assertEqual(rest, run("-", data=TRACED).output)

    def test_an_if_that_comes_back(self):
        source = ("variables\n  h house = 1\ntree\n  valley = 7\n    lodge = 40\nscript\n"
                  "  if h and come back\n    first child\n  else\n    cover\n  if 0 and come back\n    up\n  print value\n")
        trace = run("-", "--trace", data=source).output.split("\n\n", 1)[0]
        self.assertEqual(trace, """\
   step   line  record  statement           context  cursor  its level  what changed
      1      7       0  if h and come back  public   valley  public     valley is remembered, public; the cursor level is house; into the block
      2      8       1  first child         house    valley  house      cursor on lodge, house
      3      9       2  else                house    lodge   house      to line 7, record 4
      4      7       4  end                 house    lodge   house      back to valley, public
      5     11       5  if 0 and come back  public   valley  public     valley is remembered, public; the cursor level is public; to line 11, record 7
      6     11       7  end                 public   valley  public     back to valley, public
      7     13       8  print value         public   valley  public     board line 1: 7""")

    def test_with_a_budget(self):
        done = run("-", "--trace", "--budget", "2", data=TRACED)
        rows = done.output.split("\n")
        self.assertTrue(rows[3].endswith("stopped with 25 (budget used up)"), rows[3])
        self.assertEqual(rows[4], "")

    def test_a_finished_run(self):
        rows = run("-", "--trace", data="tree\n  a = 1\nscript\n  print 4\n").output.split("\n")
        self.assertEqual(rows[2:4], ["", "<standard input>: finished after 1 step"])


if __name__ == "__main__":
    unittest.main()
