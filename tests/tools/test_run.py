"""run: outcomes with names, lines and reasons. The monitor's answer comes from the repository's inspect."""

import unittest
from pathlib import Path

from support import assembled, examples, generated, job, program, replayed, scratch, tool


def run(text, **variables):
    return tool("run", "-", data=text, **{"INSPECT": program("inspect"), **variables})


def script(*lines, variables="  v = 0\n  h house = 1\n", tree="  resort = 10\n    slope = 3\n"):
    """A source whose script starts in line 2 + its variables + its nodes + 2."""
    return f"variables\n{variables}tree\n{tree}script\n" + "".join(f"  {line}\n" for line in lines)


FIRST = 8  # the line of the script's first statement in script(..) as it is by default


class Finished(unittest.TestCase):
    def test_outcome_with_names(self):
        done = run(script("h := h + value", "new first child content house: 7", "print children", "remove first child",
                          "first child", "set 4"))
        self.assertEqual(done.error, "")
        self.assertEqual(done.output, "<standard input>: finished after 6 steps\n\nboard, 1 line\n  2\n\n"
                         "variables at the end\n  v = 0\n  h house = 11\n\n"
                         "tree at the end\n  resort = 10\n  └─ slope = 4\n")
        self.assertEqual(done.status, 0)

    def test_a_new_node_is_named_for_its_line(self):
        done = run(script("new first child content house: 7"))
        self.assertIn("  ├─ new_8 = 7   [house value]\n", done.output)

    def test_a_job(self):
        with scratch() as folder:
            path = Path(folder, "x.job")
            path.write_bytes(assembled(script("first child", "first child")))
            done = tool("run", str(path), INSPECT=program("inspect"))
        self.assertEqual(done.status, 1)
        self.assertIn("x.job:9:3: stopped with 22 (node does not exist) after 1 step\n", done.output)
        self.assertIn("The cursor stands on n1. n1 has no child.", done.output)


class Stopped(unittest.TestCase):
    def stops(self, text, line, column, number, steps, *parts):
        done = run(text)
        with self.subTest(text):
            self.assertEqual((done.status, done.error), (1, ""))
            first = done.output.split("\n")[0]
            self.assertEqual(first, f"<standard input>:{line}:{column}: stopped with {number} ({job.ENDINGS[number]}) after {steps}")
            quoted = text.split("\n")[line - 1]
            self.assertIn(f"{line:>6} | {quoted}\n", done.output)
            self.assertIn("       | " + " " * (column - 1) + "^", done.output)
            for part in parts:
                self.assertIn(part, " ".join(done.output.split()))
            self.assertIn(f"More: tools/job explain {number}\n", done.output)

    def test_assignment(self):
        self.stops(script("v := h"), FIRST, 3, 21, "0 steps", "v public the variable that should take the number",
                   "h house a variable", "context public no block is open",
                   "Declare a house variable and use it in place of `v`", "do without `h`")

    def test_assignment_in_an_else(self):
        self.stops(script("if h - 1", "  nothing", "else", "  v := 1"), FIRST + 3, 5, 21, "1 step",
                   "context house line 8 (if h - 1) has a house guard", "Put the assignment outside the block of line 8")

    def test_print(self):
        self.stops(script("print value", tree="  resort content house = 10\n"), FIRST - 1, 3, 21, "0 steps",
                   "A board line must be public", "value house the content level of resort", "do without `value`")

    def test_print_of_children(self):
        self.stops(script("print 1 + children", tree="  resort list house = 10\n"), FIRST - 1, 3, 21, "0 steps",
                   "children house the list level of resort", "do without `children`")

    def test_print_under_cover(self):
        self.stops(script("cover", "print value"), FIRST + 1, 3, 21, "1 step", "value house the cursor level joins it",
                   "The cursor level counts only where the expression reads `value` or `children`",
                   "cursor level house since line 8 (cover)", "Write `root` before the print",
                   "Or do without `value`: outside house guards numbers and public variables may be counted")

    def test_where_the_cursor_level_does_not_count(self):
        """It is not among the reasons, and nothing is said against the cover."""
        done = run(script("cover", "v := h"))
        self.assertEqual(done.status, 1, done.output)
        self.assertNotIn("cursor level  ", done.output)
        self.assertNotIn("root", done.output.split("What you can do")[1].split("board")[0])

    def test_set_under_cover(self):
        self.stops(script("cover", "set 1"), FIRST + 1, 3, 21, "1 step", "the expression, the context and the cursor level",
                   "cursor level house since line 8 (cover)", "Write `root` before the set")

    def test_move(self):
        for move in ("first child", "root", "cover"):
            self.stops(script("if h", f"  {move}"), FIRST + 1, 5, 21, "1 step", "The cursor moves only if",
                       "context house line 8 (if h) has a house guard", "Write `cover` before line 8")

    def test_new_node(self):
        self.stops(script("if h", "  new first child: 1"), FIRST + 1, 5, 21, "1 step", "list of resort public the parent",
                   "existence of slope public would stand right of the new node", "`resort list house = ...`",
                   "House nodes stand right of all public siblings")

    def test_new_sibling(self):
        self.stops(script("first child", "if h", "  new right sibling: 1"), FIRST + 2, 5, 21, "2 steps",
                   "list of resort public the parent", "`resort list house = ...`")

    def test_removal(self):
        self.stops(script("if h", "  remove first child"), FIRST + 1, 5, 21, "1 step", "existence of slope public the node to remove",
                   "A house node may be removed here")

    def test_set(self):
        self.stops(script("set h"), FIRST, 3, 21, "0 steps", "content of resort public the node that should take the value",
                   "`resort content house = ...`", "do without `h`")

    def test_missing_nodes(self):
        self.stops(script("up"), FIRST, 3, 22, "0 steps", "resort is the root: it has no parent and no siblings")
        self.stops(script("new right sibling: 1"), FIRST, 3, 22, "0 steps", "resort is the root")
        self.stops(script("first child", "remove first child"), FIRST + 1, 3, 22, "1 step", "slope has no child", "`if children`")
        self.stops(script("first child", "right sibling"), FIRST + 1, 3, 22, "1 step", "slope has no sibling to its right")
        self.stops(script("last child", "left sibling"), FIRST + 1, 3, 22, "1 step", "slope has no sibling to its left", "go left one time less")
        self.stops(script("first child", "last child"), FIRST + 1, 3, 22, "1 step", "slope has no child", "`if children`")
        self.stops(script("left sibling"), FIRST, 3, 22, "0 steps", "resort is the root: it has no parent and no siblings")

    def test_the_last_child_of_a_house_list(self):
        """Where it stands is a house matter, though it is a public node itself; from the front it is not."""
        tree = "  resort list house = 10\n    slope = 3\n    lake = 4\n"
        lines = ["last child", "print value"]
        self.stops(script(*lines, tree=tree), FIRST + 2, 3, 21, "1 step", "cursor level house since line 9 (last child)",
                   "Write `root`, `first child`, `right sibling` before the print", "`value` will be that of lake, as now.")
        done = run(script("first child", "right sibling", "print value", tree=tree))
        self.assertEqual(done.status, 0, done.output)

    def test_an_end_that_cannot_come_back(self):
        lines = ["first child", "if 1 and come back", "  up", "  remove first child", "print value"]
        self.stops(script(*lines), FIRST + 1, 3, 22, "4 steps", "at the end of the block that this line opens",
                   "The block of line 9 began on slope, where its end would bring the cursor back. That node was removed inside the block, by itself "
                   "or with a node above it.", "Remove it after the block, or begin the block on a node that stays.")
        # Another node in its place is another node.
        lines.insert(4, "  new first child: 4")
        self.stops(script(*lines), FIRST + 1, 3, 22, "5 steps", "The block of line 9 began on slope")
        # It goes with the node above it.
        tree = "  resort = 10\n    slope = 3\n      hut = 1\n"
        lines = ["first child", "first child", "if 1 and come back", "  root", "  remove first child", "else", "  nothing"]
        self.stops(script(*lines, tree=tree), FIRST + 3, 3, 22, "6 steps", "The block of line 11 began on hut")

    def test_levels_inside_an_if_that_comes_back(self):
        self.stops(script("if h and come back", "  v := value"), FIRST + 1, 5, 21, "1 step",
                   "context house line 8 (if h and come back) has a house guard", "cursor level house since line 8 (if h and come back)",
                   "Put the assignment outside the block of line 8")
        self.assertNotIn("Write `root`", run(script("if h and come back", "  v := value")).output)

    def test_results_out_of_range(self):
        self.stops(script("v := 2147483647 + 1"), FIRST, 3, 27, "0 steps", "from -2147483648 to 2147483647",
                   "2147483647 + 1 is 2147483648, which is above them", "take `mean`")
        self.stops(script("if -2147483648 - 1", "  nothing"), FIRST, 3, 27, "0 steps", "-2147483648 - 1 is -2147483649, which is below them")
        self.stops(script("set value - -2147483648"), FIRST, 3, 27, "0 steps", "10 - (-2147483648) is 2147483658, which is above them")
        self.stops(script("while 1", "  v := v + 2000000000"), FIRST + 1, 5, 27, "4 steps", "2000000000 + 2000000000 is 4000000000",
                   "Look at the loop of line 8, `while 1`")

    def test_order_of_a_result_out_of_range(self):
        self.stops(script("new right sibling: 2147483647 + 1"), FIRST, 3, 22, "0 steps", "resort is the root")
        self.stops(script("v := 2147483647 + h"), FIRST, 3, 21, "0 steps", "h house a variable")

    def test_full_table(self):
        self.stops(script("while 1", "  new first child: 1"), FIRST + 1, 5, 23, "1,531 steps",
                   "The tree has 512 nodes, and there is room for 512", "Look at the loop of line 8, `while 1`")

    def test_full_board(self):
        self.stops(script("while 1", "  print 1"), FIRST + 1, 5, 24, "769 steps", "The board has 256 lines", "`while 1`")

    def test_used_budget(self):
        # 100,000 steps are 33,333 rounds of while, nothing, end, and one while: nothing is next.
        self.stops(script("while 1", "  nothing"), FIRST + 1, 5, 25, "100,000 steps", "Look at the loop of line 8, `while 1`")

    def test_used_budget_at_an_end(self):
        # The while costs two steps a round behind one step: after 100,000 steps the end is next.
        self.stops(script("nothing", "while 1", "  empty"), FIRST + 1, 3, 25, "100,000 steps", "at the end of the block that this line opens")

    def test_a_larger_budget(self):
        """After a 25 it says what a larger budget can and cannot change, and it is so."""
        text = script("while v < 5", "  v := v + 1", "  print v", "first child", "set 7")
        said = "What a larger budget does:"
        boards = []
        for budget in (1, 7, 8, 20, 21, 22, 1_000_000):
            done = tool("run", "-", "--budget", str(budget), data=text, REPLAY=program("replay"))
            self.assertEqual(said in done.output, budget < 23)
            boards.append(done.output.split("\nboard, ")[1].split("\n\n")[0].split("\n")[1:])
        for smaller, larger in zip(boards, boards[1:]):
            self.assertEqual(larger[:len(smaller)], smaller)
        self.assertEqual(boards[-1], [f"  {n}" for n in range(1, 6)])
        done = tool("run", "-", "--budget", "7", data=text, REPLAY=program("replay"))
        self.assertIn("the lines below stay, the first ones of the board", " ".join(done.output.split()))
        self.assertEqual([row for row in done.output.split("\n") if len(row) > 79], [])

    def test_no_larger_budget(self):
        """There is none above 1,000,000, and after another stop none would change anything."""
        forever = script("while 1", "  nothing")
        done = tool("run", "-", "--budget", "1000000", data=forever, REPLAY=program("replay"))
        self.assertIn("stopped with 25", done.output)
        self.assertNotIn("larger budget", done.output)
        self.assertNotIn("larger budget", run(script("up")).output)


class Advice(unittest.TestCase):
    """What the advice says, done: the run comes past the line that stopped it."""

    def advised(self, before, stopping, advice, after, **sections):
        """The lines before and the one that stops; part of the advice; the script as the advice wants it."""
        done = run(script(*before, stopping, **sections))
        self.assertEqual(done.status, 1, done.output)
        self.assertIn(advice, " ".join(done.output.split()))
        then = run(script(*after, **sections))
        self.assertEqual(then.status, 0, then.output)
        return done.output

    def test_new_right_sibling_under_cover(self):
        """`root` alone before it would end in 22: the root has no siblings."""
        output = self.advised(
            ["first child", "cover"], "new right sibling: 1",
            "Write `root`, `first child` before the new node: outside house guards `root` makes the cursor level public again. "
            "The cursor then stands on slope, as now.",
            ["first child", "cover", "root", "first child", "new right sibling: 1"])
        self.assertNotIn("`root` before", output)

    def test_remove_right_sibling_under_cover(self):
        tree = "  resort = 1\n" + "".join(f"    n{n} = {n}\n" for n in range(5))
        moves = ["first child"] + ["right sibling"] * 3
        self.advised([*moves, "cover"], "remove right sibling",
                     "Write `root`, `first child`, `right sibling` 3 times before the removal",
                     [*moves, "cover", "root", *moves, "remove right sibling"], tree=tree)

    def test_whose_value_is_printed(self):
        self.advised(["first child", "cover"], "print value",
                     "Write `root`, `first child` before the print: outside house guards `root` makes the cursor level public again. "
                     "`value` will be that of slope, as now.",
                     ["first child", "cover", "root", "first child", "print value"])
        self.advised(["cover"], "print value", "Write `root` before the print: outside house guards `root` makes the cursor level "
                     "public again. `value` will be that of resort, the root.", ["cover", "root", "print value"])

    def test_whose_value_is_printed_where_the_node_is_house(self):
        tree = "  resort list house = 10\n    safe house = 3\n"
        self.advised(["first child"], "print value", "Write `root` before the print: outside house guards `root` makes the cursor level "
                     "public again. `value` will be that of resort, the root.", ["first child", "root", "print value"], tree=tree)

    def test_no_advice_where_the_root_is_no_better(self):
        done = run(script("first child", "print value", tree="  resort content house list house = 10\n    safe house = 3\n"))
        self.assertNotIn("Write `root`", done.output)

    def test_a_count_goes_on_under_cover(self):
        self.advised(["cover", "if h", "  first child", "v := v + 1"], "print value",
                     "Or do without `value`: outside house guards numbers and public variables may be counted and printed, wherever the "
                     "cursor stands.", ["cover", "if h", "  first child", "v := v + 1", "print v"])
        self.advised(["cover"], "v := v + value", "Or do without `value`", ["cover", "v := v + 1"])

    def test_no_such_word_where_it_is_a_house_number_anyway(self):
        done = run(script("cover", "print value", tree="  resort content house = 10\n"))
        self.assertNotIn("Or do without", done.output)
        done = run(script("cover", "set value"))
        self.assertNotIn("Or do without", done.output)

    def test_children_and_value(self):
        self.advised(["cover"], "v := value + children", "`value` and `children` will be those of resort, the root.",
                     ["cover", "root", "v := value + children"])

    def test_in_a_block_and_under_cover(self):
        self.advised(["cover", "if h"], "  print 1", "Put the print outside the block of line 9",
                     ["cover", "if h", "  nothing", "print 1"])
        self.assertNotIn("Write `root`", run(script("cover", "if h", "  print 1")).output)
        self.advised(["cover", "if h"], "  print value", "Put the print outside the block of line 9",
                     ["cover", "if h", "  nothing", "root", "print value"])
        self.assertIn("Write `root` before the print there", run(script("cover", "if h", "  print value")).output)

    def test_a_mean_in_place_of_a_sum(self):
        self.advised(["v := 2147483647"], "v := v + 1", "For an average take `mean`: it is exact, and never leaves the range.",
                     ["v := 2147483647", "v := mean(v, 1)"])

    def test_cover_before_a_move(self):
        self.advised(["if h"], "  first child", "Write `cover` before line 8", ["cover", "if h", "  first child", "root", "print value"])

    def test_coming_back_from_a_move(self):
        self.advised(["if h"], "  first child", "Or write `if h and come back` in line 8: the cursor may then move inside the block, and is where "
                     "it was at its end.", ["if h and come back", "  first child", "print value"])
        self.assertNotIn("and come back", run(script("while h", "  first child")).output)

    def test_levels_that_a_node_has_already_are_kept(self):
        done = run(script("set h", tree="  resort list house = 10\n"))
        self.assertIn("`resort content house list house = ...`", " ".join(done.output.split()))
        self.assertEqual(run(script("set h", tree="  resort content house list house = 10\n")).status, 0)

    def test_a_node_that_the_script_makes(self):
        self.advised(["new first child: 1", "first child"], "set h", "Write `content house` where line 8 makes the node.",
                     ["new first child content house: 1", "first child", "set h"])
        self.advised(["new first child: 1", "first child", "if h"], "  new first child: 1", "Write `list house` where line 8 makes the node.",
                     ["new first child list house: 1", "first child", "if h", "  new first child: 1"])

    def test_no_child_where_the_list_is_house(self):
        self.advised([], "first child", "The list is house, so that is a house guard: write `cover` before it",
                     ["cover", "if children", "  first child"], tree="  resort list house = 10\n")

    def test_an_only_node_cannot_go_down(self):
        self.assertIn("Leave it out", run(script("up", tree="  resort = 10\n")).output)

    def test_more_by_option(self):
        self.assertIn("`--budget 1000000`", run(script("while 1", "  nothing")).output)
        loop = script("while 1", "  new first child: 1")
        self.assertNotIn("--places", run(loop).output)
        self.assertIn("`--places 512`", tool("run", "-", "--places", "5", data=loop, REPLAY=program("replay")).output)


class Refused(unittest.TestCase):
    def test_a_tree_rule(self):
        done = run("tree\n  resort = 1\n    safe house = 2\n")
        self.assertEqual(done.status, 1)
        self.assertTrue(done.output.startswith("<standard input>:3:5: refused with 6 (tree rule broken)\n"), done.output)
        self.assertIn("     3 |     safe house = 2\n       |     ^^^^\n", done.output)
        self.assertIn("safe: it is a house node under resort, whose list level is public.", done.output)

    def test_no_node(self):
        done = run("script\n  up\n")
        self.assertEqual(done.status, 1)
        self.assertTrue(done.output.startswith("<standard input>: refused with 3 (count out of range)\n"), done.output)

    def test_an_empty_job(self):
        with scratch() as folder:
            path = Path(folder, "x.job")
            path.write_bytes(b"")
            done = tool("run", str(path), INSPECT=program("inspect"))
        self.assertEqual(done.status, 1)
        self.assertIn("refused with 1 (wrong size): the job has 0 bytes", done.output)

    def test_a_damaged_job(self):
        done = run(bytes(8))
        self.assertEqual(done.status, 1)
        self.assertIn("<standard input>: refused with 3 (count out of range): the job has 0 nodes", done.output)


class Programs(unittest.TestCase):
    def test_inspect_is_missing(self):
        done = run("tree\n  a = 1\n", INSPECT="/no/such/program")
        self.assertEqual((done.status, done.output), (2, ""))
        self.assertIn("inspect is not there", done.error)
        self.assertIn("make programs", done.error)

    def test_inspect_answers_something_else(self):
        with scratch() as folder:
            path = Path(folder, "inspect")
            path.write_text("#!/bin/sh\ncat >/dev/null\necho hello\n")
            path.chmod(0o755)
            done = run("tree\n  a = 1\n", INSPECT=str(path))
        self.assertEqual((done.status, done.output), (2, ""))
        self.assertIn("'ending' expected in line 1, there is 'hello'", done.error)

    def answered(self, text, answer):
        """A run with a monitor that answers this, whatever the job."""
        with scratch() as folder:
            path = Path(folder, "inspect")
            path.write_text(f"#!/bin/sh\ncat >/dev/null\ncat <<'.'\n{answer}.\n")
            path.chmod(0o755)
            return run(text, INSPECT=str(path))

    def test_another_monitor_is_not_explained(self):
        """The reasons come from following the rules; they are shown only where the monitor came to the same end."""
        done = self.answered("tree\n  a = 1\nscript\n  print value\n",
                             "ending 21 flow rule broken\nrecord 0\nsteps 0\nlines 0\n"
                             "variables 0\ntree 1\n  value 1, existence 0, content 0, list 0\n")
        self.assertEqual(done.status, 1)
        self.assertIn("came to another end than the monitor", done.output)
        self.assertNotIn("The rule:", done.output)

    def test_another_monitor_refuses(self):
        done = self.answered("tree\n  a = 1\n", "ending 6 tree rule broken\nrecord 4\n")
        self.assertEqual(done.status, 1)
        self.assertIn("refused with 6 (tree rule broken)\n  at record 4\n", done.output)

    def test_another_monitor_accepts(self):
        done = self.answered("script\n  up\n", "ending 0 finished\nrecord 0\nsteps 0\nlines 0\nvariables 0\ntree 0\n")
        self.assertEqual((done.status, done.output), (2, ""))
        self.assertIn("this tool holds that it is refused with 3", done.error)


class Followed(unittest.TestCase):
    def test_generated_jobs(self):
        """The rules as the tool follows them, beside the monitor."""
        budget = 1_500
        jobs = generated("clean", 70_000, 400)
        places = [min(512, len(job.decode(data).nodes) + 2) for data in jobs]
        seen = set()
        for data, room, answer in zip(jobs, places, replayed(jobs, budget, places, 3)):
            source = job.parse(job.listing(job.decode(data)), "test")
            state = job.Run(source, job.Limits(budget, room, 3)).go()
            index = state.at if state.ending else 0
            rows = [f"ending {state.ending} index {index} steps {state.steps} lines {len(state.board)}"]
            rows += [f"line {number} {readers}" for number, readers in state.board]
            rows += [f"variable {v.level} {value}" for v, value in zip(source.job.variables, state.values)]
            rows += [f"node {n.depth} {n.existence} {n.content} {n.list} {n.value}" for n in job.drawn_tree(state.root)]
            self.assertEqual(answer, rows, data.hex())
            seen.add(state.ending)
            if state.ending:
                self.assertTrue(job.account_lines(job.Account(state)))
        self.assertEqual(seen, {0, 21, 22, 23, 24, 25, 27})

    def test_examples(self):
        for path in examples():
            with self.subTest(path.name):
                done = tool("run", str(path), INSPECT=program("inspect"))
                self.assertNotIn("another end", done.output)
                self.assertEqual(done.error, "")


if __name__ == "__main__":
    unittest.main()
