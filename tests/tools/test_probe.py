"""probe: boards of many house numbers and house nodes."""

import struct
import unittest
from pathlib import Path

from support import HOME, generated, job, program, scratch, tool

# Counts to 100 and goes up from the root where the count is the number of beds.
LEAK = """\
variables
  c = 0
  beds house = 40
tree
  hotel = 0
script
  while c < 100
    c := c + 1
    print c
    if c = beds
      up
"""


def probe(text, *words):
    """300 runs, unless said otherwise; each small number comes."""
    count = () if "--count" in words else ("--count", "300")
    return tool("probe", "-", *count, *words, data=text, REPLAY=program("replay"))


def said(done):
    return " ".join(done.output.split())


class Leaks(unittest.TestCase):
    def test_the_example(self):
        done = tool("probe", "-", data=LEAK, REPLAY=program("replay"))
        self.assertEqual((done.status, done.error), (1, ""))
        # With 1 to 99 beds the board has as many lines; with 100 it has 100, as with any other number.
        self.assertTrue(done.output.startswith("<standard input>: 1,000 runs with different house numbers, 100 different boards\n"))
        self.assertIn("<standard input>:11:7: stopped with 22 (node does not exist): ", done.output)
        self.assertIn("boards of 1 to 99 lines\n    11 |       up\n       |       ^^\n", done.output)
        self.assertIn("1 line for beds house = 1 ", said(done))
        self.assertIn("show a board only where the run has finished", said(done))
        self.assertIn("with one board of 100 lines.", said(done))
        self.assertNotIn("MUST NOT", done.output)

    def test_lengths_and_runs_are_those_of_the_boards(self):
        table = probe(LEAK).output.split("\n\n")[1]
        rows = [row.split() for row in table.split("\n") if row[:7].strip().isdigit()]
        self.assertEqual([int(row[0]) for row in rows], [1, 2, 3, 4, 5, 6, 95, 96, 97, 98, 99, 100])
        self.assertTrue(all(int(row[1].replace(",", "")) >= 1 for row in rows))

    def test_a_house_node(self):
        """What depends on house nodes that are not in the source."""
        text = "tree\n  resort list house = 1\nscript\n  print 1\n  cover\n  first child\n  root\n  print 2\n"
        done = probe(text)
        self.assertEqual(done.status, 1)
        self.assertIn("2 different boards", done.output)
        self.assertIn(":6:3: stopped with 22", done.output)
        self.assertRegex(said(done), r"2 lines for [0-9]+ house nodes? in place of 0")

    def test_a_house_node_that_is_there(self):
        text = "tree\n  resort list house = 1\n    safe house = 2\nscript\n  print 1\n  cover\n  first child\n  root\n  print 2\n"
        done = probe(text)
        self.assertEqual(done.status, 1)
        self.assertIn("1 line for 0 house nodes in place of 1", said(done))

    def test_a_house_value(self):
        text = "tree\n  resort content house = 5\nscript\n  print 1\n  if value = 77\n    up\n  print 2\n"
        self.assertIn("1 line for resort = 77 ", said(probe(text)))

    def test_two_stops(self):
        text = ("variables\n  h house = 0\ntree\n  resort = 1\nscript\n  print 1\n  if h = 3\n    up\n  print 2\n  if h = 4\n"
                "    first child\n  print 3\n")
        done = probe(text)
        self.assertIn("3 different boards", done.output)
        self.assertIn(":8:5: stopped with 22", done.output)
        self.assertIn(":11:5: stopped with 22", done.output)

    def test_steps_tell_too(self):
        text = "variables\n  h house = 0\ntree\n  resort = 1\nscript\n  print 1\n  while h\n    nothing\n  print 2\n"
        done = probe(text)
        self.assertEqual(done.status, 1)
        self.assertIn("stopped with 25 (budget used up)", done.output)

    def test_a_job(self):
        with scratch() as folder:
            path = Path(folder, "x.job")
            path.write_bytes(job.parse(LEAK, "test").job.encode())
            done = tool("probe", str(path), REPLAY=program("replay"))
        self.assertEqual(done.status, 1)
        self.assertIn("1 line for v1 house = 1 ", said(done))

    def test_a_tree_of_its_own(self):
        with scratch() as folder:
            house, script = Path(folder, "house"), Path(folder, "script")
            house.write_text("variables\n  beds house = 40\ntree\n  hotel = 0\n")
            script.write_text("variables\n  c = 0\nscript\n" + LEAK.split("script\n")[1])
            done = tool("probe", "--tree", str(house), str(script), REPLAY=program("replay"))
        self.assertIn("100 different boards", done.output)


class Silent(unittest.TestCase):
    def test_one_board(self):
        done = probe((HOME / "examples" / "guests.yoke").read_text())
        self.assertEqual((done.status, done.error), (0, ""))
        self.assertTrue(done.output.startswith("<standard input>: 300 runs with different house numbers, one board\n"))
        self.assertIn("      2      300  finished\n", done.output)
        self.assertIn("this tries many, not all", said(done))

    def test_nothing_of_the_house(self):
        done = probe("tree\n  resort = 1\nscript\n  print value\n")
        self.assertEqual((done.status, done.output), (0, "<standard input>: nothing in it belongs to the house, so there is one board\n"))

    def test_a_finished_board_is_one_board(self):
        """The same script with the stop taken out."""
        self.assertEqual(probe(LEAK.replace("up", "nothing")).status, 0)


class Options(unittest.TestCase):
    def test_the_same_seed_says_the_same(self):
        self.assertEqual(probe(LEAK, "--seed", "3").output, probe(LEAK, "--seed", "3").output)
        self.assertNotEqual(probe(LEAK, "--seed", "3").output, probe(LEAK, "--seed", "4").output)

    def test_count(self):
        self.assertTrue(probe(LEAK, "--count", "1").output.startswith("<standard input>: 1 run with different house numbers, one board\n"))
        self.assertIn(": 2,500 runs", probe(LEAK, "--count", "2500").output)

    def test_limits(self):
        done = probe(LEAK, "--lines", "10", "--budget", "500")
        self.assertIn("10 different boards", done.output)
        self.assertIn("24 (board full)", done.output)

    def test_a_refused_job(self):
        for text, words, number in (("tree\n  a house = 1\n", (), 6), (LEAK, ("--budget", "0"), 9)):
            done = probe(text, *words)
            self.assertEqual((done.status, done.output), (1, ""))
            self.assertIn(f"refused with {number} (", done.error)

    def test_a_monitor_that_leaks_is_told_of(self):
        """Boards that are no beginning of one another; here by a program that prints the number of the job."""
        with scratch() as folder:
            path = Path(folder, "replay")
            path.write_text("#!/bin/sh\ncat >/dev/null\nfor k in 0 1 2; do printf 'job %s\\nending 0 index 0 steps 1 lines 1\\nline %s 0\\n' "
                            "$k $k; done\n")
            path.chmod(0o755)
            done = tool("probe", "-", "--count", "3", data=LEAK, REPLAY=str(path))
            short = tool("probe", "-", "--count", "4", data=LEAK, REPLAY=str(path))
        self.assertEqual(done.status, 1)
        self.assertIn("THIS MUST NOT HAPPEN", done.output)
        self.assertEqual((short.status, short.output), (2, ""))
        self.assertIn("replay answered 3 jobs of 4", short.error)


def public_parts(data):
    """The public parts of an accepted job, read from its bytes."""
    variables, nodes, script, trailer = struct.unpack("<4H", data[-8:])
    kept = [data[variables:nodes][at:at + 1] + (b"" if data[at] else data[at + 4:at + 8]) for at in range(0, nodes, 8)]
    ways, count = {}, {}
    for index in range((script - nodes) // 12):
        parent, existence, content, below, value = struct.unpack("<H3B3xi", data[nodes + 12 * index:nodes + 12 * index + 12])
        place = count.get(parent, 0)
        count[parent] = place + 1
        way = ways[index] = () if index == 0 else ways[parent] + (place,)
        if not existence:
            kept.append((way, content, below, None if content else value))
    return sorted(map(repr, kept)), data[script:trailer]


class Variations(unittest.TestCase):
    def test_each_is_accepted_and_has_the_same_public_parts(self):
        changed = 0
        for data in generated("clean", 90_000, 60):
            accepted = job.decode(data)
            variations = job.Variations(accepted, 5, 512)
            wanted = public_parts(data)
            for number in range(40):
                other = variations[number].encode()
                self.assertIsNone(job.check(other))
                self.assertEqual(public_parts(other), wanted)
                self.assertEqual(variations[number].encode(), other)
                changed += other != data
        self.assertGreater(changed, 1_000)

    def test_house_nodes_come_and_go(self):
        text = "tree\n  resort list house = 1\n    slope = 2\n    safe house = 3\n"
        variations = job.Variations(job.parse(text, "test").job, 1, 512)
        counts = {len(variations[number].nodes) for number in range(200)}
        self.assertTrue({2, 3, 4} <= counts, counts)
        tight = job.Variations(job.parse(text, "test").job, 1, 4)
        self.assertEqual({len(tight[number].nodes) for number in range(200)}, {2, 3, 4})


if __name__ == "__main__":
    unittest.main()
