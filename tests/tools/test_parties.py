"""Levels as sets of parties: their names in sources, what they become in bytes, and what a reader is handed."""

import unittest

from support import HOME, assembled, job, tool

PARTIES = "parties house, alpina, buses\n"
TREE = "tree\n  resort list house+alpina+buses = 10\n    slope alpina = 3\n"


def records(script, head=PARTIES):
    return job.parse(head + TREE.replace("house+", "") + "script\n" + "".join(f"  {line}\n" for line in script), "test").job.records


class Names(unittest.TestCase):
    def test_sets(self):
        parsed = job.parse(PARTIES + "variables\n  a house = 1\n  b alpina = 2\n  c buses = 3\n  d alpina+buses = 4\n  e = 5\n" + TREE, "test").job
        self.assertEqual([variable.level for variable in parsed.variables], [1, 2, 4, 6, 0])
        self.assertEqual([tuple(node[1:4]) for node in parsed.nodes], [(0, 0, 7), (2, 2, 2)])

    def test_old_sources_mean_what_they_meant(self):
        parsed = job.parse("variables\n  a house = 1\n  b public = 2\ntree\n  resort list house = 1\n    safe house = 2\n"
                           "script\n  cover\n  new first child content house list house: 1\n  print 1\n", "test").job
        self.assertEqual([variable.level for variable in parsed.variables], [1, 0])
        self.assertEqual([tuple(node[1:4]) for node in parsed.nodes], [(0, 0, 1), (1, 1, 1)])
        self.assertEqual([(r.command, r.target, r.content_set, r.list_set) for r in parsed.records], [(16, 0, 0, 0), (11, 3, 0, 0), (6, 0, 0, 0)])

    def test_faults(self):
        for source, said in (
                ("parties house, house\ntree\n  a = 1\n", "'house' is named twice"),
                ("parties house, public\ntree\n  a = 1\n", "'public' is a word of the language"),
                ("parties a, b, c, d, e, f, g, h, i\ntree\n  a = 1\n", "there are 9 parties; there may be 8"),
                ("variables\n  a alpina = 1\ntree\n  a = 1\n", "'alpina' stands where '=' is expected"),
                (PARTIES + "variables\n  a alpina+hotel = 1\ntree\n  a = 1\n", "'hotel' stands where 'public' or 'house' or 'alpina' or 'buses' is expected"),
                (PARTIES + "tree\n  a = 1\nscript\n  print 1 for\n", "is missing")):
            with self.subTest(source):
                with self.assertRaises(job.SourceError) as caught:
                    job.parse(source, "test")
                self.assertIn(said, str(caught.exception))


class Records(unittest.TestCase):
    def test_readers(self):
        found = records(["print 1", "print 1 for house", "print value - 2 for alpina+buses", "print 1 for public"])
        self.assertEqual([record.target for record in found], [0, 1, 6, 0])

    def test_covers(self):
        self.assertEqual([record.content_set for record in records(["cover", "cover house", "cover alpina+buses"])], [0, 1, 6])

    def test_new_nodes(self):
        found = records(["new first child content house: 1", "new first child content alpina: 1", "new first child list house+buses: 1",
                         "new first child content alpina+house list house+house: 1", "new first child content public+house: 1"])
        self.assertEqual([(r.target, r.content_set, r.list_set) for r in found], [(1, 0, 0), (0, 2, 0), (2, 0, 4), (2, 3, 1), (0, 1, 0)])

    def test_list_and_assemble_undo_each_other(self):
        source = PARTIES + "variables\n  a alpina = 1\n" + TREE + "script\n"
        for mark in range(4):
            for first in (0, 1, 2, 3, 6, 255):
                for second in (0, 1, 4, 5):
                    record = job.Record(11, mark, content_set=first, list_set=second)
                    data = job.parse(source, "test").job._replace(records=[record, job.Record(16, content_set=first), job.Record(6, first)]).encode()
                    self.assertIsNone(job.check(data))
                    self.assertEqual(assembled(job.listing(job.decode(data))), data)

    def test_bytes(self):
        data = assembled(PARTIES + TREE + "script\n  new first child content house+alpina list buses: 9\n  cover buses\n  print 1 for alpina\n")
        self.assertEqual(data[24:72].hex(), "0b010000000204000900000000000000" "10000000000400000000000000000000" "06020000000000000100000000000000")


class Checks(unittest.TestCase):
    def fault(self, nodes):
        found = job.check(job.Job([], [job.Node(*node) for node in nodes], []).encode())
        return found and (found.number, found.index)

    def test_tree_rules(self):
        root = (65535, 0, 0, 7, 0)
        self.assertIsNone(self.fault([root, (0, 2, 6, 2, 0), (0, 6, 6, 7, 0)]))
        self.assertEqual(self.fault([root, (0, 2, 2, 2, 0), (0, 4, 4, 4, 0)]), (6, 2))  # neither contains the other
        self.assertEqual(self.fault([root, (0, 2, 4, 2, 0)]), (6, 1))
        self.assertEqual(self.fault([root, (0, 2, 2, 4, 0)]), (6, 1))
        self.assertEqual(self.fault([(65535, 0, 0, 6, 0), (0, 1, 1, 1, 0)]), (6, 1))

    def test_no_4(self):
        data = job.Job([job.Variable(255, 0)], [job.Node(65535, 0, 0, 0, 0)], []).encode()
        self.assertIsNone(job.check(data))
        for edition in (job.STORED, job.UNORDERED):
            self.assertEqual(job.check(data, edition).number, 4)

    def test_spare(self):
        for record, number in ((job.Record(16, content_set=2), None), (job.Record(16, list_set=2), 12), (job.Record(6, 2), None), (job.Record(15, 2), 12),
                               (job.Record(6, 2, content_set=1), 12), (job.Record(11, 0, content_set=2, list_set=4), None)):
            data = job.Job([], [job.Node(65535, 0, 0, 0, 0)], [record]).encode()
            fault = job.check(data)
            self.assertEqual(fault and fault.number, number)
            old = job.check(data, job.UNORDERED)
            self.assertEqual(old.number, 12)


class Runs(unittest.TestCase):
    def board(self, script, variables=""):
        source = job.parse(PARTIES + variables + TREE + "script\n" + "".join(f"  {line}\n" for line in script), "test")
        run = job.Run(source).go()
        return run.ending, run.at, run.board

    def test_lines(self):
        two = "variables\n  beds alpina = 5\n  seats buses = 6\n"
        self.assertEqual(self.board(["print beds for alpina", "print beds + seats for alpina+buses", "print beds for buses"], two), (21, 2, [(5, 2), (11, 6)]))
        self.assertEqual(self.board(["if seats", "  print 1 for alpina"], two), (21, 1, []))

    def test_covers_join(self):
        self.assertEqual(self.board(["cover alpina", "cover buses", "print value for alpina+buses", "print value for buses"]), (21, 3, [(10, 6)]))

    def test_example(self):
        source = job.parse((HOME / "examples" / "hotels.yoke").read_text(encoding="utf-8"), "hotels")
        wanted = (HOME / "examples" / "expected" / "hotels.out").read_text(encoding="utf-8").splitlines()[1:-1]
        self.assertEqual([f"{value} {readers}" for value, readers in job.Run(source).go().board], wanted)

    def test_what_a_reader_sees(self):
        lines = [(1, 0), (2, 2), (3, 4), (4, 6)]
        job.LEVELS.use(("house", "alpina", "buses"))
        self.assertEqual(job.seen_lines("x", lines, 0), ["x: what public sees, 1 line", "  1"])
        self.assertEqual(job.seen_lines("x", lines, 2), ["x: what alpina sees, 2 lines", "  1", "  2 for alpina"])
        self.assertEqual(job.seen_lines("x", lines, 6)[1:], ["  1", "  2 for alpina", "  3 for buses", "  4 for alpina+buses"])


class Pictures(unittest.TestCase):
    def test_text(self):
        with_sets = PARTIES + "tree\n  resort content alpina list alpina+buses = 1\n    slope alpina = 2\n    hut alpina content alpina+buses = 3\n"
        done = tool("picture", "-", data=with_sets)
        self.assertEqual(done.status, 0)
        self.assertEqual([row.split("[")[1] for row in done.output.splitlines()], ["alpina value and alpina+buses list]", "alpina]", "alpina, alpina+buses value]"])


if __name__ == "__main__":
    unittest.main(verbosity=2)
