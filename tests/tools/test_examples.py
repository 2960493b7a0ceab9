"""The examples stay silent: with other house numbers the board begins alike, and is the same where both runs finish.
The walk and the average are right for other trees, too."""

import random
import subprocess
import unittest

from support import HOME, examples, job, played, program, replayed, scripts_of


def board(data):
    """The lines on the board, and whether the run finished."""
    done = subprocess.run([program("board")], input=data, stdout=subprocess.PIPE, stderr=subprocess.PIPE, check=False)
    head, *lines, _ = done.stdout.decode().splitlines()
    assert head == "board", done.stdout
    return lines, done.stderr.startswith(b"finished")


def public_board(data):
    """The lines that are for everyone."""
    lines, ends = board(data)
    return [line for line in lines if line.endswith(" 0")], ends


def with_house(source, number):
    """The job with this number in every house variable and house value."""
    variables = [v._replace(value=number) if v.level else v for v in source.job.variables]
    nodes = [n._replace(value=number) if n.content else n for n in source.job.nodes]
    return job.Job(variables, nodes, source.job.records).encode()


class Silent(unittest.TestCase):
    def test_other_house_numbers(self):
        finished = 0
        for path in examples():
            source = job.parse(path.read_text(encoding="utf-8"), path.name)
            lines, ends = public_board(source.job.encode())
            for number in (0, 1, 50, -1):
                with self.subTest(path.name, number=number):
                    other, other_ends = public_board(with_house(source, number))
                    short, long = sorted((lines, other), key=len)
                    self.assertEqual(long[:len(short)], short)
                    if ends and other_ends:
                        self.assertEqual(lines, other)
                        finished += 1
        self.assertGreaterEqual(finished, 6 * 4)  # first, depths, guests, closures, buses, cover

    def test_other_house_numbers_of_histories(self):
        """Up to and including the first script that does not finish in either."""
        compared = 0
        for path in examples():
            source = job.parse(path.read_text(encoding="utf-8"), path.name)
            sections = [job.encode_script(job.parse_script_text(job.Text(script.name, script.read_text(encoding="utf-8").split("\n")), source)
                                          .job.records) for script in scripts_of(path)]
            if not sections:
                continue
            own = played(source.job.encode(), sections, 100_000)
            for number in (0, 1, 50, 100, -1):
                for left, right in zip(own, played(with_house(source, number), sections, 100_000)):
                    lines, others = ([row for row in answer if row.startswith("line ")] for answer in (left, right))
                    short, long = sorted((lines, others), key=len)
                    self.assertEqual(long[:len(short)], short)
                    if not left[0].startswith("ending 0 ") or not right[0].startswith("ending 0 "):
                        break
                    self.assertEqual(lines, others)
                    compared += left != right
        self.assertGreaterEqual(compared, 5)  # what stands differs, and the boards do not


def over(name, nodes):
    """An example's job with another tree: depths and values in preorder."""
    text = (HOME / "examples" / name).read_text(encoding="utf-8")
    head, rest = text.split("\ntree\n")
    tree = "".join(" " * (depth + 2) + f"n{n} = {value}\n" for n, (depth, value) in enumerate(nodes))
    return job.parse(f"{head}\ntree\n{tree}script\n" + rest.split("\nscript\n")[1], name).job.encode()


def random_tree(dice, size):
    depths = [0]
    while len(depths) < size:
        depths.append(dice.randint(1, depths[-1] + 1))
    return [(depth, dice.randint(-1000, 1000)) for depth in depths]


class OtherTrees(unittest.TestCase):
    def boards(self, jobs, budget=1_000_000):
        for answer in replayed(jobs, budget):
            self.assertTrue(answer[0].startswith("ending 0 "), answer[0])
            yield ([int(row.split()[1]) for row in answer if row.startswith("line ")],
                   [(int(row.split()[1]), int(row.split()[5])) for row in answer if row.startswith("node ")])

    def test_walk(self):
        dice = random.Random(11)
        trees = [random_tree(dice, size) for size in (1, 2, 3, 10, 40, 40, 100)]
        trees += [[(depth, 1) for depth in range(200)], [(0, 0)] + [(1, 2)] * 60]  # a chain, and many siblings
        for tree, (board, last) in zip(trees, self.boards([over("walk.yoke", tree) for tree in trees])):
            self.assertEqual(board, [len(tree), sum(value for _, value in tree), max(depth for depth, _ in tree)])
            self.assertEqual(last, tree)

    def test_average(self):
        dice = random.Random(12)
        rows = [[0], [7], [1, 2], [0, 0, 0], [2**30], [3] * 511]
        rows += [[dice.randint(0, 10**6) for _ in range(dice.randint(1, 200))] for _ in range(20)]
        jobs = [over("average.yoke", [(0, 0)] + [(1, value) for value in row]) for row in rows]
        for row, (board, _) in zip(rows, self.boards(jobs, 100_000)):
            self.assertEqual(board, [sum(row) // len(row), sum(row) % len(row), len(row)])


if __name__ == "__main__":
    unittest.main()
