"""picture: the tree in characters and as SVG."""

import unittest
import xml.etree.ElementTree as xml
from pathlib import Path

from support import assembled, job, program, scratch, tool

TREE = """\
tree
  resort list house = 0
    north = 120
      lift = 4
      hut content house = -2
        stove = 1
    south content house list house = 80
      closure house = 1
    office list house = 0
    safe house = 7
"""

TEXT = """\
resort = 0           [house list]
├─ north = 120
│  ├─ lift = 4
│  └─ hut = -2       [house value]
│     └─ stove = 1
├─ south = 80        [house value and list]
│  └─ closure = 1    [house]
├─ office = 0        [house list]
└─ safe = 7          [house]
"""

SVG = "{http://www.w3.org/2000/svg}"


def drawn(text):
    return xml.fromstring(tool("picture", "-", "--svg", "-", data=text).output)


class Pictures(unittest.TestCase):
    def test_text(self):
        for words in (("picture", "-"), ("picture", "-", "--text")):
            done = tool(*words, data=TREE)
            self.assertEqual((done.status, done.error, done.output), (0, "", TEXT))

    def test_text_of_a_job(self):
        done = tool("picture", "-", data=assembled("tree\n  a = 1\n    b content house = 2\n"))
        self.assertEqual(done.output, "n0 = 1\n└─ n1 = 2   [house value]\n")

    def test_svg_says_what_is_house(self):
        texts = [item.text for item in drawn(TREE).iter(f"{SVG}text")]
        legend = ["public", "1", "value", "house: 2", "list", "3", "node", "4", "house list", "house node"]
        for word in legend:
            self.assertIn(word, texts)
        # Nodes and their legend: lists of resort, south and office, nodes closure and safe.
        self.assertEqual(texts.count("house list"), 3 + 1)
        self.assertEqual(texts.count("house node"), 2 + 1)
        self.assertEqual([text for text in texts if text.startswith("house: ")], ["house: -2", "house: 80", "house: 2"])
        for name in ("resort", "north", "lift", "hut", "stove", "south", "closure", "office", "safe"):
            self.assertEqual(texts.count(name), 1)

    def test_svg_of_public_nodes_has_no_hatching_but_the_legend(self):
        plain = "tree\n  a = 1\n    b = 2\n"
        hatched = [item for item in drawn(plain).iter(f"{SVG}rect") if "house" in item.get("class", "")]
        self.assertEqual(len(hatched), 3)  # value, list and node of the legend
        self.assertEqual(len(list(drawn(plain).iter(f"{SVG}path"))), 1)

    def test_svg_escapes_and_writes_a_file(self):
        with scratch() as folder:
            source, target = Path(folder, "a&b.yoke"), Path(folder, "x.svg")
            source.write_text(TREE)
            done = tool("picture", str(source), "--svg", str(target))
            self.assertEqual((done.status, done.output), (0, ""))
            self.assertTrue(xml.parse(target).getroot().find(f"{SVG}title").text.endswith("a&b.yoke"))

    def test_boxes_do_not_overlap(self):
        deep = "tree\n" + "".join("  " * ((n - 1) % 6 + 2 if n else 1) + f"{'x' * (n * 5 % 23 + 1)} = {n}\n" for n in range(60))
        nodes = job.pictured(job.parse(deep, "test"))
        middles, width = job.layout(nodes)
        rows = {}
        for node, middle in zip(nodes, middles):
            half = job.box_width(node) / 2
            rows.setdefault(node.depth, []).append((middle - half, middle + half))
        for row in rows.values():
            self.assertGreaterEqual(row[0][0], 0)
            self.assertLessEqual(row[-1][1], width)
            for (_, right), (left, _) in zip(row, row[1:]):
                self.assertLess(right, left)

    def test_no_tree(self):
        done = tool("picture", "-", data="script\n  up\n")
        self.assertEqual((done.status, done.output), (1, ""))
        self.assertIn("refused with 3", done.error)


def tree_of(depths):
    """A tree of nodes n0, n1 .. with these depths."""
    return "tree\n" + "".join(" " * (depth + 1) + f"n{n} = {n}\n" for n, depth in enumerate(depths))


def binary(depth, size):
    """The depths of a full binary tree in preorder."""
    if size == 0:
        return []
    left = (size - 1) // 2
    return [depth] + binary(depth + 1, left) + binary(depth + 1, size - 1 - left)


LARGE = {
    "chain": list(range(512)),
    "star": [0] + [1] * 511,
    "binary": binary(0, 512),
    "comb": [depth + leaf for depth in range(256) for leaf in (0, 1)],
    "areas": [0] + ([1] + [2] * 50) * 10 + [1],
}


class Large(unittest.TestCase):
    """Trees of 512 nodes."""

    def test_each_svg_is_of_a_size_that_a_person_can_use(self):
        for name, depths in LARGE.items():
            with self.subTest(name):
                svg = drawn(tree_of(depths))
                self.assertLessEqual(float(svg.get("width")), 4_000)
                self.assertLessEqual(float(svg.get("height")), 4_000)
                texts = {item.text for item in svg.iter(f"{SVG}text")}
                self.assertEqual([n for n in range(len(depths)) if f"n{n}" not in texts], [])
                self.assertEqual(len(list(svg.iter(f"{SVG}path"))), len(depths) - 1)

    def test_boxes_of_an_outline_do_not_overlap(self):
        for name, depths in LARGE.items():
            with self.subTest(name):
                boxes = sorted(tuple(float(item.get(part)) for part in ("x", "y", "width", "height"))
                               for group in drawn(tree_of(depths)).iter(f"{SVG}g") for item in group.findall(f"{SVG}rect")
                               if item.get("class") == "box")
                self.assertEqual(len(boxes), len(depths))
                for at, (x, y, width, height) in enumerate(boxes):
                    for other in boxes[at + 1:]:
                        if other[0] >= x + width:
                            break
                        self.assertTrue(other[1] >= y + height or other[1] + other[3] <= y, (boxes[at], other))

    def test_no_line_runs_aslant(self):
        """Lines to many children from one point would make a black fan."""
        for depths in list(LARGE.values()) + [[0] + [1] * 20]:
            for item in drawn(tree_of(depths)).iter(f"{SVG}path"):
                self.assertRegex(item.get("d"), r"^M[-0-9. ]+( ?[VH][-0-9.]+)+$")

    def test_siblings_are_left_out_of_a_text(self):
        house = tree_of([0] + [1] * 20).replace("n0 =", "n0 list house =").replace("n20 =", "n20 house =").replace(
            "n9 =", "n9 content house =")
        self.assertEqual(tool("picture", "-", data=house).output, """\
n0 = 0         [house list]
├─ n1 = 1
├─ n2 = 2
├─ n3 = 3
├─ n4 = 4
├─ n5 = 5
├─ ⋮ 12 more   [1 with house parts]
├─ n18 = 18
├─ n19 = 19
└─ n20 = 20    [house]
""")

    def test_siblings_with_all_below_them_are_left_out(self):
        self.assertIn("├─ ⋮ 7 more, with 14 below them\n", tool("picture", "-", data=tree_of([0] + [1, 2, 3] * 15)).output)

    def test_a_chain_is_left_out_of_a_text(self):
        self.assertEqual(tool("picture", "-", data=tree_of([0, 1] + list(range(1, 511)))).output, """\
n0 = 0
├─ n1 = 1
└─ n2 = 2
   └─ n3 = 3
      └─ n4 = 4
         └─ n5 = 5
            └─ n6 = 6
               └─ ⋮ 502 more, one below the other
                  └─ n509 = 509
                     └─ n510 = 510
                        └─ n511 = 511
""")

    def test_what_hangs_very_deep_is_left_out(self):
        lines = tool("picture", "-", data=tree_of(LARGE["comb"])).output.split("\n")
        self.assertLessEqual(max(len(line) for line in lines), 120)
        self.assertIn("⋮ 463 more, deeper down", lines[-2])

    def test_twelve_siblings_are_shown(self):
        self.assertEqual(len(tool("picture", "-", data=tree_of([0] + [1] * 12)).output.split("\n")), 14)

    def test_all(self):
        for name, depths in LARGE.items():
            with self.subTest(name):
                output = tool("picture", "-", "--all", data=tree_of(depths)).output
                self.assertEqual([line.split()[-3] for line in output.split("\n")[:-1]], [f"n{n}" for n in range(len(depths))])

    def test_a_run_shows_its_last_tree_in_short(self):
        done = tool("run", "-", data=tree_of(LARGE["star"]), INSPECT=program("inspect"))
        self.assertIn("  ├─ ⋮ 503 more\n", done.output)
        done = tool("run", "-", "--all", data=tree_of(LARGE["star"]), INSPECT=program("inspect"))
        self.assertNotIn("⋮", done.output)
        self.assertIn("  └─ n511 = 511\n", done.output)

    def test_a_long_name_is_cut_and_told(self):
        svg = drawn("tree\n  " + "x" * 300 + " = 1\n")
        self.assertLess(float(svg.get("width")), 1_000)
        self.assertIn("x" * 300 + " = 1", [item.text for item in svg.iter(f"{SVG}title")])


if __name__ == "__main__":
    unittest.main()
