"""docs/GUARANTEE.md: its examples are sources that the tool takes and end as it says; its figures; each theorem that it names is where it says."""

import math
import re
import subprocess
import unittest

from support import HOME, assembled, job, played, program, replayed

TEXT = (HOME / "docs" / "GUARANTEE.md").read_text(encoding="utf-8")
HOLDS, PARTIES, ENDS, LEAVES, SPENT = re.findall(r"^```yoke\n(.*?)^```$", TEXT, re.M | re.S)
(READS,) = re.findall(r"^```script\n(.*?)^```$", TEXT, re.M | re.S)
SECRET = re.compile(r"^(.*\S) +# or (none|-?\d+)\n", re.M)


def other(source):
    """The source with its other secrets."""
    return SECRET.sub(lambda found: "" if found[2] == "none" else re.sub(r"-?\d+$", found[2], found[1]) + "\n", source)


def board(source, reader=0):
    """The lines that a reader is handed, and the ending."""
    done = subprocess.run([program("board")], input=assembled(source), stdout=subprocess.PIPE, stderr=subprocess.PIPE, check=False)
    lines = [line.split() for line in done.stdout.decode().splitlines()[1:-1]]
    return [number for number, readers in lines if int(readers) & ~reader == 0], done.stderr.decode()


class Examples(unittest.TestCase):
    def test_holds(self):
        self.assertEqual(len(SECRET.findall(HOLDS)), 2)
        steps = re.search(r"The first takes (\d+)\s+steps, the second (\d+)\.", TEXT).groups()
        lines = re.search(r"Both boards\s+say ([-\d, ]+)\.", TEXT).group(1).split(", ")
        for source, count in zip((HOLDS, other(HOLDS)), steps):
            self.assertEqual(board(source), (lines, f"finished steps {count}\n"))

    def test_parties(self):
        """What each of three parties is handed, with either figure of alpina's."""
        self.assertEqual(len(SECRET.findall(PARTIES)), 2)
        buses = re.search(r"is the same: ([-\d, ]+) in both", TEXT).group(1).split(", ")
        public = re.search(r"The public is handed ([-\d, ]+) in", TEXT).group(1).split(", ")
        alpina = [found.split(", ") for found in re.search(r"at work: ([-\d, ]+) in the first and ([-\d, ]+) in\s+the second", TEXT).groups()]
        for source, own in zip((PARTIES, other(PARTIES)), alpina):
            for reader, lines in ((0, public), (1, public), (2, own), (4, buses), (5, buses)):
                self.assertEqual(board(source, reader)[0], lines)
            self.assertTrue(board(source)[1].startswith("finished"))

    def test_holds_is_the_witness(self):
        """The records of the pair that is proved to meet the assumptions, as its file spells them."""
        witness = (HOME / "crates/rules/proofs/Witness.antt").read_text(encoding="utf-8")
        records = job.parse(HOLDS, "GUARANTEE").job.records
        (script,) = re.findall(r"^script =(.*?)\n\n", witness, re.M | re.S)
        self.assertEqual([record.command for record in records], [int(n) for n in re.findall(r"\b(?:one|bare) (\d+)", script)])
        values = [re.findall(r"pos (\d+)", part) for part in re.findall(r"^(?:left|right) =(.*?)\n\n", witness, re.M | re.S)]
        for source, found in zip((HOLDS, other(HOLDS)), values):
            parsed = job.parse(source, "GUARANTEE").job
            self.assertEqual([parsed.variables[1].value] + [node.value for node in parsed.nodes], [int(n) for n in found])

    def test_ends(self):
        said = re.findall(r"[Ww]ith (\d+) beds (?:the board|it) has the (\d+) lines 1\s+to (\d+)", TEXT)
        self.assertEqual(len(said), 2)
        for source, (beds, count, last) in zip((ENDS, other(ENDS)), said):
            self.assertIn(f"beds house = {beds}", source)
            lines, ended = board(source)
            self.assertEqual(lines, [str(n) for n in range(1, int(last) + 1)])
            self.assertEqual(len(lines), int(count))
            self.assertTrue(ended.startswith("stopped 22 at "), ended)


    def test_leaves(self):
        """What a stop leaves, a script behind it tells."""
        said = re.search(r"its board has one line: with (\d+) beds (\d+), with (\d+) beds (\d+)\.", TEXT).groups()
        for source, beds, line in zip((LEAVES, other(LEAVES)), said[::2], said[1::2]):
            self.assertIn(f"beds house = {beds}", source)
            parsed = job.parse(source, "GUARANTEE")
            script = job.parse_script_text(job.Text("GUARANTEE", READS.split("\n")), parsed)
            stopped, finished = played(parsed.job.encode(), [job.encode_script(script.job.records)], 1_000)
            self.assertRegex(stopped[0], r"^ending 22 index \d+ steps \d+ lines 0$")
            self.assertEqual(finished[:2], ["ending 0 index 0 steps 1 lines 1", f"line {line} 0"])

    def test_leaves_is_what_is_proved(self):
        """The proved pair: the first script stops with 21 in one history alone, and the line behind it differs."""
        trials = (HOME / "crates/rules/proofs/HistoryTrials.antt").read_text(encoding="utf-8")
        (body,) = re.findall(r"^pub stop_tells :\n(.*?)^unfolding", trials, re.M | re.S)
        (left, right) = (re.findall(r"came (\d+) \d+ (?:\[\]|\(pos (\d+) ∷ \[\]\))", half) for half in body.split("×"))
        self.assertEqual(([ending for ending, _ in left], [ending for ending, _ in right]), (["21", "0"], ["0", "0"]))
        self.assertNotEqual(left[1], right[1])

    def test_a_larger_budget(self):
        """The board under a budget that ends with 25, and under those that do not."""
        few, count, first = re.search(r"With a budget of (\d+) it ends with 25 and its board has the (\d+) lines ([\d, ]+)\.", TEXT).groups()
        enough, most, all_lines = re.search(r"From (\d+) steps\s+on it finishes, with the (\d+) lines ([\d, ]+), whatever", TEXT).groups()
        data = assembled(SPENT)
        for budget, ending, lines in ((int(few), 25, first), (int(enough) - 1, 25, None), (int(enough), 0, all_lines), (1_000_000, 0, all_lines)):
            (answer,) = replayed([data], budget)
            self.assertTrue(answer[0].startswith(f"ending {ending} "), answer[0])
            if lines:
                found = [row.split()[1] for row in answer if row.startswith("line ")]
                self.assertEqual(found, lines.split(", "))
                self.assertEqual(len(found), int(count if ending else most))


class Figures(unittest.TestCase):
    def test_budget(self):
        budget, bits = re.search(r"log2\(([\d,]+)\), some (\d+) bits, and a script", TEXT).groups()
        self.assertEqual(int(budget.replace(",", "")), job.MAX_BUDGET)
        self.assertEqual(round(math.log2(job.MAX_BUDGET)), int(bits))

    def test_board_runner(self):
        lines, boards, argument, bits = re.search(r"board runner, (\d+) lines \| (\d+) \| log2\((\d+)\), some (\d+)", TEXT).groups()
        self.assertEqual(int(boards), int(lines) + 1)
        self.assertEqual(argument, boards)
        self.assertEqual(round(math.log2(int(boards))), int(bits))
        # The room that the board runner has: it stops with 24 after so many lines.
        printed, ended = board("tree\n  resort = 0\nscript\n  while 1\n    print 1\n")
        self.assertEqual((len(printed), ended.split(" at ")[0]), (int(lines), "stopped 24"))


class Theorems(unittest.TestCase):
    def test_each_is_there(self):
        rows = [(name, path) for names, path in re.findall(r"^\| (`[^|]+`) \| [^|]+ \| `(crates/[^`]+\.antt)` \|$", TEXT, re.M)
                for name in re.findall(r"`([^`]+)`", names)]
        self.assertGreaterEqual(len(rows), 4)
        for name, path in rows + re.findall(r"`([\w-]+)` in\s+`(crates/[^`]+\.antt)`", TEXT):
            with self.subTest(name):
                self.assertRegex((HOME / path).read_text(encoding="utf-8"), rf"(?m)^ *(?:\w+ )*{re.escape(name)}\b[^=\n]* :")

    def test_definitions(self):
        """The parts of the claim are names of the definitions."""
        specs = "".join(path.read_text(encoding="utf-8") for path in (HOME / "crates/rules/specs").glob("*.antt"))
        (body,) = re.findall(r"^\| Part \| Where \|\n\|[-|]+\|\n((?:\|.*\|\n)+)", TEXT, re.M)
        for name in re.findall(r"`(\w+)`", body):
            with self.subTest(name):
                self.assertRegex(specs, rf"(?m)^ *(?:\w+ )*{name}\b[^=\n]* :")

    def test_files(self):
        for path in re.findall(r"`(crates/[^`]+)`", TEXT):
            with self.subTest(path):
                self.assertTrue(list(HOME.glob(path)))

    def test_leaks(self):
        """As many loosened rules as are said."""
        said = re.search(r"^([\w-]+) loosened rules are kept as wrong edits \((.*?)\)", TEXT, re.M | re.S)
        found = [path for pattern in re.findall(r"`([^`]+)`", said[2]) for path in HOME.glob(pattern)]
        words = ["Twenty", "Twenty-one", "Twenty-two", "Twenty-three", "Twenty-four", "Twenty-five", "Twenty-six"]
        self.assertEqual(len(found), words.index(said[1]) + 20)


if __name__ == "__main__":
    unittest.main(verbosity=2)
