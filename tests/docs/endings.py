"""docs/endings: the pages, the code and the monitor have the same endings, and each page's smallest job ends as it says."""

import re
import struct
import subprocess
import unittest

from support import HOME, assembled, job, program

# "Ways a job can end" of paper 01, and those of paper 02. No job ends with 11, which is for follow-on scripts alone, or 14, for what stands when it is written;
# 15 is for a newcomer among others.
NUMBERS = [*range(1, 16), 21, 22, 23, 24, 25, 27]
OF_STORED = 4  # from clean and arrange alone, which keep the rules of their day
BY_REPLAY = (9, 10)
OF_SCRIPTS, OF_WRITING = BY_HISTORY = (11, 14)
BY_ROUNDS = 15
NOT_OF_JOBS = (OF_STORED, *BY_HISTORY, BY_ROUNDS)


def read(path):
    return (HOME / path).read_text(encoding="utf-8")


class Page:
    def __init__(self, path):
        self.text = path.read_text(encoding="utf-8")
        self.number, self.name = re.match(r"# (\d+): (.+)\n", self.text).groups()
        self.number = int(self.number)
        self.c_name, self.rules_name = re.search(r"^In C: `(\w+)`\. In crate `rules`: `(\w+)`\.$", self.text, re.M).groups()

    def block(self, kind):
        """The one fenced block of this kind, or None."""
        found = re.findall(rf"^```{kind}\n(.*?)^```$", self.text, re.M | re.S)
        assert len(found) <= 1, f"page {self.number} has {len(found)} blocks {kind}"
        return found[0] if found else None

    def bytes(self):
        """What stands there in hexadecimal, or None."""
        digits = self.block("hex")
        return None if digits is None else bytes.fromhex("".join(digits.split()))

    def job(self):
        source, data = self.block("yoke"), self.bytes()
        assert (source is None) != (data is None), f"page {self.number} needs one job, as yoke or hex"
        return assembled(source) if source else data

    def limits(self):
        """The budget, places and lines that the page names."""
        return [int(n) for n in re.search(r"budget (\d+), places (\d+), lines (\d+)", self.text).groups()]

    def frame(self):
        """The job as a frame of replay."""
        return struct.pack("<IIHH", len(self.job()), *self.limits()) + self.job()

    def events(self):
        """The job as an event of history, and behind it the script, or what stands written into an area; nine times as an event of rounds."""
        def event(kind, data, budget, places, lines):
            return struct.pack("<IIIHH", kind, len(data), budget, places, lines) + data
        first = event(0, assembled(self.block("yoke")), *self.limits())
        if self.number == BY_ROUNDS:
            return first * 9
        if self.number == OF_SCRIPTS:
            return first + event(1, self.bytes(), *self.limits())
        (area,) = re.findall(r"an area\s+of (\d+) bytes", self.text)
        return first + event(4, b"", int(area), *self.limits()[1:])


PAGES = {path.name: Page(path) for path in sorted((HOME / "docs" / "endings").glob("*.md")) if path.name != "README.md"}


def answer(name, data):
    return subprocess.run([program(name)], input=data, stdout=subprocess.PIPE, check=False).stdout.decode()


class Lists(unittest.TestCase):
    def test_a_page_for_each_number(self):
        self.assertEqual(list(PAGES), [f"{number:02}.md" for number in NUMBERS])
        self.assertEqual([page.number for page in PAGES.values()], NUMBERS)

    def test_index(self):
        rows = re.findall(r"^\| \[(\d+)\]\((\d+\.md)\) \| ([^|]+) \|", read("docs/endings/README.md"), re.M)
        self.assertEqual(rows, [(str(page.number), name, page.name) for name, page in PAGES.items()])

    def test_tool(self):
        self.assertEqual(job.ENDINGS, {0: "finished", **{page.number: page.name for page in PAGES.values()}})

    def test_header(self):
        found = re.findall(r"^ +(PORTAL_[A-Z_]+) = (\d+)\b", read("include/portal.h"), re.M)
        self.assertEqual({(name, int(number)) for name, number in found},
                         {("PORTAL_FINISHED", 0), *((page.c_name, page.number) for page in PAGES.values())})

    def test_names_of_the_programs(self):
        names = {0: "finished", **{page.number: page.name for page in PAGES.values() if page.number not in NOT_OF_JOBS}}
        found = re.findall(r'^\s*(\d+) => .*b"([^"]+)"', read("crates/inspect/src/names.rt"), re.M)
        self.assertEqual({int(number): name for number, name in found if int(number) != OF_STORED}, names)
        c_names = {"PORTAL_FINISHED": "finished", **{page.c_name: page.name for page in PAGES.values()}}
        found = re.findall(r'case (PORTAL_\w+):\s*return "([^"]+)"', read("include/portal.h"))
        self.assertEqual(dict(found), c_names)

    def test_code(self):
        found = re.findall(r"^pub const (\w+): u8 = (\d+);$", read("crates/rules/src/limits.rt"), re.M)
        self.assertEqual({(name, int(number)) for name, number in found},
                         {(page.rules_name, page.number) for page in PAGES.values()})

    def test_definitions(self):
        refusals = re.findall(r"^(?:bad_\w+|no_place) = (\d+)$", read("crates/rules/specs/Limits.antt"), re.M)
        stops = re.findall(r"^stop_number \w+ = (\d+)$", read("crates/rules/specs/Run.antt"), re.M)
        self.assertEqual([int(number) for number in refusals + stops], NUMBERS)


class Jobs(unittest.TestCase):
    def test_inspect(self):
        for page in PAGES.values():
            if page.number in (*NOT_OF_JOBS, *BY_REPLAY):
                continue
            with self.subTest(page.number):
                said = page.block("text")
                self.assertEqual(said.split("\n")[0], f"ending {page.number} {page.name}")
                got = answer("inspect", page.job())
                if page.number < 21:
                    self.assertEqual(got, said)  # a refusal has these two lines only
                else:
                    self.assertEqual(said.count("\n"), 4)  # ending, record, steps, lines
                    self.assertEqual("".join(got.splitlines(True)[:4]), said)

    def test_stored(self):
        """The number that only the programs for stored jobs give; the monitor runs the job."""
        page = PAGES[f"{OF_STORED:02}.md"]
        for name in ("clean", "arrange"):
            done = subprocess.run([program(name)], input=page.job(), stdout=subprocess.PIPE, stderr=subprocess.PIPE, check=False)
            self.assertEqual((done.stdout, done.stderr.decode()), (b"", page.block("text")))
        self.assertEqual(page.block("text"), f"refused {OF_STORED} at 0\n")
        self.assertTrue(answer("inspect", page.job()).startswith("ending 0 finished\n"))

    def test_replay(self):
        for page in PAGES.values():
            if page.number in BY_REPLAY:
                with self.subTest(page.number):
                    self.assertEqual(answer("replay", page.frame()), page.block("text"))
                    self.assertIn(f"ending {page.number} ", page.block("text"))

    def test_history(self):
        for number, answered in ((OF_SCRIPTS, "script 1\nending 11 "), (OF_WRITING, "written 1 14\n")):
            with self.subTest(number):
                page = PAGES[f"{number}.md"]
                self.assertEqual(answer("history", page.events()), page.block("text"))
                self.assertIn(answered, page.block("text"))

    def test_rounds(self):
        page = PAGES[f"{BY_ROUNDS}.md"]
        self.assertEqual(answer("rounds", page.events()), page.block("text"))
        self.assertTrue(page.block("text").endswith("newcomer 8\nending 15 index 0 steps 0 lines 0\n"))


if __name__ == "__main__":
    unittest.main(verbosity=2)
