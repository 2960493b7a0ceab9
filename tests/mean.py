"""The mean's source and machine code: nothing divides, nothing loops, nothing is called. Arguments: its source, the folder of tests/mean.test, libportal.a."""

import re
import subprocess
import sys
import unittest
from pathlib import Path

SOURCE, WORK, PORTAL = Path(sys.argv[1]).read_text(encoding="utf-8"), Path(sys.argv[2]), sys.argv[3]

LOOPS = {"loop", "while", "for"}
# Words that stand in front of a parenthesis and call nothing.
WORDS = {"if", "match", "return", "let", "else", "as"} | LOOPS


def body(text, name):
    """The body of a function, without comments; None where there is no such function."""
    found = re.search(rf"^(?:pub )?fn {name}\(.*?^\{{\n(.*?)^\}}", re.sub(r"//.*", "", text), re.M | re.S)
    return found and found[1]


def source_faults(text, name="mean", seen=()):
    """What a function does that a mean must not do, and what it calls, too."""
    code = body(text, name)
    if code is None:
        return [f"{name} is not in this file"]
    if name in seen:
        return [f"{name} calls itself"]
    faults = [f"{name} has `{sign}`" for sign in "/%" if sign in code]
    faults += [f"{name} has a {word}" for word in sorted(LOOPS & set(re.findall(r"\w+", code)))]
    for called in sorted(set(re.findall(r"([\w:]+)\s*\(", code)) - WORDS):
        faults += source_faults(text, called, (*seen, name))
    return faults


def instructions(path):
    """The instructions of each function of an object or a library."""
    said = subprocess.run(["objdump", "-d", "--no-show-raw-insn", str(path)], check=True, stdout=subprocess.PIPE).stdout.decode()
    found = {}
    for line in said.split("\n"):
        start = re.match(r"[0-9a-f]+ <(.+)>:$", line)
        if start:
            found[start[1]] = code = []
        elif re.match(r" +[0-9a-f]+:\t", line):
            code.append(line.split("\t")[1].strip())
    return found


def divides(instruction):
    return "div" in instruction.split()[0]


def machine_faults(path):
    """Straight code has no loop: so no jump of any kind, no call and no division."""
    code = instructions(path)["mean_of"]
    return [one for one in code if divides(one) or re.match(r"(?:\w+ )*(?:call|j|loop|rep|xbegin|sys|int)", one)]


class Source(unittest.TestCase):
    def test_as_it_stands(self):
        self.assertEqual(source_faults(SOURCE), [])

    def test_what_must_not_come_back(self):
        halving = "\nfn halved(s: i64) -> i64\n    ensures { x }\n{\n    s / 2\n}\n"
        again = "\nfn halved(s: i64) -> i64\n{\n    again(s)\n}\n\nfn again(s: i64) -> i64\n{\n    halved(s)\n}\n"
        shift = "(a + b) >> 1"
        for wrong, more, fault in (
            ("(a + b) / 2", "", "mean has `/`"),
            ("a + b - (a + b) % 2", "", "mean has `%`"),
            ("let mut s = a; while s > b { s = s - 1; } s", "", "mean has a while"),
            ("let s = loop { break a; }; s", "", "mean has a loop"),
            ("halved(a + b)", halving, "halved has `/`"),
            ("halved(a + b)", again, "halved calls itself"),
            ("other::half(a + b)", "", "other::half is not in this file"),
        ):
            with self.subTest(wrong):
                self.assertEqual(SOURCE.count(shift), 1)
                self.assertEqual(source_faults(SOURCE.replace(shift, wrong) + more), [fault])


class Machine(unittest.TestCase):
    def test_as_it_stands(self):
        library = WORK / "include" / "libmean.a"
        self.assertEqual(machine_faults(library), [])
        self.assertIn("ret", [one.split()[0] for one in instructions(library)["mean_of"]])

    def test_what_must_not_come_back(self):
        for name in ("division", "remainder", "call", "last-call", "loop"):
            with self.subTest(name):
                self.assertNotEqual(machine_faults(WORK / f"{name}.o"), [])

    def test_the_library(self):
        """The mean stands in the run's code, with no name: so nothing there divides."""
        found = instructions(PORTAL)
        self.assertIn("portal_run", found)
        self.assertEqual([one for code in found.values() for one in code if divides(one)], [])


if __name__ == "__main__":
    unittest.main(argv=sys.argv[:1])
