"""docs/RULES.md: its tables of commands, endings and limits are those of the tool, of the header and of the definitions."""

import re
import struct
import subprocess
import unittest

from support import HOME, assembled, job, program

TEXT = (HOME / "docs" / "RULES.md").read_text(encoding="utf-8")


def read(path):
    return (HOME / path).read_text(encoding="utf-8")


def table(head):
    """The cells of the one table with this head."""
    (body,) = re.findall(rf"^\| {re.escape(head)} \|\n\|[-|]+\|\n((?:\|.*\|\n)+)", TEXT, re.M)
    return [[cell.strip() for cell in row.strip("|").split("|")] for row in body.splitlines()]


def number(text):
    return int(text.replace(",", ""))


class Commands(unittest.TestCase):
    rows = table("command | statement | what it does | its rule")

    def test_numbers(self):
        self.assertEqual([int(row[0]) for row in self.rows], list(range(len(job.COMMANDS))))

    def test_statements(self):
        """Each statement has the tool's words, and an expression where the tool reads one."""
        for (_, statement, _, _), row in zip(self.rows, job.COMMANDS):
            with self.subTest(statement):
                words = "NAME :=" if row.target == "variable" else row.words
                expected = f"{words}{':' if row.target == 'mark' else ''}{' ..' if row.expression else ''}{' ' + row.behind if row.behind else ''}"
                self.assertEqual(statement, f"`{expected}`")

    def test_who_reads_an_expression(self):
        said = re.search(r"^Commands ([\d, and]+) read an expression\.", TEXT, re.M).group(1)
        self.assertEqual([int(word) for word in re.findall(r"\d+", said)],
                         [index for index, row in enumerate(job.COMMANDS) if row.expression])

    def test_who_has_a_rule(self):
        """Those that the tool has a sentence for; an if, an else, a while, an end and nothing are never stopped by a rule."""
        self.assertEqual({int(row[0]) for row in self.rows if row[3]}, set(job.RULES))
        self.assertEqual({row[1].strip("`") for row in self.rows if not row[3]}, {"nothing", "if ..", "else", "while ..", "end", "if .. and come back"})

    def test_every_command_is_in_the_definitions(self):
        (count,) = re.findall(r"^command_count = (\d+)$", read("crates/rules/specs/Limits.antt"), re.M)
        self.assertEqual(len(self.rows), int(count))


class Endings(unittest.TestCase):
    rows = table("number | name | given when")

    def test_names(self):
        self.assertEqual({int(row[0]): row[1] for row in self.rows}, dict(job.ENDINGS))

    def test_order(self):
        numbers = [int(row[0]) for row in self.rows]
        self.assertEqual(numbers, sorted(numbers))

    def test_header(self):
        found = re.findall(r"^ +PORTAL_[A-Z_]+ = (\d+)", read("include/portal.h"), re.M)
        self.assertEqual([int(row[0]) for row in self.rows], [int(text) for text in found])


class FollowOn(unittest.TestCase):
    def test_order(self):
        """A script with every fault, mended one by one in the order that is said."""
        said = [int(text) for text in re.search(r"^The checks go in the order ([\d, ]+);", TEXT, re.M).group(1).split(", ")]
        first = assembled("tree\n  resort = 10\n")
        events, expected = struct.pack("<IIIHH", 0, len(first), 1, 512, 0) + first, [0]
        for mended in range(len(said) + 1):
            faults = said[mended:]
            section = (b"\x14" + bytes(15)) * (7 in faults) + (b"\0\1" + bytes(14)) * (12 in faults) + (b"\x02" + bytes(15)) * (8 in faults)
            section += bytes(11 in faults)
            events += struct.pack("<IIIHH", 1, len(section), 0 if 9 in faults else 1, 513 if 10 in faults else 512, 0) + section
            expected.append(faults[0] if faults else 0)
        text = subprocess.run([program("history")], input=events, stdout=subprocess.PIPE, check=True).stdout.decode()
        self.assertEqual([int(found) for found in re.findall(r"^ending (\d+) ", text, re.M)], expected)

    def test_a_store_is_kept(self):
        self.assertIn("It is proved that what a job or a script leaves is never a reason for 11.", " ".join(TEXT.split()))
        self.assertRegex(read("crates/rules/proofs/Stores.antt"), r"(?m)^pub store_kept : StoreKept$")


class Limits(unittest.TestCase):
    def test_most(self):
        """The largest numbers are those of the definitions, and none is left out."""
        rows = {row[0]: number(row[2]) for row in table("what | least | most")}
        found = dict(re.findall(r"^(max_\w+) = (\d+)$", read("crates/rules/specs/Limits.antt"), re.M))
        names = {"bytes of a job": "max_bytes", "variables": "max_variables", "nodes": "max_nodes", "script records": "max_records",
                 "nested blocks": "max_depth", "budget, in steps": "max_budget", "unended runs that take turns": "max_runs"}
        self.assertEqual(set(found), set(names.values()))
        self.assertEqual(rows, {what: int(found[name]) for what, name in names.items()})

    def test_header(self):
        rows = {row[0]: number(row[2]) for row in table("what | least | most")}
        header = dict(re.findall(r"^#define (PORTAL_MAX_\w+) (\d+)$", read("include/portal.h"), re.M))
        self.assertEqual((rows["bytes of a job"], rows["budget, in steps"]),
                         (int(header["PORTAL_MAX_JOB"]), int(header["PORTAL_MAX_BUDGET"])))


class Expressions(unittest.TestCase):
    def test_operators(self):
        said = " ".join(row[0] for row in table("operator | what comes out"))
        for sign in job.INFIX:
            self.assertIn(f"`A {sign} B`", said)
        self.assertIn("`mean(A, B)`", said)


if __name__ == "__main__":
    unittest.main(verbosity=2)
