"""assemble: sources and the bytes that paper 01 asks for."""

import struct
import unittest
from pathlib import Path

from support import assembled, scratch, tool, tool_process

VARIABLES = "variables\n  a = 0\n  h house = 1\n"
TREE = "tree\n  resort = 10\n    slope = 3\n"


def record(command, target=0, operator=0, left=(0, 0), right=(0, 0)):
    return struct.pack("<5B3xii", command, target, operator, left[0], right[0], left[1], right[1])


def script_of(statements):
    """The script section of a job with these statements."""
    lines = "".join(f"  {line}\n" for line in statements)
    data = assembled(f"{VARIABLES}{TREE}script\n{lines}")
    return data[16 + 24:-8]


class Bytes(unittest.TestCase):
    def test_the_papers_example(self):
        data = assembled("tree\n  resort = 10\nscript\n  print value\n")
        paper = "ffff000000000000 0a000000 0600000200000000 0000000000000000 000000000c001c00"
        self.assertEqual(data.hex(), paper.replace(" ", ""))

    def test_variables(self):
        data = assembled("variables\n  a = -2\n  b public = 7\n  c house = 2147483647\ntree\n  n = 0\n")
        self.assertEqual(data[:24].hex(), "00000000feffffff" "0000000007000000" "01000000ffffff7f")

    def test_levels_of_nodes(self):
        data = assembled("tree\n  a = 1\n    b content house = 2\n    c list house = 3\n      d house = 4\n"
                         "    e house content public list public = 5\n    f content house list house = 6\n")
        self.assertEqual([data[at:at + 5].hex() for at in range(0, 72, 12)],
                         ["ffff000000", "0000000100", "0000000001", "0200010101", "0000010000", "0000000101"])

    def test_nodes_are_listed_the_way_they_hang(self):
        data = assembled("tree\n  a = 1\n    b = 2\n      c = 3\n        d = 4\n      e = 5\n    f = 6\n      g = 7\n")
        self.assertEqual([data[at:at + 12].hex() for at in range(0, 84, 12)],
                         ["ffff00000000000001000000", "000000000000000002000000", "010000000000000003000000", "020000000000000004000000",
                          "010000000000000005000000", "000000000000000006000000", "050000000000000007000000"])

    def test_trailer(self):
        data = assembled(VARIABLES + TREE + "script\n  up\n")
        self.assertEqual(struct.unpack("<4H", data[-8:]), (0, 16, 40, 56))

    def test_every_command(self):
        statements = ["nothing", "h := 5", "print 5", "root", "up", "first child", "right sibling", "new first child: 5",
                      "new right sibling: 5", "remove first child", "remove right sibling", "set 5", "cover",
                      "while 5", "  empty", "if 5", "  empty", "else", "  empty"]
        five = (0, 5)
        expected = [record(0), record(1, 1, left=five), record(6, left=five), record(7), record(8), record(9), record(10),
                    record(11, left=five), record(12, left=five), record(13), record(14), record(15, left=five), record(16),
                    record(4, left=five), record(5), record(2, left=five), record(3), record(5)]
        self.assertEqual(script_of(statements).hex(), b"".join(expected).hex())

    def test_every_mark(self):
        for verb, command in (("first child", 11), ("right sibling", 12)):
            for words, mark in (("", 0), (" content house", 1), (" list house", 2), (" content house list house", 3)):
                self.assertEqual(script_of([f"new {verb}{words}: h"]), record(command, mark, left=(1, 1)))

    def test_every_operator_and_kind(self):
        sides = {"-7": (0, -7), "h": (1, 1), "value": (2, 0), "children": (3, 0)}
        for left, left_side in sides.items():
            self.assertEqual(script_of([f"print {left}"]), record(6, left=left_side))
            for right, right_side in sides.items():
                for form, operator in (("{} + {}", 1), ("{} - {}", 2), ("{} = {}", 3), ("{} < {}", 4), ("mean({}, {})", 5)):
                    text = form.format(left, right)
                    with self.subTest(text):
                        self.assertEqual(script_of([f"print {text}"]), record(6, 0, operator, left_side, right_side))

    def test_spaces_do_not_matter_in_an_expression(self):
        self.assertEqual(script_of(["print h-1"]), script_of(["print h   -  1"]))
        self.assertEqual(script_of(["print h--1"]), record(6, 0, 2, (1, 1), (0, -1)))

    def test_blocks(self):
        data = script_of(["if a", "  while h", "    up", "  root", "else", "  if 1", "    empty", "cover"])
        commands = [data[at] for at in range(0, len(data), 16)]
        # if, while, up, end of while, root, else, if, end, end, cover
        self.assertEqual(commands, [2, 4, 8, 5, 7, 3, 2, 5, 5, 16])

    def test_empty_blocks(self):
        data = script_of(["while 1", "  empty", "if a", "  empty", "else", "  empty", "up"])
        self.assertEqual([data[at] for at in range(0, len(data), 16)], [4, 5, 2, 3, 5, 8])

    def test_the_ends_of_32_bits(self):
        self.assertEqual(script_of(["print -2147483648 + 2147483647"]), record(6, 0, 1, (0, -2**31), (0, 2**31 - 1)))

    def test_an_if_that_comes_back(self):
        data = assembled(VARIABLES + TREE + "script\n  if a < h and come back\n    up\n  else\n    root\n")
        script = data[-8 - 5 * 16:-8]
        opening = bytes((17, 0, 4, 1, 1, 0, 0, 0)) + bytes(4) + (1).to_bytes(4, "little")
        self.assertEqual([script[at:at + 16] for at in range(0, len(script), 16)],
                         [opening] + [bytes((command,)) + bytes(15) for command in (8, 3, 7, 5)])

    def test_the_later_moves(self):
        self.assertEqual(script_of(["left sibling", "last child"]), bytes((18,)) + bytes(15) + bytes((19,)) + bytes(15))

    def test_comments_blank_lines_and_indentation(self):
        plain = assembled(VARIABLES + TREE + "script\n  if a\n    up\n  root\n")
        loose = assembled("# a job\n\n" + "variables # two\n a=0\n\n h house=1\ntree\n      resort = 10\n            slope = 3 # snow\n"
                          "script\n     if a\n# far left\n      up\n\n     root\n")
        self.assertEqual(plain, loose)

    def test_a_source_may_be_indented_as_a_whole(self):
        text = VARIABLES + TREE
        self.assertEqual(assembled("".join(f"    {line}\n" for line in text.splitlines())), assembled(text))

    def test_names_of_other_tongues(self):
        self.assertEqual(assembled("variables\n  höhe = 1\ntree\n  hütte = 2\nscript\n  print höhe\n")[-24 + 8:-8][:1], b"\0")


class Program(unittest.TestCase):
    SOURCE = "tree\n  resort = 10\nscript\n  print value\n"

    def test_to_standard_output(self):
        done = tool_process("assemble", "-", "-o", "-", data=self.SOURCE.encode())
        self.assertEqual((done.status, done.error, len(done.bytes)), (0, "", 36))

    def test_to_a_file_beside_the_source(self):
        with scratch() as folder:
            path = Path(folder, "x.yoke")
            path.write_text(self.SOURCE)
            self.assertEqual(tool("assemble", str(path)).status, 0)
            self.assertEqual(Path(folder, "x.job").read_bytes(), assembled(self.SOURCE))

    def test_windows_line_ends_and_byte_order_mark(self):
        done = tool("assemble", "-", "-o", "-", data=b"\xef\xbb\xbf" + self.SOURCE.replace("\n", "\r\n").encode())
        self.assertEqual(done.bytes, assembled(self.SOURCE))

    def test_a_missing_file(self):
        done = tool("assemble", "no/such.yoke")
        self.assertEqual((done.status, done.error), (2, "no/such.yoke: No such file or directory\n"))

    def test_a_job_is_no_source(self):
        done = tool("assemble", "-", data=assembled(self.SOURCE))
        self.assertEqual(done.status, 2)
        self.assertIn("this is a job and no source", done.error)

    def test_a_job_that_the_monitor_refuses_is_written_with_a_warning(self):
        for text, place, number in (
                ("tree\n  a house = 1\n", ":2:3:", 6),
                ("tree\n  a = 1\n  b = 1\n", ":3:3:", 5),
                ("tree\n  a = 1\n    b house = 1\n", ":3:5:", 6),
                ("tree\n  a list house = 1\n    b house = 1\n    c = 1\n", ":4:5:", 6),
                ("tree\n  a = 1\nscript\n" + "".join(" " * (n + 2) + "if 1\n" for n in range(17)) + " " * 19 + "up\n", ":20:19:", 8),
                ("script\n  up\n", ":", 3)):
            with self.subTest(text):
                done = tool("assemble", "-", "-o", "-", data=text)
                self.assertEqual((done.status, done.bytes), (0, assembled(text)))
                self.assertTrue(done.error.startswith(f"<standard input>{place}"), done.error)
                self.assertIn(f"warning: the monitor refuses this job with {number} (", done.error)


class Bare(unittest.TestCase):
    """Follow-on scripts, as bare sections."""

    SCRIPT = "script\n  first child\n  h := value + a\n"
    SECTION = record(9) + record(1, 1, 1, (2, 0), (1, 0))

    def bare(self, *words, data=SCRIPT):
        return tool("assemble", "--bare", "-", "-o", "-", *words, data=data)

    def over(self, data):
        """The script with the variables of a source or a job in a file."""
        with scratch() as folder:
            path = Path(folder, "base")
            path.write_bytes(data)
            return self.bare("--tree", str(path))

    def test_the_variables_are_those_of_a_source_or_a_job(self):
        whole = VARIABLES + TREE + "script\n  up\n"
        for text in (whole, VARIABLES + TREE, "variables\n  a = 0\n  h house = 1\n"):
            done = self.over(text.encode())
            self.assertEqual((done.status, done.error, done.bytes.hex()), (0, "", self.SECTION.hex()))
        with scratch() as folder:
            path = Path(folder, "base.job")
            path.write_bytes(assembled(whole))
            done = self.bare("--tree", str(path), data="script\n  first child\n  v1 := value + v0\n")
        self.assertEqual((done.status, done.error, done.bytes), (0, "", self.SECTION))

    def test_without_names(self):
        done = self.bare(data="script\n  v63 := v0\n")
        self.assertEqual((done.status, done.error, done.bytes), (0, "", record(1, 63, left=(1, 0))))

    def test_it_is_the_script_section_of_a_job(self):
        done = self.over((VARIABLES + TREE).encode())
        self.assertIn(done.bytes, assembled(VARIABLES + TREE + self.SCRIPT))

    def test_an_empty_script(self):
        self.assertEqual((self.bare(data="script\n").status, self.bare(data="script\n").bytes), (0, b""))

    def test_to_a_file_beside_the_source(self):
        with scratch() as folder:
            path = Path(folder, "x.yoke")
            path.write_text("script\n  first child\n")
            self.assertEqual(tool("assemble", "--bare", str(path)).status, 0)
            self.assertEqual(Path(folder, "x.section").read_bytes(), record(9))
            path = path.rename(Path(folder, "x.section"))
            done = tool("assemble", "--bare", str(path))
            self.assertEqual(done.status, 2)
            self.assertIn("the section would be written over its source", done.error)

    def test_mistakes(self):
        for text, message in (
                ("script\n  print a\n", ":2:9: error: there is no variable 'a'; the variables are those of a job that is not named: v0 to v63"),
                ("variables\n  a = 1\nscript\n  up\n", ":1:1: error: a follow-on script has no variables of its own"),
                ("tree\n  a = 1\nscript\n  up\n", ":1:1: error: a follow-on script has no tree of its own"),
                ("# nothing\n", ": a follow-on script has the section script"),
                (assembled(TREE), ": this is a job; a follow-on script is a script section alone"),
                (record(9), ": this is no source; `tools/job list --bare` shows a bare section")):
            done = self.bare(data=text)
            self.assertEqual((done.status, done.bytes), (2, b""))
            self.assertTrue(done.error.startswith("<standard input>" + message), done.error)
        self.assertIn("there is no variable 'h'; the variables are those of ", self.over(b"variables\n  a = 0\n").error)

    def test_a_script_that_the_monitor_refuses_is_written_with_a_warning(self):
        deep = "script\n" + "".join(" " * (n + 2) + "if 1\n" for n in range(17)) + " " * 19 + "up\n"
        for text, place, number, records in ((deep, ":18:19:", 8, 35), ("script\n" + "  up\n" * 1025, ":", 11, 1025)):
            done = self.bare(data=text)
            self.assertEqual((done.status, len(done.bytes)), (0, 16 * records))
            self.assertTrue(done.error.startswith(f"<standard input>{place} warning: the monitor refuses this script with {number} ("), done.error)
            self.assertNotIn("--tree", done.error)


if __name__ == "__main__":
    unittest.main()
