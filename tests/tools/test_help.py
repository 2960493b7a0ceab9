"""Help texts, and the help pages of the endings."""

import unittest

from support import HOME, job, tool, tool_process

VERBS = ("assemble", "list", "clean", "arrange", "picture", "explain", "run", "rounds", "probe")


class Help(unittest.TestCase):
    def test_each_fits_in_80_columns(self):
        for words in (("--help",), *((verb, "--help") for verb in VERBS)):
            with self.subTest(words):
                done = tool(*words, COLUMNS="80")
                self.assertEqual((done.status, done.error), (0, ""))
                self.assertEqual([line for line in done.output.split("\n") if len(line) > 80], [])

    def test_the_source_in_the_help_is_one(self):
        help_text = tool("--help", COLUMNS="80").output
        source = help_text.split("a source:\n")[1].split("\nstatements:\n")[0]
        parsed = job.parse(source, "help")
        self.assertIsNone(job.check(parsed.job.encode()))
        self.assertEqual(len(parsed.job.nodes), 5)

    def test_the_commands_in_the_help_are_all(self):
        help_text = tool("--help", COLUMNS="80").output.split("statements:\n")[1]
        for row in job.COMMANDS:
            if row.words != "end":
                self.assertIn(row.words, help_text)

    def test_where_a_board_ends_is_said_in_plain_words(self):
        for words in (("--help",), ("probe", "--help")):
            text = " ".join(tool(*words, COLUMNS="80").output.split())
            self.assertRegex(text, "[Ww]here (a board|it) ends may depend on house numbers")
            self.assertIn("show a board only where the run has finished", text)

    def test_the_leak_in_the_help_is_one(self):
        text = tool("probe", "--help", COLUMNS="80").output
        source = text[text.index("  variables\n"):text.index("\nSo a board of n lines")]
        for beds, lines in ((40, 40), (7, 7), (100, 100), (0, 100), (101, 100)):
            run = job.Run(job.parse(source.replace("beds house = 40", f"beds house = {beds}"), "help")).go()
            self.assertEqual(run.board, [(number, 0) for number in range(1, lines + 1)])

    def test_no_verb(self):
        done = tool()
        self.assertEqual(done.status, 2)
        self.assertIn("VERB", done.error)

    def test_as_a_program(self):
        self.assertEqual(tool_process("explain", "0").output, "0 is no fault: the script came to its end.\n")


class Explain(unittest.TestCase):
    def test_each_page(self):
        for number, name in job.ENDINGS.items():
            if number:
                done = tool("explain", str(number))
                self.assertEqual((done.status, done.error), (0, ""))
                self.assertEqual(done.output, (HOME / "docs" / "endings" / f"{number:02}.md").read_text(encoding="utf-8"))
                self.assertTrue(done.output.startswith(f"# {number}: {name}\n"))
                self.assertEqual([line for line in done.output.split("\n") if len(line) > 80], [])

    def test_the_list(self):
        done = tool("explain")
        for number, name in job.ENDINGS.items():
            self.assertIn(f"  {number:2}  {name}\n", done.output)

    def test_no_such_ending(self):
        for number in ("16", "20", "28"):
            done = tool("explain", number)
            self.assertEqual((done.status, done.output), (2, ""))
            self.assertIn(f"there is no ending {number}", done.error)

    def test_no_number(self):
        self.assertEqual(tool("explain", "flow").status, 2)


if __name__ == "__main__":
    unittest.main()
