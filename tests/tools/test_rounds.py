"""Jobs that take turns: who ends when, as the program rounds says."""

import unittest

from support import HOME, job, program, scratch, tool

FOREVER = "tree\n  resort = 10\nscript\n  while 1\n    empty\n"
SHORT = "tree\n  resort = 10\nscript\n  print value\n"
STOPPED = "tree\n  resort = 10\nscript\n  up\n"


def files(folder, *sources):
    paths = []
    for number, source in enumerate(sources):
        paths.append(f"{folder}/{number}.yoke")
        with open(paths[-1], "w", encoding="utf-8") as file:
            file.write(source)
    return paths


class Rounds(unittest.TestCase):
    def said(self, sources, *options):
        """The exit status, and the lines before the last words, without the folder."""
        with scratch() as folder:
            done = tool("rounds", *files(folder, *sources), *options, ROUNDS=program("rounds"))
            self.assertEqual(done.error, "")
            lines, words = done.output.replace(f"{folder}/", "").split("\n\n")
            self.assertTrue(words.startswith("Each run ends as it does by itself"))
            return done.status, lines.split("\n")

    def test_the_example(self):
        names = [f"examples/{name}.yoke" for name in ("day", "buses", "guests")]
        done = tool("rounds", *(str(HOME / name) for name in names), ROUNDS=program("rounds"))
        self.assertEqual(done.status, 0)
        self.assertEqual(done.output.replace(f"{HOME}/", "").split("\n")[:3],
                         ["turn 2  examples/buses.yoke: finished after 33 steps, in 1 turn",
                          "turn 3  examples/guests.yoke: finished after 28 steps, in 1 turn",
                          "turn 5  examples/day.yoke: finished after 14,402 steps, in 3 turns"])

    def test_who_ends_when(self):
        self.assertEqual(self.said([SHORT]), (0, ["turn 1  0.yoke: finished after 1 step, in 1 turn"]))
        self.assertEqual(self.said([FOREVER, SHORT, STOPPED], "--budget", "12000"),
                         (1, ["turn 2  1.yoke: finished after 1 step, in 1 turn",
                              "turn 3  2.yoke: stopped with 22 (node does not exist) after 0 steps, in 1 turn",
                              "turn 5  0.yoke: stopped with 25 (budget used up) after 12,000 steps, in 3 turns"]))

    def test_nine(self):
        """The ninth is refused, and so is a job that no check would take."""
        status, lines = self.said([SHORT] * 9)
        self.assertEqual((status, lines[0], len(lines)), (1, "8.yoke: refused with 15 (no place free)", 9))
        status, lines = self.said([SHORT] * 3, "--budget", "0")
        self.assertEqual((status, lines), (1, [f"{number}.yoke: refused with 9 (budget out of range)" for number in range(3)]))

    def test_the_largest_budget(self):
        status, lines = self.said([FOREVER] * 8, "--budget", "1000000")
        self.assertEqual((status, len(lines)), (1, 8))
        self.assertEqual(lines[-1], "turn 1600  7.yoke: stopped with 25 (budget used up) after 1,000,000 steps, in 200 turns")

    def test_one_standard_input(self):
        self.assertEqual(tool("rounds", "-", "-").status, 2)

    def test_another_program(self):
        with scratch() as folder:
            done = tool("rounds", *files(folder, SHORT), ROUNDS="/bin/cat")
            self.assertEqual((done.status, done.output), (2, ""))
            self.assertIn("rounds answered in a form that this tool does not know", done.error)

    def test_numbers(self):
        self.assertEqual((job.MAX_RUNS, job.TURN_STEPS), (8, 5_000))


if __name__ == "__main__":
    unittest.main()
