"""No traceback: odd numbers, odd bytes, full and closed streams, interrupts. The exit status is what the help says."""

import os
import pty
import shutil
import signal
import subprocess
import sys
import time
import unittest
from pathlib import Path

from support import HOME, assembled, program, scratch, tool

SOURCE = "tree\n  resort = 10\nscript\n  print value\n"
SEASON = (HOME / "examples" / "season.yoke").read_text(encoding="utf-8")
LOOP = "variables\n  h house = 1\ntree\n  resort = 10\nscript\n  while 1\n    h := h - 1\n"


def shell(command, data=b""):
    """A command of the shell in the repository's root: its status and what it said."""
    variables = dict(os.environ, INSPECT=program("inspect"), REPLAY=program("replay"), HISTORY=program("history"))
    done = subprocess.run(["bash", "-c", command], input=data, cwd=HOME, env=variables, stdout=subprocess.PIPE,
                          stderr=subprocess.PIPE, check=False)
    return done.returncode, done.stdout.decode(), done.stderr.decode()


class Numbers(unittest.TestCase):
    def test_thousands_of_digits(self):
        digits = "9" * 5_000
        for text, place in ((f"variables\n  a = {digits}\n", "2:7"), (f"tree\n  a = -{digits}\n", "2:7"),
                            (f"tree\n  a = 1 record {digits}\n", "2:9"), (f"tree\n  a = 1\nscript\n  print {digits}\n", "4:9")):
            done = tool("assemble", "-", "-o", "-", data=text)
            self.assertEqual((done.status, done.bytes), (2, b""))
            self.assertTrue(done.error.startswith(f"<standard input>:{place}: error: "), done.error)
            self.assertLess(len(done.error), 600)

    def test_many_zeros_are_no_large_number(self):
        self.assertEqual(assembled(f"tree\n  a = {'0' * 5_000}10\n"), assembled("tree\n  a = 10\n"))

    def test_options(self):
        for words in (("explain", "9" * 5_000), ("explain", "²"), ("run", "-", "--budget", "9" * 5_000), ("run", "-", "--places", "514"),
                      ("run", "-", "--lines", "-1"), ("run", "-", "--budget", "4294967296"), ("probe", "-", "--count", "0")):
            done = tool(*words, data=SOURCE)
            self.assertEqual((done.status, done.output), (2, ""), words[0])
            self.assertIn("is no number from", done.error)


class OddBytes(unittest.TestCase):
    def test_control_characters_are_not_sent_to_the_terminal(self):
        done = tool("assemble", "-", "-o", "-", data="tree\n  a = 1\nscript\n  print \x1b[31m1 \u202e\n")
        self.assertEqual(done.status, 2)
        self.assertTrue(done.error.startswith("<standard input>:4:9: error: the character U+001B has no meaning here\n"), done.error)
        self.assertIn("     4 |   print \ufffd[31m1 \ufffd\n       |         ^\n", done.error)

    def test_a_tab_takes_one_column(self):
        done = tool("assemble", "-", "-o", "-", data="tree\n  a\t=\tx\n")
        self.assertIn("     2 |   a = x\n       |       ^\n", done.error)

    def test_wide_letters_take_two_columns(self):
        done = tool("assemble", "-", "-o", "-", data="tree\n  雪山 = x\n")
        self.assertIn(":2:8: error", done.error)
        self.assertIn("     2 |   雪山 = x\n       |          ^\n", done.error)

    def test_a_long_line_is_quoted_in_part(self):
        done = tool("assemble", "-", "-o", "-", data="tree\n  " + "a" * 5_000 + " $ 1\n")
        self.assertIn(":2:5004: error: '$' has no meaning here\n", done.error)
        line, carets = done.error.split("\n")[1:3]
        self.assertLess(len(line), 150)
        self.assertEqual(line[carets.index("^")], "$")

    def test_a_path_of_any_bytes(self):
        with scratch() as folder:
            path = os.path.join(folder.encode(), b"x\xff\x1b.yoke")
            Path(os.fsdecode(path)).write_text("tree\n  a = x\n")
            done = subprocess.run([sys.executable, "tools/job", "assemble", path], cwd=HOME, stdout=subprocess.PIPE,
                                  stderr=subprocess.PIPE, check=False)
        self.assertEqual(done.returncode, 2)
        self.assertIn("x\ufffd\ufffd.yoke:2:7: error: 'x' stands where a number is expected\n", done.stderr.decode())

    def test_utf_16(self):
        for verb in ("assemble", "run", "picture", "list"):
            done = tool(verb, "-", data="tree\n  a = 1\n".encode("utf-16"))
            self.assertEqual((done.status, done.bytes), (2, b""))
            self.assertIn("this is UTF-16", done.error)


class Streams(unittest.TestCase):
    def test_a_full_disk(self):
        for call in ("--help", "run --help", "explain", "explain 21", "run examples/first.yoke", "picture examples/first.yoke",
                     "picture examples/first.yoke --svg -", "assemble examples/first.yoke -o -", "probe examples/guests.yoke --count 3",
                     "run examples/depths.yoke --trace", "run examples/season.yoke examples/season-1.yoke",
                     "assemble --bare examples/season-1.yoke --tree examples/season.yoke -o -"):
            with self.subTest(call):
                status, _, error = shell(f"tools/job {call} > /dev/full")
                self.assertEqual((status, error), (2, "tools/job: standard output: No space left on device\n"))

    def test_a_file_on_a_full_disk(self):
        status, output, error = shell("tools/job assemble examples/first.yoke -o /dev/full")
        self.assertEqual((status, output, error), (2, "", "/dev/full: No space left on device\n"))

    def test_standard_output_is_closed(self):
        status, _, error = shell("tools/job run examples/first.yoke >&-")
        self.assertEqual((status, error), (2, "tools/job: standard output: Bad file descriptor\n"))

    def test_standard_input_is_closed(self):
        status, output, error = shell("tools/job run - <&-")
        self.assertEqual((status, output, error), (2, "", "<standard input>: Bad file descriptor\n"))

    def test_standard_error_is_closed_or_full(self):
        for end in ("2>&-", "2>/dev/full"):
            self.assertEqual(shell(f"tools/job run no-such-file {end}"), (2, "", ""))
            self.assertEqual(shell(f"tools/job no-such-verb {end}"), (2, "", ""))

    def test_all_are_closed(self):
        self.assertEqual(shell("tools/job run examples/first.yoke <&- >&- 2>&-"), (2, "", ""))
        self.assertEqual(shell("tools/job run - <&- >&- 2>&-"), (2, "", ""))

    def test_closed_streams_do_not_swallow_files(self):
        with scratch() as folder:
            target = Path(folder, "x.job")
            status, _, _ = shell(f"tools/job assemble examples/first.yoke -o {target} <&- >&- 2>&-")
            self.assertEqual(status, 0)
            self.assertEqual(target.read_bytes(), assembled((HOME / "examples" / "first.yoke").read_text()))

    def test_the_reader_leaves(self):
        status, output, error = shell("set -o pipefail; tools/job run - --trace | head -n 1", LOOP.encode())
        self.assertEqual((status, output.count("\n"), error), (2, 1, ""))

    def test_an_interrupt(self):
        with scratch() as folder:
            slow = Path(folder, "inspect")
            slow.write_text(f"#!/bin/sh\ntouch {folder}/begun\nexec sleep 60\n")
            slow.chmod(0o755)
            # Whoever starts the tests in the background has them ignore interrupts; the tool must not inherit that.
            child = subprocess.Popen([sys.executable, "tools/job", "run", "examples/first.yoke"], cwd=HOME, stdout=subprocess.PIPE,
                                     stderr=subprocess.PIPE, env=dict(os.environ, INSPECT=str(slow)), start_new_session=True,
                                     preexec_fn=lambda: signal.signal(signal.SIGINT, signal.SIG_DFL))
            for _ in range(300):
                if Path(folder, "begun").exists():
                    break
                time.sleep(0.1)
            os.killpg(child.pid, signal.SIGINT)
            output, error = child.communicate(timeout=30)
        self.assertEqual((child.returncode, output, error), (-signal.SIGINT, b"", b""))

    def test_a_mistake_of_the_tool_is_no_traceback(self):
        """A module that fails: the message names the place."""
        with scratch() as folder:
            code = ("import sys; sys.path.insert(0, 'tools'); from yoke import verbs\n"
                    "def fails(options): raise KeyError('x')\n"
                    "verbs.do_explain = fails\nsys.exit(verbs.main(['explain']))\n")
            path = Path(folder, "call.py")
            path.write_text(code)
            done = subprocess.run([sys.executable, "-B", str(path)], cwd=HOME, stdout=subprocess.PIPE, stderr=subprocess.PIPE, check=False)
        self.assertEqual((done.returncode, done.stdout), (2, b""))
        self.assertEqual(done.stderr.decode(), "tools/job: a mistake in this tool, at call.py line 2: KeyError: 'x'\nPlease report this.\n")


class Progress(unittest.TestCase):
    CALL = [sys.executable, "tools/job", "probe", "examples/guests.yoke", "--count", "4000"]

    def test_on_a_terminal(self):
        main, other = pty.openpty()
        done = subprocess.run(self.CALL, cwd=HOME, stdout=subprocess.PIPE, stderr=other, check=False)
        os.close(other)
        shown = ""
        try:
            while True:
                shown += os.read(main, 65_536).decode()
        except OSError:  # all is read
            os.close(main)
        self.assertEqual(done.returncode, 0)
        self.assertRegex(shown, r"\r[0-9,]+ of 4,000 runs")
        self.assertTrue(shown.endswith(" \r"), shown)

    def test_nowhere_else(self):
        done = subprocess.run(self.CALL, cwd=HOME, stdout=subprocess.PIPE, stderr=subprocess.PIPE, check=False)
        self.assertEqual((done.returncode, done.stderr), (0, b""))


class Programs(unittest.TestCase):
    def test_a_program_that_cannot_be_run(self):
        with scratch() as folder:
            path = Path(folder, "inspect")
            path.write_text("no program\n")
            done = tool("run", "-", data=SOURCE, INSPECT=str(path))
        self.assertEqual((done.status, done.output), (2, ""))
        self.assertIn("cannot be run: Permission denied", done.error)

    def test_a_program_that_dies(self):
        with scratch() as folder:
            path = Path(folder, "x")
            path.write_text("#!/bin/sh\nkill -9 $$\n")
            path.chmod(0o755)
            for words in (("run", "-"), ("run", "-", "--budget", "5"), ("run", "-", str(HOME / "examples" / "season-1.yoke")), ("probe", "-")):
                done = tool(*words, data=SEASON if len(words) == 3 else LOOP, INSPECT=str(path), REPLAY=str(path), HISTORY=str(path))
                self.assertEqual((done.status, done.output), (2, ""))
                self.assertNotIn("a mistake in this tool", done.error)

    def test_replay_answers_something_else(self):
        for said in ("hello", "job 0\\nending x", "job 1", "job 0\\nending 0 index 0 steps 1 lines 2\\nline 1", "truncated"):
            with scratch() as folder:
                path = Path(folder, "replay")
                path.write_text(f"#!/bin/sh\ncat >/dev/null\nprintf '{said}\\n'\n")
                path.chmod(0o755)
                done = tool("run", "-", "--budget", "5", data=SOURCE, REPLAY=str(path))
            self.assertEqual((done.status, done.output), (2, ""), said)
            self.assertIn("replay answered in a form that this tool does not know", done.error)

    def test_the_command_that_builds_them(self):
        for words, name in ((("run", "-"), "inspect"), (("run", "-", "--lines", "3"), "replay"), (("probe", "-"), "replay"),
                            (("run", "-", str(HOME / "examples" / "season-1.yoke")), "history")):
            data = SEASON if name == "history" else LOOP
            done = tool(*words, data=data, INSPECT="/no/such", REPLAY="/no/such", HISTORY="/no/such")
            self.assertEqual((done.status, done.output), (2, ""))
            self.assertIn(f"the program {name} is not there", done.error)
            self.assertIn("run this in the repository:  make programs\n", done.error)
        with scratch() as folder:  # as in a fresh clone
            shutil.copytree(str(HOME / "tools"), folder + "/tools")
            shutil.copytree(str(HOME / "examples"), folder + "/examples")
            variables = {name: value for name, value in os.environ.items() if name not in ("INSPECT", "REPLAY", "HISTORY")}
            for files in (["examples/first.yoke"], ["examples/season.yoke", "examples/season-1.yoke"]):
                done = subprocess.run(["tools/job", "run", *files], cwd=folder, env=variables, stdout=subprocess.PIPE,
                                      stderr=subprocess.PIPE, check=False)
                self.assertEqual((done.returncode, done.stdout), (2, b""))
                self.assertTrue(done.stderr.decode().endswith("run this in the repository:  make programs\n"), done.stderr)
        makefile = (HOME / "Makefile").read_text(encoding="utf-8")
        self.assertRegex(makefile, r"(?m)^programs:")


class Contents(unittest.TestCase):
    """Files are told apart by what is in them."""

    def test_a_source_with_the_name_of_a_job(self):
        with scratch() as folder:
            path = Path(folder, "x.job")
            path.write_text(SOURCE)
            self.assertIn("finished after 1 step", tool("run", str(path), INSPECT=program("inspect")).output)
            done = tool("list", str(path))
            self.assertEqual(done.status, 2)
            self.assertIn("this is a source and no job", done.error)
            done = tool("assemble", str(path))
            self.assertEqual(done.status, 2)
            self.assertIn("would be written over its source", done.error)
            self.assertEqual(path.read_text(), SOURCE)

    def test_a_job_with_the_name_of_a_source(self):
        with scratch() as folder:
            path = Path(folder, "x.yoke")
            path.write_bytes(assembled(SOURCE))
            self.assertIn("finished after 1 step", tool("run", str(path), INSPECT=program("inspect")).output)
            self.assertEqual(tool("list", str(path)).output, "tree\n  n0 = 10\nscript\n  print value\n")
            self.assertIn("this is a job and no source", tool("assemble", str(path)).error)

    def test_a_very_large_file(self):
        done = tool("run", "/dev/zero")
        self.assertEqual((done.status, done.output), (2, ""))
        self.assertIn("neither a job nor a source", done.error)


if __name__ == "__main__":
    unittest.main()
