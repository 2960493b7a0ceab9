"""What the tests of tools/job share: the tool as modules and as a program, the repository's programs, generated jobs."""

import importlib
import io
import os
import re
import struct
import subprocess
import sys
import tempfile
from pathlib import Path
from unittest import mock

HOME = Path(__file__).resolve().parent.parent.parent
TOOL = HOME / "tools" / "job"


class Package:
    """The names of all modules behind tools/job, as if they were one."""

    def __init__(self):
        sys.path.insert(0, str(TOOL.parent))
        self.modules = [importlib.import_module(f"yoke.{path.stem}") for path in sorted((TOOL.parent / "yoke").glob("[a-z]*.py"))]

    def __getattr__(self, name):
        for module in self.modules:
            if hasattr(module, name):
                return getattr(module, name)
        raise AttributeError(name)


job = Package()


def program(name):
    """A program of the repository. Without it there is nothing to test."""
    path = HOME / "target" / "bin" / name
    if not path.is_file():
        raise RuntimeError(f"{path} is missing: run `tools/build {name}` first")
    return str(path)


def generator():
    path = HOME / "reference" / "target" / "release" / "jobs"
    if not path.is_file():
        raise RuntimeError(f"{path} is missing: run `cargo build --release --bin jobs` in reference/")
    return str(path)


def generated(kind, seed, count):
    """Jobs of the reference's generator."""
    data = subprocess.run([generator(), kind, str(seed), str(count)], stdout=subprocess.PIPE, check=True).stdout
    jobs, at = [], 0
    while at < len(data):
        (length,) = struct.unpack_from("<I", data, at)
        jobs.append(data[at + 4:at + 4 + length])
        at += 4 + length
    assert len(jobs) == count, (len(jobs), count)
    return jobs


def played(first, sections, budget, places=512, lines=256):
    """What history says of a job and of each bare section behind it, as lists of lines."""
    events = b"".join(struct.pack("<IIIHH", kind, len(data), budget, places, lines) + data
                      for kind, data in [(0, first)] + [(1, data) for data in sections])
    text = subprocess.run([program("history")], input=events, stdout=subprocess.PIPE, check=True).stdout.decode()
    heads = ["job 0"] + [f"script {number}" for number in range(1, len(sections) + 1)]
    answers = []
    for row in text.splitlines():
        if len(answers) < len(heads) and row == heads[len(answers)]:
            answers.append([])
        else:
            answers[-1].append(row)
    assert len(answers) == len(heads), (len(answers), len(heads))
    return answers


def replayed(jobs, budget, places=None, lines=256):
    """What replay says of each job, as lists of its lines; places are 512, or one number for each job."""
    frames = b"".join(struct.pack("<IIHH", len(data), budget, room, lines) + data
                      for data, room in zip(jobs, places or [512] * len(jobs)))
    text = subprocess.run([program("replay")], input=frames, stdout=subprocess.PIPE, check=True).stdout.decode()
    answers = [part.split("\n")[1:] for part in ("\n" + text).split("\njob ")[1:]]
    assert len(answers) == len(jobs), (len(answers), len(jobs))
    return [[line for line in answer if line] for answer in answers]


class Done:
    """A call of tools/job that has ended."""

    def __init__(self, status, output, error):
        self.status = status
        self.bytes = output
        self.error = error.decode()

    @property
    def output(self):
        return self.bytes.decode()


def tool(*words, data=b"", **variables):
    """tools/job, called in this process: a process for each call would take most of a test's time."""
    given = io.TextIOWrapper(io.BytesIO(data.encode() if isinstance(data, str) else data))
    output, error = (io.TextIOWrapper(io.BytesIO()) for _ in range(2))
    with mock.patch.multiple(sys, stdin=given, stdout=output, stderr=error), mock.patch.dict(os.environ, variables):
        try:
            status = job.main(list(words))
        except SystemExit as leaving:
            status = leaving.code
        output.flush()
        error.flush()
    return Done(status, output.buffer.getvalue(), error.buffer.getvalue())


def tool_process(*words, data=b""):
    """tools/job as its users call it, from the repository's root."""
    done = subprocess.run(["tools/job", *words], input=data, cwd=HOME, stdout=subprocess.PIPE, stderr=subprocess.PIPE, check=False)
    return Done(done.returncode, done.stdout, done.stderr)


def assembled(text):
    """A source's bytes."""
    return job.parse(text, "test").job.encode()


def examples():
    """The sources of examples/ that have a tree. The others are scripts over one: NAME-1, NAME-2 .. over that of NAME."""
    return [path for path in sorted((HOME / "examples").glob("*.yoke")) if not re.search(r"-\d+$", path.stem)]


def scripts_of(base):
    """The scripts over the tree of an example, in order."""
    return sorted(base.parent.glob(f"{base.stem}-[0-9].yoke"))


def scratch():
    return tempfile.TemporaryDirectory()
