"""docs/ARCHITECTURE.md and README.md name every crate, module, definition, proof, test and part of the tool, and none that is not there.

A crate has a section `Crate NAME` with tables headed Module, Definitions and Proofs, or a row in the table of programs. The first column has the names.
"""

import re
import unittest

from support import HOME

TEXT = (HOME / "docs" / "ARCHITECTURE.md").read_text(encoding="utf-8")
SECTIONS = dict(re.findall(r"^## ([^\n]+)\n(.*?)(?=^## |\Z)", TEXT, re.M | re.S))
CRATES = re.findall(r"^(\w+)(?: staticlib)?:", (HOME / "crates.txt").read_text(encoding="utf-8"), re.M)
TICKED = re.findall(r"`([^`\n]+)`", TEXT)


def rows(text, head):
    """The cells of each row of the tables whose head starts so."""
    found = []
    for body in re.findall(rf"^\| {re.escape(head)} \|.*\n\|[-|]+\|\n((?:\|.*\|\n?)+)", text, re.M):
        found += [[cell.strip() for cell in row.strip().strip("|").split("|")] for row in body.splitlines()]
    return found


def names(cell):
    return [name.strip("` ") for name in cell.split(",") if name.strip()]


def first_column(text, head):
    return [name for row in rows(text, head) for name in names(row[0])]


def stems(folder, pattern, without):
    return sorted(path.stem for path in (HOME / folder).glob(pattern) if path.stem not in without)


def on_disk(crate):
    return {"Module": stems(f"crates/{crate}/src", "*.rt", ("lib", "main")),
            "Definitions": stems(f"crates/{crate}/specs", "*.antt", ("Lib",)),
            "Proofs": stems(f"crates/{crate}/proofs", "*.antt", ("Lib",))}


class Crates(unittest.TestCase):
    programs = {name: names(row[1]) for row in rows(TEXT, "Program crate") for name in names(row[0])}
    sections = {title.split(" ", 1)[1]: body for title, body in SECTIONS.items() if title.startswith("Crate ")}

    def test_each_crate_once(self):
        self.assertEqual(sorted([*self.programs, *self.sections]), sorted(CRATES))

    def test_sections(self):
        for crate, body in self.sections.items():
            for head, expected in on_disk(crate).items():
                with self.subTest(crate, part=head):
                    self.assertEqual(sorted(first_column(body, head)), expected)

    def test_programs(self):
        for crate, modules in self.programs.items():
            with self.subTest(crate):
                self.assertEqual({"Module": sorted(modules), "Definitions": [], "Proofs": []}, on_disk(crate))

    def test_readme(self):
        """README's table has each crate, and besides crates only what is there."""
        listed = first_column((HOME / "README.md").read_text(encoding="utf-8"), "crate")
        self.assertEqual([name for name in listed if "/" not in name], [name for name in listed if name in CRATES])
        self.assertEqual(sorted(name for name in listed if "/" not in name), sorted(CRATES))
        for name in listed:
            self.assertTrue(name in CRATES or (HOME / name).exists(), name)


class Others(unittest.TestCase):
    def test_tests(self):
        """All that stands in tests/."""
        found = [f"tests/{path.name}" for path in (HOME / "tests").iterdir() if path.name != "__pycache__"]
        self.assertEqual(sorted(first_column(TEXT, "Test")), sorted(found))

    def test_tools(self):
        """All that stands in tools/, and the modules behind tools/job."""
        tools = [f"tools/{path.name}" for path in (HOME / "tools").iterdir() if path.name != "__pycache__"]
        self.assertEqual(sorted(first_column(TEXT, "Tool")), sorted(tools))
        modules = [path.stem for folder in (HOME / "tools").iterdir() if folder.is_dir()
                   for path in folder.glob("*.py") if path.stem != "__init__"]
        self.assertEqual(sorted(first_column(TEXT, "Module of the tool")), sorted(modules))

    def test_documents(self):
        found = [f"docs/{path.name}" for path in (HOME / "docs").iterdir()]
        self.assertEqual(sorted(first_column(TEXT, "Document")), sorted(found))


class Names(unittest.TestCase):
    """What else stands in backticks is there."""

    def test_paths(self):
        for path in TICKED:
            if not re.fullmatch(r"[\w./-]+/[\w./-]*", path):
                continue
            with self.subTest(path):
                self.assertTrue(any(list(HOME.glob(above + path.rstrip("/"))) for above in ("", "crates/", "crates/*/")))

    def test_items(self):
        """`a::b`: the crate or module a has an item b."""
        for name in TICKED:
            if not re.fullmatch(r"\w+::\w+", name):
                continue
            with self.subTest(name):
                home, item = name.split("::")
                files = [*HOME.glob(f"crates/{home}/src/*.rt"), *HOME.glob(f"crates/*/src/{home}.rt")]
                pattern = re.compile(rf"\b(?:fn|struct|enum|const|static|type|use) (?:.*\b)?{item}\b")
                self.assertTrue(any(pattern.search(path.read_text(encoding="utf-8")) for path in files))

    def test_words(self):
        """A single word: a name of the sources, the proofs, the tools, the tests, or of a file."""
        folders = ("crates", "tools", "tests", "reference", "include", "examples")
        paths = [path for folder in folders for path in (HOME / folder).rglob("*")
                 if path.is_file() and not {"target", "out"} & set(path.parts) and path.suffix not in (".a", ".pyc") and path.parent.name != "must-fail"]
        known = {path.stem for path in paths} | {path.name for path in paths} | {path.parent.name for path in paths}
        for path in paths:
            known.update(re.findall(r"[\w-]+", path.read_text(encoding="utf-8", errors="replace")))
        for word in TICKED:
            if re.fullmatch(r"\w[\w-]*", word):
                with self.subTest(word):
                    self.assertTrue(word in known, f"nothing is called {word}")


class Walks(unittest.TestCase):
    def test_explained(self):
        """The word is explained where the prose uses it first."""
        prose = re.sub(r"`[^`\n]+`|^## .*$", lambda found: "~" * len(found.group()), TEXT, flags=re.M)
        first = re.search(r"\bwalks?\b", prose).start()
        self.assertEqual(TEXT[first - 1:first + 5], "*walk*")


if __name__ == "__main__":
    unittest.main(verbosity=2)
