#!/usr/bin/env python3
"""Spells the definitions and lemmas of this repository in snake case, as today's Rattle does.

usage: tools/respell.py [FOLDER]     run once, right after the toolchain's port.py, at the top of the repository (or on FOLDER)

A name that a file of specs/ or a file of laws in proofs/ declares gets underscores: firstFault is first_fault, scan-next is scan_next.
Where a definition and a law would fall together, the law gets the ending _law. Names of a library stay, and so do functions of src/.
It goes by words and proves nothing.
"""
import os
import re
import sys

ROOT = sys.argv[1] if len(sys.argv) > 1 else "."
WORD = re.compile(r'[^\s(){}.;,@"«»]+')
NAME = re.compile(r"[A-Za-z_]\w*")
DECLARED = re.compile(r'(?m)^[ \t]*(?:(?:pub|unfoldable|abbrev|private|ruleset)\s+)*([^\s(){}.;,@"«»:]+)(?:\s*\{[^{}\n]*\})*\s+:(?=\s|$)')
USE = re.compile(r"\buse\s+([^\s;{]+?)\.?(?:\{([^}]*)\})?(?=\s|;|$)")
# a comment: a dash pair behind nothing that is part of a word
COMMENT = re.compile(r'((?<![^\s(){}.;,@"«»])--[^\n]*)')
# laws that would fall together with the definition that they are about
LAWS = set(
    """level-at stop-number with-space with-tree new-label no-parent new-parent is-end script-at bare-fits cover-fits expression-fits variable-in is-back end-code
    follow-on by-if put-node label-fits turned-back told-by seen-on all-free ending-in lines-in in-front seen-label variable-at head-is tree-list at-end variable-size
    variables-at nodes-at trailer-at variable-count node-count record-count variable-clean label-rule left-rule child-rule all-levels is-if same-side seen-variable
    expression-rule reads-right parent-rule node-rule record-reads four-seen operand-level secret-if job-store trailer-size with-link faithful-to-log faithful-to-house
    is-zero plan-code left-of on-path""".split()
)
# the same, of laws that port.py has spelled already
SPELLED = "node_in after_leave back_on past_end no_place goes_on one_more one_less".split()


def files(ending):
    for folder, below, names in os.walk(os.path.join(ROOT, "crates")):
        below[:] = sorted(d for d in below if d != "out")
        for n in sorted(names):
            if n.endswith(ending):
                yield os.path.join(folder, n)


def read(path):
    with open(path, encoding="utf-8") as f:
        return f.read()


def snake(name):
    return re.sub(r"(?<=[a-z0-9])[A-Z]", lambda m: "_" + m[0].lower(), name).replace("-", "_")


def main():
    crates = set(os.listdir(os.path.join(ROOT, "crates")))
    table, libraries, lent = {}, {}, set()
    for path in files(".antt"):
        text = read(path)
        if re.search(r"/(specs|proofs)/[^/]+\.antt$", path):
            for m in DECLARED.finditer(text):
                if re.match("[a-z]", m[1]) and snake(m[1]) != m[1]:
                    table[m[1]] = snake(m[1]) + ("_law" if m[1] in LAWS else "")
        libraries[path] = set()
        for m in USE.finditer(text):
            if not (m[1].startswith("Rattle.") and m[1].split(".")[1] in crates):
                libraries[path] |= {i.split(" as ")[0].strip() for i in (m[2] or "").split(",")}
        lent |= libraries[path]
    own = {n: n + "_law" for n in SPELLED}
    for path in files(".antt"):
        text = read(path)
        of_function = not re.search(r"/(specs|proofs)/[^/]+\.antt$", path)

        def turn_in(part):
            def turn(m):
                word, dotted = m[0], m.start() > 0 and part[m.start() - 1] == "."
                if word in libraries[path]:
                    return word
                if word in own:
                    return word if dotted else own[word]
                if word in table and dotted and of_function and word in LAWS:
                    return snake(word)
                return table.get(word, word)

            return turn

        new = "".join(
            re.sub(r"`[^`\n]*`", lambda s: WORD.sub(turn_in(s[0]), s[0]), part) if part.startswith("--") else WORD.sub(turn_in(part), part)
            for part in COMMENT.split(text)
        )
        if new != text:
            with open(path, "w", encoding="utf-8") as f:
                f.write(new)
    for path in files(".rt"):
        text = read(path)
        new = re.sub(r'"(?:[^"\\]|\\.)*"|[A-Za-z_]\w*', lambda m: table.get(m[0], m[0]), text)
        if new != text:
            with open(path, "w", encoding="utf-8") as f:
                f.write(new)
    print(f"respell: {len(table)} names; {sorted(lent & set(table))} stay where a library's are meant")


main()
