#!/usr/bin/env python3
"""Respells this repository's own definitions and lemmas as today's library does: words in snake case, types in camel case.

usage: python3 tools/respell.py          once, at the top, right after port.py
       python3 tools/respell.py --list   prints each old name with its new one, and writes nothing

A name that specs/ or a lemma file of proofs/ declares, and that begins with a lower-case letter, loses its humps and dashes: `nodeAt` becomes
`node_at`, `free-keeps-tidy` becomes `free_keeps_tidy`. Where a lemma would get the name of a definition it gets `_lem`. Names that begin
with a capital stay, and so do a library's, functions of src/, exported names, strings, and what programs read and write. The names are turned in specs/,
proofs/, src/ (clauses and comments), must-fail edits, README.md and docs/ (between backticks).
"""

import collections
import os
import re
import sys

DECLARES = re.compile(
    r"^[ ]*(?:(?:pub|abbrev|unfoldable|mutual)\s+)*([^\s(){}\[\].,:;λ→=]+)(?: [^\n:]*?)?\s:(?!:)", re.M
)
WORD = re.compile(r"[^\W\d][\w'′₀-₉-]*|\d[\w'-]*", re.U)
KEPT_PAGES = {"01-scope.md", "02-change-requests.md"}


def files(top):
    for folder, dirs, names in os.walk(os.path.join(top, "crates")):
        dirs[:] = sorted(d for d in dirs if d != "out")
        for name in sorted(names):
            yield os.path.join(folder, name)


def is_lemma_file(path):
    return path.endswith(".antt") and ("/specs/" in path or re.search(r"/proofs/[^/]+\.antt$", path))


def snake(name):
    name = name.replace("-", "_").replace("′", "'")
    name = re.sub(r"([a-z0-9])([A-Z])", lambda m: m.group(1) + "_" + m.group(2).lower(), name)
    return re.sub(r"_([A-Z])(?=_|$)", lambda m: "_" + m.group(1).lower(), name)


def imported(top):
    """The names that some file takes from a library: they keep their spelling."""
    ours = set(os.listdir(os.path.join(top, "crates")))
    names = set()
    for path in files(top):
        if path.endswith((".antt", ".rt")):
            with open(path, encoding="utf-8") as f:
                for module, listed in re.findall(r"use\s+([\w.'+-]+)\.\{([^}]*)\}", f.read()):
                    parts = module.split(".")
                    if not (parts[0] == "Rattle" and len(parts) > 1 and parts[1] in ours):
                        names |= {n.strip().split(" as ")[-1].strip() for n in listed.split(",")}
    return names


def turned(top):
    declared = set()
    for path in files(top):
        if is_lemma_file(path):
            with open(path, encoding="utf-8") as f:
                declared |= {m.group(1) for m in DECLARES.finditer(f.read())}
    borrowed = imported(top)
    own = {n for n in declared if n[0].islower() and n[0].isascii() and re.fullmatch(r"[\w'′-]+", n)}
    groups = collections.defaultdict(list)
    for n in own:
        groups[snake(n)].append(n)
    names = {}
    for new, olds in groups.items():
        # The definition keeps the name; a lemma beside it, told by its dashes, gets _lem.
        olds.sort(key=lambda n: ("-" in n, n))
        for i, old in enumerate(olds):
            to = new if i == 0 else new + "_lem"
            if to != old and old not in borrowed:
                names[old] = to
    return names


def words(text, names):
    return WORD.sub(lambda m: names.get(m.group(0), m.group(0)), text)


def not_strings(text, names):
    return "".join(part if part.startswith('"') else words(part, names) for part in re.split(r'("(?:[^"\\\n]|\\.)*")', text))


def backticks(text, names):
    return re.sub(r"`[^`\n]+`", lambda m: words(m.group(0), names), text)


def edit(text, names):
    return "\n".join(words(line, names) if line.startswith(("old:", "new:")) else line for line in text.split("\n"))


def main(argv):
    top = os.path.dirname(os.path.dirname(os.path.realpath(__file__)))
    if os.environ.get("RESPELL_TOP"):
        top = os.environ["RESPELL_TOP"]
    names = turned(top)
    if argv == ["--list"]:
        for old in sorted(names):
            print(old, names[old])
        return 0
    pages = [os.path.join(top, "README.md")]
    pages += [os.path.join(top, "docs", p) for p in sorted(os.listdir(os.path.join(top, "docs"))) if p.endswith(".md") and p not in KEPT_PAGES]
    count = 0
    for path in [*files(top), *pages]:
        turn = None
        if path.endswith(".antt"):
            turn = words
        elif path.endswith(".rt"):
            turn = not_strings
        elif path.endswith(".edit"):
            turn = edit
        elif path.endswith(".md"):
            turn = backticks
        if turn is None:
            continue
        with open(path, encoding="utf-8") as f:
            text = f.read()
        new = turn(text, names)
        if new != text:
            with open(path, "w", encoding="utf-8") as f:
                f.write(new)
            count += 1
    print(f"respell: {len(names)} names turned, {count} files changed")
    return 0


if __name__ == "__main__":
    raise SystemExit(main(sys.argv[1:]))
