#!/usr/bin/env python3
"""Brings the repository's own definitions and lemmas to the spelling of today's Rattle. Run once, after the toolchain's port.py, at the top of the checkout.

Words of specs/ and proofs/ are in snake case: `mostBytes` becomes `most_bytes`, the lemma `below-first` `below_first`, the constructor `c-ok` `c_ok`. A lemma that would then have the
name of a definition gets `_lem`. Functions, fields, types and constants of src/, exported names, strings, inputs and outputs keep their names; names that a check makes for the goals of a
proof (in proofs/FUNCTION/) are left to the files that cite them. The same names are turned in the must-fail edits, and between backticks in the pages. Each crate is then laid
out anew.
"""

import collections
import os
import re
import subprocess
import sys

# Between these stand the names of a line.
NAME = re.compile(r"[^\s(){}\[\].,;⟨⟩|`\"]+")
# What a line declares: a definition, a lemma, a constructor or a field.
DECLARES = re.compile(r"^\s*(?:abbrev |unfoldable |pub |data |record |ruleset )*([^\s:{}()]+) :(?!=) ")

# Where a definition and something else would fall together.
BY_HAND = {
    # the bitwise functions of the library have these names
    "bit-and": "bit_and_lem",
    "bit-or": "bit_or_lem",
    # a field of `Reply` has the name `too_long`
    "tooLong": "too_long_line",
    # a fact is in upper camel case
    "Stands-for": "StandsFor",
    "Undo-fresh": "UndoFresh",
    "In-undo": "InUndo",
}
# In one file a lemma already has the name that a definition gets.
IN_FILE = {"crates/fewest/proofs/Searching.antt": {"any_below": "any_below_lem"}}


def sources():
    for folder, dirs, files in os.walk("crates"):
        dirs[:] = sorted(d for d in dirs if d not in ("out", "data"))
        for f in sorted(files):
            if f.endswith((".antt", ".rt", ".edit")):
                yield os.path.join(folder, f)


def snake(name):
    return re.sub(r"([a-z0-9])([A-Z])", lambda m: m[1] + "_" + m[2].lower(), name).replace("-", "_")


def renamed():
    declared = set()
    for path in sources():
        if not path.endswith(".antt") or re.search(r"/proofs/.+/", path):
            continue
        with open(path, encoding="utf-8") as f:
            for line in f:
                found = DECLARES.match(line)
                if found and not line.lstrip().startswith("--"):
                    declared.add(found[1])
    names, by = {}, collections.defaultdict(list)
    for old in sorted(declared):
        if not old[0].isupper() and snake(old) != old:
            names[old] = snake(old)
            by[snake(old)].append(old)
    for new, olds in by.items():
        if len(olds) > 1:
            for old in olds:
                if "-" in old:
                    names[old] = new + "_lem"
    names.update((old, new) for old, new in BY_HAND.items() if old in declared)
    return names


def turned(text, names):
    def line_of(line):
        parts = re.split(r'("[^"\n]*")', line)
        return "".join(p if p.startswith('"') else NAME.sub(lambda m: names.get(m[0], m[0]), p) for p in parts)

    return "\n".join(line_of(line) for line in text.split("\n"))


def main():
    names = renamed()
    taken = collections.defaultdict(set)
    for old, new in names.items():
        taken[new].add(old)
    twice = {new: olds for new, olds in taken.items() if len(olds) > 1}
    if twice:
        sys.exit(f"respell: fall together: {twice}")
    for path in sources():
        with open(path, encoding="utf-8") as f:
            text = f.read()
        if path.endswith(".edit"):
            # the first line is prose
            head, _, rest = text.partition("\n")
            new = head + "\n" + turned(rest, names)
        else:
            new = turned(text, names | IN_FILE.get(path, {}))
        if new != text:
            with open(path, "w", encoding="utf-8") as f:
                f.write(new)
    pages = [p for p in ["README.md"] + [os.path.join("docs", f) for f in sorted(os.listdir("docs")) if f.endswith(".md")] if os.path.isfile(p)]
    for path in pages:
        with open(path, encoding="utf-8") as f:
            text = f.read()
        new = re.sub(r"`[^`\n]+`", lambda m: NAME.sub(lambda n: names.get(n[0], n[0]), m[0]), text)
        if new != text:
            with open(path, "w", encoding="utf-8") as f:
                f.write(new)
    for crate in sorted(os.listdir("crates")):
        subprocess.run(["rt", "fmt"], cwd=os.path.join("crates", crate), stdout=subprocess.DEVNULL, stderr=subprocess.DEVNULL, check=True)
    for old, new in sorted(names.items()):
        print(f"{old}\t{new}")


if __name__ == "__main__":
    main()
