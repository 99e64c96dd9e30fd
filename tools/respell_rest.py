#!/usr/bin/env python3
"""Turns what tools/respell.py left in the old spelling: variables, the other names of a module or an item that a `use` line gives, constructors of which two stand on a line. Run once, at the
top of the checkout. It names each of them.
"""

import os
import re
import subprocess

NAME = re.compile(r"[^\s(){}\[\].,;⟨⟩|`\"]+")
NAMES = (
    "actionLimit pairLimit outcomeRows x-over x-next x-whole x-begun x-there y-begun y-next y-there on-leaf on-node none-held none-there at-hand the-left the-right k-large n-large less-deep"
    " shown-is not-undone not-one zero-there same-fault the-files as-small minute-small sixty-four file-len live-a live-b of-sheet of-plan of-job of-judge"
).split()


def snake(name):
    return re.sub(r"([a-z0-9])([A-Z])", lambda m: m[1] + "_" + m[2].lower(), name).replace("-", "_")


def main():
    names = {old: snake(old) for old in NAMES}
    for folder, dirs, files in os.walk("crates"):
        dirs[:] = sorted(d for d in dirs if d not in ("out", "data"))
        for f in sorted(files):
            if not f.endswith((".antt", ".rt", ".edit")):
                continue
            path = os.path.join(folder, f)
            with open(path, encoding="utf-8") as file:
                text = file.read()
            # the first line of an edit is prose
            head, line, rest = text.partition("\n") if f.endswith(".edit") else ("", "", text)
            new = head + line + NAME.sub(lambda m: names.get(m[0], m[0]), rest)
            if new != text:
                with open(path, "w", encoding="utf-8") as file:
                    file.write(new)
    for crate in sorted(os.listdir("crates")):
        subprocess.run(["rt", "fmt"], cwd=os.path.join("crates", crate), stdout=subprocess.DEVNULL, stderr=subprocess.DEVNULL, check=True)


if __name__ == "__main__":
    main()
