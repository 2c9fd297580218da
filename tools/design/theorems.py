#!/usr/bin/env python3
"""Compares what README and docs/ name, by text: each name that they quote and that a file of specs/ or proofs/ declares.

usage: theorems.py OLD NEW    two checkouts; prints what is gone, and each old statement that no declaration of the name has any more, and then how many names
                              were compared. A declaration that came beside one of the same name is no difference.
"""

import pathlib
import re
import sys

DECLARED = re.compile(r"^(?:(?:unfoldable|abbrev) )?(?:pub )?([\w\-]+) : ((?:.|\n(?=\s))*)", re.M)


def declared(folder):
    """The statements of each name, white space apart."""
    found = {}
    crates = pathlib.Path(folder) / "crates"
    for path in [*crates.glob("*/specs/*.antt"), *crates.glob("*/proofs/**/*.antt")]:
        for name, statement in DECLARED.findall(path.read_text(encoding="utf-8")):
            found.setdefault(name, set()).add(" ".join(statement.split()))
    return found


def quoted(folder):
    """The words that README and docs/ quote; docs/PORT.md lists what was, and is left out."""
    pages = [pathlib.Path(folder) / "README.md", *(pathlib.Path(folder) / "docs").glob("*.md")]
    return {word for page in pages if page.name != "PORT.md" for word in re.findall(r"`([\w\-]+)`", page.read_text(encoding="utf-8"))}


def main():
    old, new = sys.argv[1:3]
    before, after = declared(old), declared(new)
    names = sorted(quoted(old) & before.keys())
    for name in names:
        if name not in after:
            print(f"gone: {name}")
        for statement in sorted(before[name] - after.get(name, set())):
            print(f"reads otherwise: {name} : {statement}")
    print(f"{len(names)} names compared")


if __name__ == "__main__":
    main()
