#!/usr/bin/env python3
"""Prints what reads otherwise in public signatures, clauses and definitions, old and new, as docs/DESIGN-PASS.md has it.

usage: changed.py OLD NEW    two checkouts; what differs is found by the kit's contracts.py
"""

import json
import pathlib
import re
import subprocess
import sys
import textwrap

TOOL = "/opt/rattle/port/contracts.py"


def is_public(folder, place):
    """Whether the function that contracts.py names (crate, file, name) is a `pub fn` in the folder."""
    crate, path, *name = place.split(" ")
    source = pathlib.Path(folder) / "crates" / crate / path
    return source.exists() and re.search(rf"^\s*pub (extern \"C\" )?fn {re.escape(name[-1])}\b", source.read_text(encoding="utf-8"), re.M) is not None


def lines(mark, text):
    text = re.sub(r"\s+", " ", text).strip()
    return textwrap.wrap(f"    {mark} {text}", 152, subsequent_indent="      ", break_long_words=False, break_on_hyphens=False)


def clauses(mark, kind, found):
    for name, text in found:
        yield from lines(mark, f"{kind} {name} {text}".replace("  ", " "))


def main():
    old, new = sys.argv[1:3]
    found = json.loads(subprocess.run(["python3", TOOL, old, new, "--json"], capture_output=True, text=True, check=True).stdout)
    signatures = {place: (a, b) for place, a, b in found["signatures changed"]}
    contracts = {place: rest for place, *rest in found["contracts changed"]}
    for place in sorted(signatures.keys() | contracts.keys()):
        if not (is_public(old, place) or is_public(new, place)):
            continue
        crate, path, *name = place.split(" ")
        print(f"- `{crate}` {path} `{' '.join(name)}`\n")
        if place in signatures:
            for mark, text in zip("-+", signatures[place]):
                print("\n".join(lines(mark, text)))
        if place in contracts:
            requires_old, ensures_old, requires_new, ensures_new = contracts[place]
            for mark, requires, ensures in (("-", requires_old, ensures_old), ("+", requires_new, ensures_new)):
                same = requires_old == requires_new
                both = ([] if same else list(clauses(mark, "requires", requires))) + ([] if ensures_old == ensures_new else list(clauses(mark, "ensures", ensures)))
                print("\n".join(both), end="\n" if both else "")
        print()
    print("Definitions:\n")
    for crate, name, a, b in found["definitions"]["changed"]:
        print(f"- `{crate}` `{name}`\n")
        for mark, text in (("-", a), ("+", b)):
            print("\n".join(lines(mark, " ".join(text) if isinstance(text, list) else text)))
        print()


if __name__ == "__main__":
    main()
