#!/usr/bin/env python3
"""Respells this repository's own definitions and lemmas as today's Rattle spells names: words in snake case, facts in camel case.

usage: python3 tools/port/respell.py [FOLDER]      once, at the top, after the kit's port.py

respell.tsv beside this script has a row for each name: old, a tab, new. Whole words turn, in every .antt file, in the clauses and `ghost use` items of
every .rt file, in must-fail edits, and in the code spans of documents. A dash stays in a lemma's name where it joins two names; where a lemma and a
definition would fall together, the lemma has `_lem`. `Potential` is a record and was a constructor too: it turns where it comes from ModelLevels.
"""
import os
import re
import sys

HERE = os.path.dirname(os.path.abspath(__file__))
WORD = re.compile(r"[^\s(){}\[\].;,@\"«»:|`]+")
with open(os.path.join(HERE, "respell.tsv"), encoding="utf-8") as f:
    TABLE = dict(line.rstrip("\n").split("\t") for line in f)
# Names that Rust has too, as fields, locals or functions: outside antt they stay.
ANTT_ONLY = {old for old in TABLE if "-" not in old and old == old.lower()}
SPANS = re.compile(r"`[^`\n]+`")
FROM_LEVELS = re.compile(r"ModelLevels\.\{[^}]*\bPotential\b")


def words(text, table):
    return WORD.sub(lambda m: table.get(m[0], m[0]), text)


def turned(path, text):
    if path.endswith(".antt"):
        table = TABLE
        if path.endswith("exchange/specs/ModelLevels.antt") or FROM_LEVELS.search(text):
            table = TABLE | {"Potential": "potential_found"}
        return words(text, table).replace("potential_found as ", "Potential as ")
    table = {old: new for old, new in TABLE.items() if old not in ANTT_ONLY}
    if path.endswith(".md"):
        return SPANS.sub(lambda m: words(m[0], table), text)
    return words(text, table)


def main(top):
    for part, endings in (("crates", (".antt", ".rt", ".edit")), ("docs", (".md",))):
        for folder, dirs, files in os.walk(os.path.join(top, part)):
            dirs[:] = sorted(d for d in dirs if d not in ("out", "landings"))
            for name in sorted(files):
                if name.endswith(endings):
                    path = os.path.join(folder, name)
                    with open(path, encoding="utf-8") as f:
                        before = f.read()
                    after = turned(path, before)
                    if after != before:
                        with open(path, "w", encoding="utf-8") as f:
                            f.write(after)


main(sys.argv[1] if len(sys.argv) > 1 else ".")
