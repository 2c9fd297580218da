#!/usr/bin/env python3
"""Counts the places of the points of docs/DESIGN-PASS.md in the source files of a checkout.

usage: count.py [FOLDER]         the counts
       count.py [FOLDER] POINT   the places of a point, one to a line
"""

import difflib
import itertools
import pathlib
import re
import sys

LOOP = re.compile(r"^\s*(while|loop)\b")
FUNCTION = re.compile(r"\bfn\s+(\w+)")


def sources(folder):
    for path in sorted(pathlib.Path(folder).glob("crates/*/src/**/*.rt")):
        yield path.relative_to(folder), path.read_text(encoding="utf-8")


def without_comments(text):
    return re.sub(r"//[^\n]*", "", text)


def functions(folder):
    """Each function with a body: its file, name, parameters, clauses and body."""
    for path, text in sources(folder):
        code = without_comments(text)
        for found in FUNCTION.finditer(code):
            open_at = code.find("(", found.end())
            depth, end = 0, open_at
            for end in range(open_at, len(code)):
                depth += {"(": 1, ")": -1}.get(code[end], 0)
                if depth == 0:
                    break
            rest = code[end + 1:]
            clauses, at = [], 0
            while True:
                clause = re.compile(r"[^{};]*?\b(requires|ensures)\b\s*\w*\s*\{").match(rest, at)
                if not clause:
                    break
                depth, close = 1, clause.end()
                while depth:
                    depth += {"{": 1, "}": -1}.get(rest[close], 0)
                    close += 1
                clauses.append((clause.group(1), rest[clause.end():close - 1]))
                at = close
            body_at = rest.find("{", at)
            if body_at < 0 or ";" in rest[at:body_at]:
                continue
            depth, close = 1, body_at + 1
            while depth:
                depth += {"{": 1, "}": -1}.get(rest[close], 0)
                close += 1
            yield path, found.group(1), code[open_at + 1:end], clauses, rest[body_at + 1:close - 1]


def crate(path):
    return path.parts[1]


def lines_of(folder, pattern):
    for path, text in sources(folder):
        for number, line in enumerate(without_comments(text).splitlines(), 1):
            if re.search(pattern, line):
                yield f"{path}:{number}: {line.strip()}"


def point_1(folder):
    """Enums of the shape of Option or Result, answers with a refusal number beside values, refusal numbers, and answers that stand for none."""
    yield from lines_of(folder, r"^(pub )?enum \w+|pub refusal: u32|pub stands: bool")
    yield from lines_of(folder, r"\brefusal::[A-Z_]+\b")
    for path, name, _, _, body in functions(folder):
        if re.search(r"\b(ILL_FORMED|sets::WIDTH|WAVES|(?<!::)NONE|partitions \+ 1|16)\s*\}?\s*$|return (ILL_FORMED|WAVES|NONE|16|[\w.]*partitions \+ 1);", body.strip()):
            if name not in ("rule_of", "usable"):
                yield f"{path}: {name}: a number that stands for none"


def normal(body):
    """The tokens of a body, its own names by the order in which they come and its numbers by 0."""
    names = {}
    keep = {"if", "else", "while", "for", "in", "let", "mut", "return", "match", "loop", "as", "self", "true", "false", "break", "continue"}
    out = []
    for token in re.findall(r"[A-Za-z_]\w*|\d+|\S", body):
        if token in keep:
            out.append(token)
        elif token[0].isdigit():
            out.append("0")
        elif token[0].isalpha() or token[0] == "_":
            out.append(names.setdefault(token, f"n{len(names)}"))
        else:
            out.append(token)
    return out


def point_2(folder):
    """Pairs of functions of at least twenty tokens with bodies alike but for names and numbers."""
    known = [(path, name, normal(body)) for path, name, _, _, body in functions(folder)]
    known = [k for k in known if len(k[2]) >= 20]
    for (p, n, a), (q, m, b) in itertools.combinations(known, 2):
        if min(len(a), len(b)) < 0.85 * max(len(a), len(b)):
            continue
        match = difflib.SequenceMatcher(None, a, b, autojunk=False)
        if match.quick_ratio() >= 0.92 and match.ratio() >= 0.92:
            yield f"{p}: {n} ~ {q}: {m}"


def point_3(folder):
    """Loops that are no `for`."""
    yield from lines_of(folder, LOOP.pattern)


def point_4(folder):
    """Minima, copies, comparisons, conversions and lines of output by hand."""
    yield from lines_of(folder, r"if (\w+) < (\w+) \{ (\1|\2) \} else \{ (\1|\2) \}")
    yield from lines_of(folder, r"\b(16777216|65536|4294967296)\b.*[*/%]|[*/%] (16777216|65536|4294967296)\b")
    yield from lines_of(folder, r"\b(\w+)\[[^\]]*\] = \w+\[[^\]]*\];")
    yield from lines_of(folder, r"^\s*\w+\[[^\]]*\] = 0;")


def facts(clause):
    depth, fact = 0, ""
    for c in clause + "×":
        depth += {"(": 1, ")": -1}.get(c, 0)
        if c == "×" and depth == 0:
            yield re.sub(r"\s+", " ", fact.strip().removeprefix("(").removesuffix(")"))
            fact = ""
        else:
            fact += c


def point_5(folder):
    """Facts that three or more functions require, but for bounds of a number, and functions with ten parameters or more."""
    where = {}
    for path, name, _, clauses, _ in functions(folder):
        for kind, clause in clauses:
            if kind == "requires":
                clause = re.sub(r"^\s*let g = given\.now in", "", clause)
                for fact in set(facts(clause)):
                    fact = re.sub(r"\.(old|now|new)\b", "", fact)
                    where.setdefault(fact, set()).add(f"{path}: {name}")
    for fact, places in sorted(where.items()):
        if len(places) >= 3 and not re.fullmatch(r"[\w .]+ [≤<] [\w .]+", fact):
            yield f"{len(places)} functions require {fact}"
    wide = [(path, name) for path, name, parameters, _, _ in functions(folder) if parameters.count(":") >= 10]
    for path, name in wide:
        yield f"{path}: {name} takes ten parameters or more"


def point_6(folder):
    """Slices with a length beside them."""
    for path, name, parameters, _, _ in functions(folder):
        if re.search(r"&(mut )?\[u\d+\](, \w+: &(mut )?\[u\d+\])*, (n|m|count|len|left|partitions): (usize|u32)", re.sub(r"\s+", " ", parameters)):
            yield f"{path}: {name}"
    yield from lines_of(folder, r"pub len: usize")


def point_7(folder):
    """Switches of what to run: an operation on a cluster that was read, a letter of a case, tables of functions."""
    for path, name, _, _, body in functions(folder):
        if re.search(r"read\.refusal != 0|match letter|fn\(", body):
            yield f"{path}: {name}"


def point_8(folder):
    """Lines of Answers and Invariants under proofs/."""
    for path in sorted(pathlib.Path(folder).glob("crates/*/proofs/**/*.antt")):
        if path.name in ("Answers.antt", "Invariants.antt"):
            for number in range(len(path.read_text(encoding="utf-8").splitlines())):
                yield f"{path}:{number}"


POINTS = [point_1, point_2, point_3, point_4, point_5, point_6, point_7, point_8]


def main():
    arguments = sys.argv[1:]
    point = int(arguments.pop()) if arguments and arguments[-1].isdigit() else None
    folder = arguments[0] if arguments else "."
    if point:
        print("\n".join(POINTS[point - 1](folder)))
        return
    for number, count in enumerate(POINTS, 1):
        print(f"{number}: {sum(1 for _ in count(folder))}  {count.__doc__}")


if __name__ == "__main__":
    main()
