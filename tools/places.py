#!/usr/bin/env python3
"""Finds the places in crates/*/src that older forms are likely to stand in, by eight points.

Usage: tools/places.py [--counts] [POINT ..]
Each line is a candidate to be read, not a verdict. With --counts only the number for each crate is printed.
"""
import collections
import difflib
import pathlib
import re
import sys

ROOT = pathlib.Path(__file__).resolve().parent.parent
FILES = sorted(ROOT.glob("crates/*/src/**/*.rt"))

# For points that a pattern finds: what is looked for, line by line.
PATTERNS = {
    1: [r"^\s*(pub(\(crate\))? )?enum ", r"\bbool\s*,\s*$", r"let mut \w+ = false", r"Option<Refusal>",
        r"\b(number|kind|code|layer)\w*: [ui]\d+", r"fn \w*(number|code|kind)\w*\(.*-> [ui]\d+",
        r"Err\(\w+\) => (return )?Err\(", r"Err\(\w+\) => \{?$", r"-> u8$", r"None => unreachable\(\)"],
    3: [r"\bwhile\b", r"\bloop\b", r"\bfor \w+ in [^{]*\.\.", r"\bfor _ in "],
    4: [r"impl.* (PartialEq|Eq|PartialOrd|Ord|Clone|Copy|Default|From<.*>|TryFrom<.*>|(fmt::)?Display|(fmt::)?Debug) for",
        r"fn (number|numbered|named|word|words|form|raise|usual|stopped|refused|refusal|value|pair_of)\w*\(",
        r"fn same\w*\(", r"impl fmt::Display|impl<.*> fmt::Display"],
    6: [r"\b(count|len|at|end): usize", r"\[0u8; ", r"\bnext: u32", r"Vec<(u32|Entered|Call|Entry|Pair|Slot)\b", r"^static ",
        r"\bnew\(heap\)"],
    7: [r"match (self\.)?(verb|reading|kind|begins|part)\b", r"\bdyn\b", r": fn\("],
}


def crate(path):
    return path.relative_to(ROOT / "crates").parts[0]


def by_pattern(point):
    for path in FILES:
        for n, line in enumerate(path.read_text().splitlines(), 1):
            if line.lstrip().startswith(("//", "ghost use")):
                continue
            if any(re.search(p, line) for p in PATTERNS[point]):
                yield path, n, line.strip()


def functions():
    """Each function: its file, line, name, parameters, clauses and body."""
    for path in FILES:
        text = path.read_text()
        for m in re.finditer(r"^( *)(pub(?:\(crate\))? )?(?:extern \"C\" )?fn (\w+)", text, re.M):
            end = re.search(r"^%s(\}|.*;$)" % m[1], text[m.end():], re.M)
            part = text[m.start():m.end() + (end.end() if end else 0)]
            clauses = re.findall(r"^\s*(?:requires|ensures)\*?(?: \w+)? \{ (.*) \}", part, re.M)
            body = part.split("\n%s{\n" % m[1])[-1] if "\n%s{\n" % m[1] in part else ""
            params = re.search(r"\(([^{]*?)\)(?: ->|\n|$| \{)", part, re.S)
            yield path, text.count("\n", 0, m.start()) + 1, m[3], params[1] if params else "", clauses, body


def bare(body):
    """A body without its types, numbers and own names, to lay beside another."""
    body = re.sub(r"//.*", "", body)
    body = re.sub(r'b?"[^"]*"', "S", body)
    body = re.sub(r"\b\d\w*\b", "0", body)
    body = re.sub(r"\b[A-Z]\w*\b", "T", body)
    return re.findall(r"\w+|\S", body)


def twins():
    found = [(p, n, name, bare(body)) for p, n, name, _, _, body in functions()]
    for i, (p, n, name, body) in enumerate(found):
        for q, m, other, again in found[i + 1:]:
            if min(len(body), len(again)) < (3 if name == other else 7):
                continue
            if difflib.SequenceMatcher(None, body, again, autojunk=False).ratio() > 0.85:
                yield p, n, f"{name} ~ {other} ({q.relative_to(ROOT)}:{m})"


def repeated():
    facts = collections.defaultdict(list)
    pairs = collections.defaultdict(list)
    for path, n, name, params, clauses, _ in functions():
        seen = set()
        for clause in clauses:
            fact = re.sub(r"\.(now|old|new)\b", "", clause)
            seen.update({fact} | set(re.findall(r"\([^()]* [^()]*\)", fact)))
        for fact in seen:
            facts[(crate(path), fact)].append((path, n, name))
        names = sorted(set(re.findall(r"(\w+): &?(?:'a )?(?:mut )?[\w\[<]+", params)))
        for i, a in enumerate(names):
            for b in names[i + 1:]:
                pairs[(crate(path), f"{a}, {b}")].append((path, n, name))
    for kind, table in (("fact", facts), ("together", pairs)):
        for (_, what), where in sorted(table.items()):
            if len({w[2] + str(w[0]) for w in where}) >= 3:
                yield where[0][0], where[0][1], f"{kind} in {len(where)}: {what}"


def answers():
    for path in sorted(ROOT.glob("crates/*/proofs/**/*.antt")):
        for n, line in enumerate(path.read_text().splitlines(), 1):
            m = re.match(r"(?:abbrev |unfoldable )?(?:pub )?([\w◌'-]+) : ", line)
            if m and path.name != "Invariants.antt":
                yield path, n, ("answer " if path.name == "Answers.antt" else "lemma ") + m[1]


WHAT = {1: "own enums, flags, numbers for kinds", 2: "twins", 3: "loops", 4: "written by hand: ==, conversion, printing",
        5: "facts in three contracts or more, parameters that travel together", 6: "buffers, parallel arrays, tables",
        7: "switches on a step", 8: "answers and lemmas in proofs/"}


def main():
    counts = "--counts" in sys.argv
    points = [int(a) for a in sys.argv[1:] if a.isdigit()] or sorted(WHAT)
    for point in points:
        rows = list({2: twins, 5: repeated, 8: answers}.get(point, lambda: by_pattern(point))())
        per = collections.Counter(crate(r[0]) for r in rows)
        print(f"{point} {WHAT[point]}: {len(rows)}  " + ", ".join(f"{c} {k}" for c, k in sorted(per.items())))
        if not counts:
            for path, n, what in rows:
                print(f"  {path.relative_to(ROOT)}:{n}: {what}")


main()
