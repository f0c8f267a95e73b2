#!/usr/bin/env python3
"""Brings the names of this repository's own definitions and lemmas to today's spelling: words in snake case,
types and facts in camel case. Run once, at the top, after the kit's port.py, which leaves these names alone:

    python3 tools/respell.py [--dry]

Only names declared in specs/ and proofs/ are changed, in code and not in comments or strings. Functions of src/,
exported names, files, inputs and outputs keep theirs. Two names that would fall together are told apart by APART."""

import glob
import re
import sys

# Names that would fall together with another, or with a word of std, and what they are called.
APART = {
    "A-repeat": "IsRepeat",
    "a-repeat": "is_repeat",
    "bucket-of": "bucket_index",
    "getD-passages": "get_or_passages",
    "ill-led": "none_ill_led",
    "laterOf": "later_than_first",
    "listed-from": "listing_from",
    "longest-chain": "longest_of_chains",
    "readAs": "read_by_kind",
    "toldOf": "told_of_placed",
    "valueOn": "value_from",
}

NAME = r"[A-Za-zΑ-ω_][\w'\-]*"
DECLARED = re.compile(rf"^(\s*)((?:abbrev |unfoldable |pub |record |data )*)({NAME})((?: [^:=]*)?) : (.*)$")


def sources(pattern):
    return sorted(f for f in glob.glob(pattern, recursive=True) if "/out/" not in f)


def split_comment(line, mark):
    """The code of a line, and its comment."""
    quoted = False
    for i, ch in enumerate(line):
        if ch == '"' and (i == 0 or line[i - 1] != "\\"):
            quoted = not quoted
        elif not quoted and line.startswith(mark, i) and (i == 0 or line[i - 1].isspace()):
            return line[:i], line[i:]
    return line, ""


def of_the_kit():
    """Names that some file takes from the kit's library: they are spelled as there."""
    taken = set()
    for path in sources("crates/*/**/*.antt") + sources("crates/*/src/**/*.rt"):
        for line in open(path, encoding="utf-8"):
            m = re.match(r"(?:ghost )?use (?:Rattle\.(?:std|core)|borrow|native|denote)\b[^{]*\{(.*)\}", line)
            if m:
                taken |= set(re.findall(NAME, m[1]))
    return taken


def declared():
    """Each declared name: whether it is a type or a fact, and whether it is a field of a record."""
    found = {}
    kit = of_the_kit()
    for path in sources("crates/*/specs/**/*.antt") + sources("crates/*/proofs/**/*.antt"):
        record_at = None
        for line in open(path, encoding="utf-8"):
            code, _ = split_comment(line.rstrip("\n"), "--")
            m = DECLARED.match(code)
            indent = len(code) - len(code.lstrip())
            if record_at is not None and code.strip() and indent <= record_at:
                record_at = None
            if not m:
                continue
            kinds, name, rest = m[2], m[3], m[5]
            if rest.startswith("goal.") or name in ("pub", "abbrev", "unfoldable", "record", "data") or name in kit:
                continue
            is_type = "record" in kinds or "data" in kinds or re.search(r"(^|→ )Type 0\s*(where)?$", rest) is not None
            is_field = record_at is not None
            old = found.get(name, (False, False, set()))
            found[name] = (old[0] or is_type, old[1] or is_field, old[2] | {path})
            if "record" in kinds or "data" in kinds:
                record_at = indent
    return found


def snake(name):
    name = re.sub(r"([a-z0-9])([A-Z])", lambda m: m[1] + "_" + m[2].lower(), name)
    return name.replace("-", "_")


def camel(name):
    return "".join(part[:1].upper() + part[1:] for part in re.split(r"[-_]", name))


def renamings(found):
    new = {}
    for name, (is_type, _, _) in found.items():
        if name in APART:
            new[name] = APART[name]
        elif is_type:
            new[name] = camel(name)
        elif name[0].islower():
            new[name] = snake(name)
        else:
            new[name] = re.sub("-", "_", name)
    return {a: b for a, b in new.items() if a != b}


def tokens_of(path, mark):
    out = set()
    for line in open(path, encoding="utf-8"):
        code, _ = split_comment(line, mark)
        out |= set(re.findall(NAME, re.sub(r'"(?:[^"\\]|\\.)*"', '""', code)))
    return out


def respell(line, mark, new, fields):
    code, comment = split_comment(line, mark)
    parts = re.split(r'("(?:[^"\\]|\\.)*")', code)
    for i in range(0, len(parts), 2):
        def swap(m):
            before = parts[i][: m.start()]
            if before.endswith(".") and not re.search(r"(^|[\s(])$", before[:-1]) and m[0] not in fields:
                return m[0]
            return new.get(m[0], m[0])
        parts[i] = re.sub(rf"(?<![\w'\-]){NAME}", swap, parts[i])
    return "".join(parts) + comment


def by_its_own_name(text, mark):
    """port.py imports the library's AllByRecursion as All, which `rt ci` refuses: All is another word today."""
    if "AllByRecursion as All" not in text:
        return text
    lines = []
    for line in text.replace("AllByRecursion as All", "AllByRecursion").splitlines(keepends=True):
        code, comment = split_comment(line, mark)
        lines.append(re.sub(r"(?<![\w'\-.])All(?![\w'\-])", "AllByRecursion", code) + comment)
    return "".join(lines)


def main():
    dry = "--dry" in sys.argv
    found = declared()
    new = renamings(found)
    fields = {n for n, (_, is_field, _) in found.items() if is_field}
    everywhere = set()
    for path in sources("crates/*/specs/**/*.antt") + sources("crates/*/proofs/**/*.antt"):
        everywhere |= tokens_of(path, "--")
    back = {}
    clashes = False
    for a, b in sorted(new.items()):
        if b in back:
            print(f"fall together: {a} and {back[b]} as {b}")
            clashes = True
        back[b] = a
        if b in everywhere and b not in new:
            print(f"taken already: {a} as {b}")
            clashes = True
    print(f"{len(new)} names")
    if dry or clashes:
        for a, b in sorted(new.items()):
            print(f"  {a} -> {b}")
        return 1 if clashes else 0
    for path in sources("crates/*/**/*.antt") + sources("crates/*/src/**/*.rt"):
        mark = "--" if path.endswith(".antt") else "//"
        text = open(path, encoding="utf-8").read()
        out = by_its_own_name(text, mark)
        out = "".join(respell(line, mark, new, fields) for line in out.splitlines(keepends=True))
        if out != text:
            open(path, "w", encoding="utf-8").write(out)
    return 0


sys.exit(main())
