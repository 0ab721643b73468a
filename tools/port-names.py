#!/usr/bin/env python3
"""Brings names of definitions, lemmas, fields and constructors to snake case, in every crate's specs, proofs, clauses and must-fail edits.

usage: python3 tools/port-names.py     at the top, once, right after port.py of the kit

A dash still joins two names of a lemma, as `length-decimal_in`; a field or a constructor has an underscore for it. Types and modules stay in camel case, and
so do comments' words; names of functions, of exports and strings are not touched.
"""
import os
import re
import sys

TOKEN = re.compile(r"[A-Za-z0-9_?'′₀₁₂₃₄₅₆₇₈₉ℕ≡≢≤<>κ-]+")
MEMBER = re.compile(r"  (?:pub )?([a-z][A-Za-z0-9_?'-]*) :")
BEGUN = re.compile(r"(?:unfoldable |abbrev )?(?:pub )?(record|data) ")
# what the kit's own script respelled in definitions and left in the names of lemmas
RESPELLED = {"getD": "get_or"}
# names that would hide another where both are used
APART = {
    "first-of": "first_is",
    "stride-of": "stride_is",
    "size-checked": "size_found",
    "no-counts": "counts_none",
    "no-entries": "entries_none",
}
# lemmas that would have the name of a definition, in the files that name them
LEMMAS = {"on_line": "on_line_lem"}
LEMMAS_IN = ("shape/proofs/Geometry.antt", "peel/proofs/Awake.antt")


def files(*endings):
    for folder, dirs, names in os.walk("crates"):
        dirs[:] = sorted(d for d in dirs if d != "out")
        for name in sorted(names):
            if name.endswith(endings):
                yield os.path.join(folder, name)


def read(path):
    with open(path, encoding="utf-8") as f:
        return f.read()


def members():
    """The fields and constructors with a dash."""
    found = set()
    for path in files(".antt"):
        inside = False
        for line in read(path).split("\n"):
            if BEGUN.match(line):
                inside = True
            elif not line.strip() or not line.startswith((" ", "--")):
                inside = False
            elif inside and (m := MEMBER.match(line)) and "-" in m.group(1):
                found.add(m.group(1))
    return found


def snake(part):
    if part in RESPELLED:
        return RESPELLED[part]
    if not re.match(r"[a-z]", part) or not re.search(r"[A-Z]", part):
        return part
    return re.sub(r"(?<=[a-z0-9])([A-Z])", lambda m: "_" + m.group(1).lower(), part)


def new_name(token, dashed):
    if token in APART:
        return APART[token]
    if token in dashed:
        token = token.replace("-", "_")
        return snake(token)
    return "-".join(snake(p) for p in token.split("-"))


def turn(text, dashed, comment):
    """The text with its names turned; what follows the comment's mark keeps its dashes."""
    lines = []
    for line in text.split("\n"):
        at = line.find(comment)
        code, rest = (line, "") if at < 0 else (line[:at], line[at:])
        code = TOKEN.sub(lambda m: new_name(m.group(), dashed), code)
        rest = TOKEN.sub(lambda m: m.group() if "-" in m.group() else new_name(m.group(), set()), rest)
        lines.append(code + rest)
    return "\n".join(lines)


def turn_edit(text, dashed):
    return "\n".join(turn(l, dashed, "\0") if l.startswith(("old: ", "new: ")) else turn(l, set(), "\0") for l in text.split("\n"))


def main():
    if not os.path.isdir("crates"):
        sys.exit("run it at the top of the repository")
    dashed = members()
    made = {}
    for path in files(".antt", ".rt", ".edit"):
        for m in TOKEN.finditer(read(path)):
            new = new_name(m.group(), dashed)
            if new != m.group():
                made.setdefault(new, set()).add(m.group())
    for path in files(".antt"):
        for m in TOKEN.finditer(re.sub(r"--.*", "", read(path))):
            if m.group() in made:
                made[m.group()].add(m.group())
    for new, olds in sorted(made.items()):
        if len(olds) > 1:
            print(f"fall together: {' '.join(sorted(olds))}")
    for path in files(".antt", ".rt", ".edit"):
        old = read(path)
        text = old
        if path.endswith(LEMMAS_IN):
            for name, other in LEMMAS.items():
                text = re.sub(rf"(?<![\w.-]){name}(?![\w.-])", other, text)
        new = turn_edit(text, dashed) if path.endswith(".edit") else turn(text, dashed, "--" if path.endswith(".antt") else "//")
        if new != old:
            with open(path, "w", encoding="utf-8") as f:
                f.write(new)


main()
