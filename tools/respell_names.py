#!/usr/bin/env python3
"""Brings the names of definitions and lemmas to today's spelling: snake case, a dash only between two names.

usage: python3 tools/respell_names.py [--list]     at the top, once, behind port.py

A name that is declared in a file of specs/ or proofs/ and holds a capital inside (requiredDistance) or a dash
(steepest-grade-falls) is respelled in every .antt file, in the clauses of every .rt file, in every must-fail edit and, within
backticks, in the pages. Names that Rattle itself makes in a Proof.antt stay. --list prints the names and writes nothing.
"""

import os
import re
import sys

SIGNATURE = re.compile(r"^(\s*)(?:(?:abbrev pub|unfoldable pub|abbrev|unfoldable|pub record|record|pub data|data|pub ruleset|ruleset|pub) )?([^\s:(){}|,;.]+)((?: [({].*[)}])*)\s*(?::|=)(?:\s|$)")
TOKEN = re.compile(r"[^\s(){}.,;:«»`|⌜⌝\"]+")
LISTS = {"length", "take", "drop", "set", "append", "reverse", "replicate"}
# Names that would fall together with another one, or be read as a variable beside them.
ANOTHER = {
    "behind-back": "behind_back_lem",
    "curve-at": "curve_at_lem",
    "end-height": "end_height_is",
    "first-grade": "first_grade_widens",
    "grade-out": "grade_bytes",
    "record-length": "length-curve_bytes",
}


def files(ends):
    for folder, dirs, names in os.walk("crates"):
        dirs[:] = sorted(d for d in dirs if d != "out")
        for name in sorted(names):
            if name.endswith(ends):
                yield os.path.join(folder, name)


def text(path):
    with open(path, encoding="utf-8") as f:
        return f.read()


def declared():
    """Each name that a file declares, with whether it is a definition of specs/."""
    found = {}
    for path in files(".antt"):
        made = set()
        for line in text(path).split("\n"):
            if "tie.Need" in line or "tie.Statement" in line:
                made.add(line.split(":")[0].strip())
        for line in text(path).split("\n"):
            m = SIGNATURE.match(line)
            if m and m.group(2) not in made:
                found.setdefault(m.group(2), set()).add(path)
    return found


def snake(name):
    name = re.sub(r"(?<=[a-z0-9])([A-Zℤ])", lambda m: "_" + m.group(1), name)
    name = re.sub(r"_([A-Z])(?=[a-z_]|$|-)", lambda m: "_" + m.group(1).lower(), name)
    return name


def camel(name):
    return name[0].islower() and re.search(r"[a-z0-9][A-Zℤ]", name)


def respell(name, words):
    parts = [snake(p) if camel(p) else p for p in name.split("-")]
    if len(parts) == 1:
        return parts[0]
    # the longest runs of parts that are names of definitions
    groups, i = [], 0
    while i < len(parts):
        for j in range(len(parts), i, -1):
            whole = "_".join(parts[i:j])
            if whole in words or j == i + 1:
                groups.append(whole)
                i = j
                break
    if groups[-1] == "spec":
        return "_".join(groups)
    out = groups[0]
    for before, group in zip(groups, groups[1:]):
        joins = is_name(before, words) and is_name(group, words) and (of_lists(before) or of_lists(group))
        out += ("-" if joins else "_") + group
    return out


def of_lists(part):
    return part in LISTS or not re.fullmatch(r"[a-z0-9_']+", part)


def is_name(part, words):
    return part in words or of_lists(part)


def names():
    found = declared()
    words = set(LISTS)
    for name, paths in found.items():
        if any("/specs/" in p for p in paths) and "-" not in name:
            words.add(snake(name) if camel(name) else name)
    turned = {}
    for name in sorted(found):
        if not re.fullmatch(r"[\w'ℤℕ<>≤+*→-]+", name) or name.startswith("-"):
            continue
        if "-" in name or camel(name):
            to = ANOTHER.get(name) or respell(name, words)
            if to != name:
                turned[name] = to
    return found, turned


def together(found, turned):
    """Names that fall together, and words of a file that a new name of it is already."""
    back = {}
    for name in found:
        back.setdefault(turned.get(name, name), []).append(name)
    for to, old in sorted(back.items()):
        if len(old) > 1:
            yield f"together: {' '.join(sorted(old))} -> {to}"
    for path in list(files(".antt")) + list(files(".rt")):
        code = "\n".join(line.split("--")[0] if path.endswith(".antt") else line.split("//")[0] for line in text(path).split("\n"))
        tokens = set(TOKEN.findall(code))
        for name in sorted(tokens & set(turned)):
            if turned[name] in tokens:
                yield f"in one file: {path}: {name} -> {turned[name]}"


def turn(line, turned, made, fields=None):
    """The line with new names; where fields are given, behind a dot these alone are turned."""

    def one(m):
        name = m.group(0)
        if name in made or (fields is not None and name not in fields and line[: m.start()].endswith(".")):
            return name
        return turned.get(name, name)

    return TOKEN.sub(one, line)


def fields():
    """The fields of the records that the repository declares."""
    found = set()
    for path in files(".antt"):
        inside = False
        for line in text(path).split("\n"):
            if re.match(r"\s*(pub )?record .* where$", line):
                inside = True
            elif inside and re.match(r"\s+(pub )?\S+ : ", line):
                found.add(line.split(" : ")[0].split()[-1])
            elif line and not line.startswith((" ", "--")):
                inside = False
    return found


def main():
    found, turned = names()
    if "--list" in sys.argv:
        for name, to in sorted(turned.items()):
            print(name, to)
        for line in together(found, turned):
            print(line)
        return
    own = fields()
    for path in list(files((".antt", ".rt", ".edit"))):
        before = text(path)
        made, only = set(), None
        if path.endswith("Proof.antt"):
            only = own
            made = set(re.findall(r"^\s*([^\s:(){}]+) : tie\.Need", before, re.M))
        lines = before.split("\n")
        if path.endswith(".edit"):
            lines = [turn(l, turned, made) if l.startswith(("old:", "new:")) else l for l in lines]
        else:
            lines = [turn(l, turned, made, only) for l in lines]
        after = "\n".join(lines)
        if after != before:
            with open(path, "w", encoding="utf-8") as f:
                f.write(after)
    pages = ["README.md"] + [os.path.join(d, n) for d, _, ns in os.walk("docs") for n in sorted(ns) if n.endswith(".md") and n != "PORT.md"]
    for path in pages:
        before = text(path)
        after = re.sub(r"`[^`\n]+`", lambda m: turn(m.group(0), turned, set()), before)
        if after != before:
            with open(path, "w", encoding="utf-8") as f:
                f.write(after)


if __name__ == "__main__":
    main()
