#!/usr/bin/env python3
"""Respells the repository's own definitions, lemmas, fields and constructors as the language now does: words in snake case.

usage: python3 tools/respell.py        (at the top of the repository; rewrites crates/ in place, names in backticks in comments too)

A name is one that a file of specs/ or proofs/ declares. Functions of src/, names that the checker generates (goals, steps) and
names of the libraries keep their spelling. Names that would fall together are listed, and have a row in OTHER.
"""
import os
import re
import sys

NAME = r"[^\s(){}.;,@\"«»]+"
DECLARED = re.compile(rf"(?m)^[ \t]*(?:(?:pub|abbrev|unfoldable|ruleset)\s+)*({NAME})(?:\s*\{{[^}}\n]*\}})*\s*:(?=\s)(.*)")
HEADED = re.compile(rf"(?m)^\s*(?:pub )?(?:data|record) ({NAME})")
# Names that are tactics now, in the files that mean the definition.
TACTICS = {
    "crates/theory/specs/Executable.antt": {"search": "search_of"},
    "crates/theory/proofs/Searching.antt": {"search": "search_of"},
    "crates/theory/proofs/Items.antt": {"first_of": "first_placed"},
    "crates/flattening/proofs/Linking.antt": {"first_of": "first_placed"},
}
# An import under the name of another word of the library.
ALL = "AllByRecursion as All"
ALIAS = re.compile(rf"(?<= as )({NAME})(?=[,}}])")
# Names whose new spelling is taken by something else in a file that cites them.
OTHER = {
    "jumpsAt": "jumps_from",
    "arcsAt": "arcs_from",
    "finalsAt": "finals_from",
    "finalAt": "final_flag_at",
    "arcAt": "arc_in",
    "jumpAt": "jump_in",
    "bit-or": "bit_of_or",
}


def texts(*endings):
    for folder, dirs, files in os.walk("crates"):
        dirs[:] = sorted(d for d in dirs if d != "out")
        for f in sorted(files):
            if f.endswith(endings):
                yield os.path.join(folder, f)


def read(path):
    with open(path, encoding="utf-8") as f:
        return f.read()


def spelled(name):
    if name in OTHER:
        return OTHER[name]
    if name[0].islower():
        name = re.sub(r"(?<=[a-z0-9])([A-Z])(?=[a-z])", lambda m: "_" + m[1].lower(), name)
    return name.replace("-", "_")


def declared():
    names = set()
    for path in texts(".antt"):
        code = re.sub(r"--[^\n]*", "", read(path))
        for m in DECLARED.finditer(code):
            if not m[2].lstrip().startswith("goal."):
                names.add(m[1])
        names.update(HEADED.findall(code))
    for path in texts(".antt", ".rt"):
        names.update(w for w in ALIAS.findall(read(path)) if w[0].islower())
    return {n: spelled(n) for n in names if not n.startswith("-") and spelled(n) != n}


def of_library(code):
    """Names that a file imports from a library, and keeps."""
    own = set(os.listdir("crates"))
    kept = set()
    for path, items in re.findall(r"\buse ([^\s;{]+)\{([^}]*)\}", code):
        steps = path.strip(".").split(".")
        if steps[0] != "Rattle" or len(steps) < 2 or steps[1] not in own:
            kept.update(w.split(" as ")[0].strip() for w in items.split(","))
    return kept


def turned(text, names, comment):
    kept = of_library(text)
    if ALL in text:
        text = re.sub(rf"(?<![^\s(){{}}.;,@])All(?![^\s(){{}}.;,@])", "AllByRecursion", text.replace(ALL, "AllByRecursion"))
    parts = re.split(rf'({comment}[^\n]*|"[^"\n]*")', text)
    word = lambda m: names[m[0]] if m[0] in names and m[0] not in kept else m[0]
    for i in range(0, len(parts), 2):
        parts[i] = re.sub(NAME, word, parts[i])
    for i in range(1, len(parts), 2):
        parts[i] = re.sub(r"`([^`\n]*)`", lambda m: "`" + re.sub(NAME, word, m[1]) + "`", parts[i])
    return "".join(parts)


def together(names):
    """Stops where two names of one file would fall together."""
    for path in texts(".antt", ".rt"):
        text = read(path)
        code = "".join(re.split(rf'((?:--|//)[^\n]*|"[^"\n]*")', text)[::2])
        kept = of_library(text)
        found = set(re.findall(NAME, code))
        for old in sorted(n for n in found & set(names) if n not in kept):
            others = [n for n in found if n != old and (names.get(n, n) if n not in kept else n) == names[old]]
            if others:
                print(f"look: {path}: {old} and {', '.join(others)} are both {names[old]}", file=sys.stderr)


def main():
    names = declared()
    together(names)
    for path in texts(".antt", ".rt"):
        old = read(path)
        new = turned(old, names | TACTICS.get(path, {}), "--" if path.endswith(".antt") else "//")
        if new != old:
            with open(path, "w", encoding="utf-8") as f:
                f.write(new)
    for old, new in sorted(names.items()):
        print(f"{old}\t{new}")


if __name__ == "__main__":
    main()
