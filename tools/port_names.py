#!/usr/bin/env python3
"""Brings this repository's own definitions and lemmas to today's spelling: names in snake case.

usage: python3 tools/port_names.py      once, at the top, right after the toolchain's own script

Types, modules and the names of Rattle's source keep their spelling. It renames in specs/, proofs/, the clauses of src/ and the
must-fail edits; where two names would fall together, OTHER says what one of them is called.
"""
import os
import re

# A definition beside a theorem `end_to_end` in one file, and a local law beside a definition `new_line`.
OTHER = {"endToEnd": "lines_end_to_end"}
IN_FILE = {"crates/claims/proofs/RefreshedLines.antt": {"new_line": "new_line_lem"}}
# Two fields of specs/ that a dash joined.
DASHED = {"firsts-long": "firsts_long", "left-half": "left_half"}

NAME = re.compile(r"(?<![\w'-])[a-z_][\w'-]*")
STRING = re.compile(r'"(?:[^"\\]|\\.)*"')


def snake(name):
    return re.sub(r"(?<=[a-z0-9])([A-Z])", lambda m: "_" + m.group(1).lower(), name)


def turned(name, here):
    if name in here:
        return here[name]
    if name in OTHER:
        return OTHER[name]
    if name in DASHED:
        return DASHED[name]
    return snake(name) if re.search(r"[a-z0-9][A-Z]", name) else name


def turn(text, path):
    here = IN_FILE.get(path, {})

    def names(piece):
        return NAME.sub(lambda m: turned(m.group(), here), piece)

    if path.endswith(".antt"):
        return names(text)
    out, at = [], 0
    for m in STRING.finditer(text):
        out += [names(text[at:m.start()]), m.group()]
        at = m.end()
    return "".join(out) + names(text[at:])


def main():
    changed = 0
    for folder, dirs, files in os.walk("crates"):
        dirs[:] = sorted(d for d in dirs if d != "out")
        for f in sorted(files):
            path = os.path.join(folder, f)
            if not f.endswith((".antt", ".rt", ".edit")):
                continue
            with open(path, encoding="utf-8") as file:
                old = file.read()
            new = turn(old, path)
            if new != old:
                with open(path, "w", encoding="utf-8") as file:
                    file.write(new)
                changed += 1
    print(f"{changed} files changed")


if __name__ == "__main__":
    main()
