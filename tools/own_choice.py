#!/usr/bin/env python3
"""Gives the repository's own choice `if◌then◌else◌`, which is shut, the name `when◌then◌else◌`: the other is the library's today.

usage: python3 tools/own_choice.py [ROOT]

Run once, after port.py and respell.py: in .antt files, and in the clauses and ghost imports of .rt files.
"""

import os
import re
import sys

ROOT = sys.argv[1] if len(sys.argv) > 1 else "."
WORD = re.compile(r"(?<![\w'◌-])if(?![\w'◌-])")
NAME = "if◌then◌else◌"


def turn(text):
    return WORD.sub("when", text).replace(NAME, "when◌then◌else◌")


def turn_antt(text):
    out = []
    for line in text.split("\n"):
        code, dash, comment = line.partition("--")
        out.append(turn(code) + dash + comment.replace(NAME, "when◌then◌else◌"))
    return "\n".join(out)


def turn_rt(text):
    clause = re.compile(r"^\s*(ensures|requires|ghost)\b")
    return "\n".join(turn(l) if clause.match(l) else l.replace(NAME, "when◌then◌else◌") for l in text.split("\n"))


def main():
    count = 0
    for folder, dirs, names in os.walk(os.path.join(ROOT, "crates")):
        dirs[:] = sorted(d for d in dirs if d != "out")
        for name in sorted(names):
            path = os.path.join(folder, name)
            if not name.endswith((".antt", ".rt", ".edit")):
                continue
            with open(path, encoding="utf-8") as f:
                old = f.read()
            new = turn_antt(old) if name.endswith(".antt") else turn_rt(old)
            if name.endswith(".edit") and ".antt" in old.split("\n")[1]:
                new = turn(old)
            if new != old:
                count += 1
                with open(path, "w", encoding="utf-8") as f:
                    f.write(new)
    print(f"own_choice: {count} files")


main()
