#!/usr/bin/env python3
"""Brings the repository's own definitions and lemmas to today's spelling: snake case, where an older Rattle had camel case or dashes.

usage: python3 tools/respell.py [ROOT]

It is run once, right after port.py. It reads which names the .antt files declare (definitions, lemmas, fields), and turns each name by
whole words: in .antt files, in the clauses, ghost items and comments of .rt files, in must-fail edits, and between backticks of the
documents. Types and facts keep their capital. Names of Rust functions, strings and generated names stay as they are. Where a lemma would
get a name that stands beside it in a file already, it ends in `_lem`.
"""

import collections
import os
import re
import sys

ROOT = sys.argv[1] if len(sys.argv) > 1 else "."
WORD = re.compile(r"(?<![\w'-])[A-Za-z_][\w']*(?:-[\w']+)*(?![\w'-])")
DECLARED = re.compile(r"^(?:abbrev |unfoldable |pub )*(?:data |record |ruleset )?([A-Za-z][^\s:(){}]*) *(?::|\()")
FIELD = re.compile(r"^ +(?:abbrev |unfoldable |pub )*([A-Za-z][^\s:(){}]*) :")


def files(*endings):
    for folder, dirs, names in os.walk(os.path.join(ROOT, "crates")):
        dirs[:] = sorted(d for d in dirs if d != "out")
        for name in sorted(names):
            if name.endswith(endings):
                yield os.path.join(folder, name)


def read(path):
    with open(path, encoding="utf-8") as it:
        return it.read()


def snake(name):
    return re.sub(r"([a-z0-9])([A-Z])", lambda m: m.group(1) + "_" + m.group(2).lower(), name.replace("-", "_"))


def is_walk(path):
    return path.endswith("/Proof.antt")


def declared():
    names = collections.defaultdict(set)
    for path in files(".antt"):
        for line in read(path).splitlines():
            if line.startswith(("use ", "--")):
                continue
            m = DECLARED.match(line) or FIELD.match(line)
            if m and not (is_walk(path) and "-" in m.group(1)):
                names[m.group(1)].add(path)
    return names


def words_of(text):
    """The words of a text, and those of them that stand behind no dot."""
    text = "\n".join(re.sub(r"(--|//).*", "", l) for l in text.splitlines())
    found, bare = set(), set()
    for m in WORD.finditer(text):
        found.add(m.group(0))
        if text[m.start() - 1 : m.start()] != ".":
            bare.add(m.group(0))
    return found, bare


def turns(names):
    """Old name to new. A lemma whose new name stands in a file beside it ends in `_lem`."""
    turn = {n: snake(n) for n in names if not n[0].isupper() and snake(n) != n}
    lemmas = set()
    for path in files(".antt"):
        found, bare = words_of(read(path))
        by_new = collections.defaultdict(set)
        for n in found:
            if n in turn:
                by_new[turn[n]].add(n)
        for new, olds in by_new.items():
            dashed = {o for o in olds if "-" in o}
            if len(olds) > 1:
                lemmas |= dashed
            elif new in bare and new in names:
                # the name that stands already is a lemma's: it ends in `_lem` where the other is a definition
                lemmas.add(next(iter(dashed)) if dashed else new)
    for n in lemmas:
        turn[n] = snake(n) + "_lem"
    return turn


def functions():
    return {m for path in files(".rt") for m in re.findall(r"\bfn (\w+)", read(path))}


def turn_words(text, turn):
    return WORD.sub(lambda m: turn.get(m.group(0), m.group(0)), text)


def camel_only(turn):
    return {o: n for o, n in turn.items() if "-" not in o}


def turn_comment(text, turn):
    """Dashed words of a comment are turned between backticks alone, since prose has such words too."""
    parts = text.split("`")
    return "`".join(turn_words(p, turn if i % 2 else camel_only(turn)) for i, p in enumerate(parts))


def turn_antt(path, text, turn, steps):
    out = []
    for line in text.split("\n"):
        code, dash, comment = line.partition("--")
        code = turn_words(code, turn)
        if is_walk(path):
            code = re.sub(r"\.([a-z][\w']*(?:-[\w']+)+)(?![\w'-])", lambda m: "." + steps.get(m.group(1), m.group(1)), code)
        out.append(code + dash + turn_comment(comment, turn))
    return "\n".join(out)


def turn_rt(text, turn):
    """Strings stay as they are."""
    camel = camel_only(turn)
    out = []
    for line in text.split("\n"):
        parts = re.split(r'("(?:[^"\\]|\\.)*")', line)
        ghost = re.search(r"\b(ghost|ensures|requires)\b|[≡×→λ∷]", line)
        out.append("".join(p if i % 2 else turn_words(p, turn if ghost else camel) for i, p in enumerate(parts)))
    return "\n".join(out)


def documents():
    for folder, dirs, names in os.walk(ROOT):
        dirs[:] = [d for d in dirs if d not in (".git", "crates", "target")]
        for name in names:
            if name.endswith(".md"):
                yield os.path.join(folder, name)


def turn_document(text, turn, names):
    """Here the words that port.py had turned before are still in the old spelling."""
    known = names | set(turn.values())

    def one(m):
        word = m.group(0)
        return turn.get(word) or (snake(word) if snake(word) in known and not word[0].isupper() else word)

    return re.sub(r"`[^`\n]+`", lambda m: WORD.sub(one, m.group(0)), text)


def main():
    names = declared()
    turn = turns(names)
    steps = {f.replace("_", "-"): f for f in functions()}
    count = 0
    for paths, change in (
        (files(".antt"), lambda p, t: turn_antt(p, t, turn, steps)),
        (files(".rt"), lambda p, t: turn_rt(t, turn)),
        (files(".edit"), lambda p, t: turn_words(t, turn) if ".antt" in t.split("\n")[0] else turn_rt(t, turn)),
        (documents(), lambda p, t: turn_document(t, turn, set(names))),
    ):
        for path in paths:
            old = read(path)
            new = change(path, old)
            if new != old:
                count += 1
                with open(path, "w", encoding="utf-8") as it:
                    it.write(new)
    print(f"respell: {len(turn)} names, {count} files; with _lem: " + " ".join(sorted(n for n in turn.values() if n.endswith("_lem"))))


main()
