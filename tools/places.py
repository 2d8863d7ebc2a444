#!/usr/bin/env python3
"""places.py [FOLDER] [--list]: counts, in the src/ of the crates below FOLDER (this repository), the places that docs/DESIGN-PASS.md speaks of.

It goes by text, so that it finds the same again: what of its places has a reason to be as it is, a person says."""
import collections
import pathlib
import re
import sys

ROOT = pathlib.Path(next((a for a in sys.argv[1:] if not a.startswith("--")), pathlib.Path(__file__).resolve().parent.parent))
LIST = "--list" in sys.argv[1:]
SOURCES = sorted(ROOT.glob("crates/*/src/**/*.rt"))

# One line each: the point, what is looked for, and how.
LINES = [
    ("1", "own enums", r"^\s*(pub(\(crate\))? )?enum \w+"),
    ("1", "constants of u8, for kinds, states, answers and places of refusal", r"^\s*(pub(\(crate\))? )?const [A-Z_0-9]+: u8 ="),
    ("1", "constants that stand for none", r"^\s*(pub(\(crate\))? )?const (NO_[A-Z_]+|NONE|NOWHERE): "),
    ("1", "comments that give a number the sense of none", r"//.*\b(0 for none|0 says|0 past|0 where|16 where|; 0,|NO_DIGIT of|else 0\b|0 if\b)"),
    ("1", "fields that are flags", r"^    (pub )?[a-z_]+: bool,"),
    ("3", "loops by hand", r"^\s*while "),
    ("4", "conversions, comparisons and readings by hand",
     r"fn (wide|columns|tab_bits|in_tab|kind_word|same|equal|narrow|least|is_none|is_number|is_sign|is_started|kept|asks|heard|body_reply|body_in|small"
     r"|tell|told_of|lengths_of|lengths_in|taken_out|\w+_(in|out|numbers))\b(?!_range)"),
    ("6", "arrays of a fixed length in a struct or a local", r"(: \[[A-Za-z0-9]+; ?[A-Z0-9_]+\],|= \[[^\]]*; ?[A-Z0-9_]+\];)"),
    ("6", "a buffer with a place in it, as parameters", r"(out|piece|words|scratch|space|buffer): &mut \[\w+\], (at|used|k|i|from|count): usize"),
    ("7", "matches over the number of a state", r"match (name|state|self\.state)\b"),
]

# What names may stand for in a twin: every word but these.
KEPT = set("fn pub crate let mut if else match while for in return true false as usize u8 u16 u32 u64 bool self Self impl struct enum".split())


def functions(path):
    """Each function of a file: the line it begins at, and its text."""
    text = path.read_text()
    lines = text.split("\n")
    at = 0
    while at < len(lines):
        if re.match(r"\s*(pub(\(crate\))? )?(extern \"C\" )?fn ", lines[at]):
            indent = len(lines[at]) - len(lines[at].lstrip())
            end = at
            while lines[end] != " " * indent + "}":
                end += 1
            yield at + 1, "\n".join(lines[at:end + 1])
            at = end
        at += 1


def shape(text):
    """The function with its clauses left out, and every name and number made one."""
    kept = [l for l in text.split("\n") if not re.match(r"\s*(requires|ensures|//|ghost)\b|\s*//", l)]
    words = re.findall(r"[A-Za-z_][A-Za-z_0-9]*|0x[0-9a-fA-F]+|\d[\d_]*|[^\sA-Za-z0-9_]", "\n".join(kept))
    return " ".join(w if w in KEPT or not re.match(r"\w", w) else "_" for w in words)


def name_of(text):
    return re.search(r"fn (\w+)", text).group(1)


def parameters(text):
    head = text[re.search(r"fn \w+(<[^(]*>)?\(", text).end() - 1:]
    depth, count, some = 0, 0, False
    for c in head:
        depth += c in "([<"
        depth -= c in ")]>"
        if depth == 0:
            break
        if depth == 1 and c == ",":
            count += 1
            some = False
        elif depth >= 1 and c not in "(\n ":
            some = True
    return count + some


def main():
    for point, what, pattern in LINES:
        found = [(p, n, l) for p in SOURCES for n, l in enumerate(p.read_text().split("\n"), 1) if re.search(pattern, l)]
        if what.startswith("own") or not what.startswith("comments"):
            found = [f for f in found if not f[2].lstrip().startswith("//")]
        say(point, what, [(f"{p.relative_to(ROOT)}:{n}", l.strip()) for p, n, l in found])
    everything = [(p, n, t) for p in SOURCES for n, t in functions(p)]
    groups = collections.defaultdict(list)
    for p, n, t in everything:
        if t.count("\n") >= 5:
            groups[shape(t)].append((f"{p.relative_to(ROOT)}:{n}", name_of(t)))
    twins = [g for g in groups.values() if len(g) > 1]
    say("2", "functions that are another one but for names and numbers", [x for g in sorted(twins) for x in g], f" in {len(twins)} groups")
    say("5", "functions of six parameters or more", [(f"{p.relative_to(ROOT)}:{n}", f"{name_of(t)} {parameters(t)}") for p, n, t in everything if parameters(t) >= 6])
    facts = collections.Counter()
    for p, n, t in everything:
        for clause in re.findall(r"(?m)^\s*(?:requires)(?: \w+)? \{ (.*) \}$", t):
            for fact in set(re.split(r" × ", clause)):
                facts[(p.parts[-3], fact.strip("() "))] += 1
    say("5", "facts that three requires of a crate or more have", [(f"{c}", f"{f}: {k}") for (c, f), k in sorted(facts.items()) if k >= 3])
    answers = sorted(ROOT.glob("crates/*/proofs/**/Answers.antt"))
    walks = sorted(ROOT.glob("crates/*/proofs/**/Proof.antt"))
    say("8", "functions with answers of their own", [(str(a.relative_to(ROOT)), "") for a in answers])
    say("8", "functions with a proof by hand", [(str(a.relative_to(ROOT)), "") for a in walks])


def say(point, what, found, more=""):
    print(f"{point}. {what}: {len(found)}{more}")
    if LIST:
        for place, text in found:
            print(f"     {place}  {text}")


main()
