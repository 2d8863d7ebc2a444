#!/usr/bin/env python3
"""Turns a crate's Proof.antt files of the older Rattle into Invariants.antt and Answers.antt.

usage: rt names NAMES                              at the repository's top: what each goal and step is called, then and now
       python3 tools/answers.py NAMES CRATE [F..]  of the crate CRATE, all functions or those named, as `Scan.give`

An older proof lists an answer for each goal, in order, and reads facts by chains of `.before`. Today an answer stands under its goal's
name and reads each fact by its step's name. What the search finds alone is left out. What this can't read is said, and is left to do.
"""

import json
import os
import re
import sys

TRIVIAL = re.compile(r"^(search rules|omega arith|search rules depth \d+|tt)$")
NAME = r"[A-Za-z_\u0370-\u03ff][\w'₀-₉-]*"


def norm(name):
    return re.sub(r"[-_]", "_", name)


class Function:
    def __init__(self, crate, path, info):
        self.crate, self.path, self.info = crate, path, info
        self.order = [p[0] for p in info["places"]]
        self.parent = {p[0]: p[1] for p in info["places"]}
        self.step = {p[0]: p[2] for p in info["places"]}
        self.callee = {p[0]: p[3] for p in info["places"]}
        self.arms = dict(zip(self.order, info["arms"]))
        self.clauses = dict(zip(self.order, info["clauses"]))
        self.new_place = dict(zip(self.order, info["places_by_name"]))
        self.said = []
        self.args = dict(tuple(a) for a in info["args"] if len(a) == 2)

    def chain(self, place):
        while place is not None:
            yield place
            place = self.parent.get(place)

    def depth(self, at, place):
        for n, p in enumerate(self.chain(at)):
            if p == place:
                return n
        return None


def split_args(text):
    """The words of a call, with what is in brackets held together."""
    out, depth, word = [], 0, ""
    for ch in text:
        if ch in "([{":
            depth += 1
        if ch in ")]}":
            depth -= 1
        if ch.isspace() and depth == 0:
            if word:
                out.append(word)
            word = ""
        else:
            word += ch
    if word:
        out.append(word)
    return out


def blocks(text):
    """The top-level parts of a file: (comment lines, signature, unfolding, body)."""
    parts, current = [], []
    for line in text.split("\n"):
        if line and not line[0].isspace():
            starts = re.match(rf"^(?:abbrev |unfoldable |pub )*({NAME}) *:(?!:)", line) or line.startswith("use ")
            comment = line.startswith("--")
            if (starts or comment) and current and not current[-1].startswith("--"):
                parts.append(current)
                current = []
        if line.strip() or current:
            current.append(line)
    if current:
        parts.append(current)
    return parts


class Reader:
    """Turns a body for a goal that is asked at a place."""

    def __init__(self, fn, at):
        self.fn, self.at = fn, at
        self.env = {"c": at}
        self.lists = set()

    def place_text(self, place):
        n = self.fn.depth(self.at, place)
        if n is None:
            self.fn.said.append(f"{place} is not before {self.at}")
            n = 0
        return "c" + ".before" * n

    def arm(self, place, old_step, fields):
        """The arm that a read of a step belongs to, nearest first."""
        for p in self.fn.chain(self.at):
            arm = self.fn.arms.get(p)
            if not arm:
                continue
            best = None
            for new, step, path in arm[2]:
                if norm(step) == norm(old_step) and fields[: len(path)] == path and (best is None or len(path) > len(best[1])):
                    best = (new, path)
            if best:
                return f"c.{arm[0]}.{best[0]}", fields[len(best[1]) :]
            if p == place:
                break
        return None

    def read(self, root, fields):
        """(text, place): a place if the path ends at one."""
        fn = self.fn
        place = self.env[root]
        fields = list(fields)
        while fields and fields[0] == "before":
            place = fn.parent.get(place) or "Start"
            fields.pop(0)
        if not fields:
            return self.place_text(place), place
        f = fields.pop(0)
        old, new = fn.step[place]
        if norm(f) != norm(old) or not old:
            # today's chain may be shorter than the older one: the step counts
            for p in fn.chain(self.at):
                if fn.step[p][0] and norm(fn.step[p][0]) == norm(f):
                    place, (old, new) = p, fn.step[p]
                    break
        if norm(f) == norm(old) and old:
            found = self.arm(place, old, fields)
            if found:
                text, rest = found
            else:
                text, rest = "c." + new, self.clause(place, fields)
                if old.startswith("if"):
                    rest = [{"taken": "true", "left": "false"}.get(r, r) for r in rest]
            return ".".join([text] + rest), None
        if f == "pre":
            f = "requires"
        if f == "requires" and fields and fields[0].isdigit() and fn.info["pre"] and fn.info["pre"].get("fields"):
            fields[0] = fn.info["pre"]["fields"][int(fields[0])]
        if f == "args" and fields and ".args ." + fields[0] in fn.args:
            fields[0] = fn.args[".args ." + fields[0]].split(".")[-1]
        return ".".join(["c", f.replace("-", "_")] + fields), None

    def clause(self, place, fields):
        fn = self.fn
        c = fn.clauses.get(place)
        if fields and fields[0] == "ensures" and len(fields) > 1 and fields[1].isdigit() and c and c.get("fields"):
            n = int(fields[1])
            if n < len(c["fields"]):
                return ["ensures", c["fields"][n]] + fields[2:]
        if fields and fields[0] in ("new", "auto") and len(fields) > 1 and all(x in "01" for x in fields[1:]):
            names = fn.info["params"].get(fn.callee.get(place), [])
            k = 0
            rest = fields[1:]
            while rest and rest[0] == "1":
                k += 1
                rest = rest[1:]
            if rest and rest[0] == "0" and k < len(names):
                return [fields[0], names[k]] + rest[1:]
        return fields

    def body(self, text):
        out, i = "", 0
        # a `let` that only names a place goes
        let = re.compile(rf"let ({NAME}) = ({NAME})((?:\.{NAME}|\.\d+)*) in\s*")
        path = re.compile(rf"(?<![\w.'-])({NAME})((?:\.(?:{NAME}|\d+))*)")
        while i < len(text):
            m = let.match(text, i)
            if m and m.group(2) in self.env:
                new, place = self.read(m.group(2), m.group(3).split(".")[1:])
                if place is not None:
                    self.env[m.group(1)] = place
                    i = m.end()
                    continue
                if new == "c.args":
                    self.lists.add(m.group(1))
                out += f"let {m.group(1)} = {new} in" + re.search(r" in(\s*)$", m.group(0)).group(1)
                i = m.end()
                continue
            m = path.match(text, i) if not (i and re.match(r"[\w.'-]", text[i - 1])) else None
            if m and m.group(1) in self.env:
                out += self.read(m.group(1), m.group(2).split(".")[1:])[0]
                i = m.end()
            elif m and m.group(1) in self.lists:
                fields = m.group(2).split(".")
                if len(fields) > 1 and ".args ." + fields[1] in self.fn.args:
                    fields[1] = self.fn.args[".args ." + fields[1]].split(".")[-1]
                out += m.group(1) + ".".join(fields)
                i = m.end()
            elif m:
                out += m.group(0)
                i = m.end()
            else:
                out += text[i]
                i += 1
        return out


def by_clause(body, clauses):
    """A pair for several clauses becomes a record of them by name."""
    m = re.match(r"^(.*?)\(([^()].*|\(.*)\)\s*$", body, re.S) if clauses else None
    if not m:
        return body
    # the last bracket of the body that opens at the top
    depth, start = 0, None
    for n, ch in enumerate(body):
        if ch == "(":
            if depth == 0:
                start = n
            depth += 1
        if ch == ")":
            depth -= 1
    before, inner = body[:start], body.rstrip()[start + 1 : -1]
    if not (before.strip() == "" or before.rstrip().endswith(" in")):
        return body
    parts, depth, word = [], 0, ""
    for ch in inner:
        depth += ch in "([{"
        depth -= ch in ")]}"
        if ch == "," and depth == 0:
            parts.append(word.strip())
            word = ""
        else:
            word += ch
    parts.append(word.strip())
    if len(parts) != len(clauses):
        return body
    return before + "record { " + "; ".join(f"{n} = {p}" for n, p in zip(clauses, parts)) + " }"


def strip_outer(text):
    text = text.strip()
    while text.startswith("(") and text.endswith(")"):
        depth = 0
        for n, ch in enumerate(text):
            depth += ch == "("
            depth -= ch == ")"
            if depth == 0 and n < len(text) - 1:
                return text
        text = text[1:-1].strip()
    return text


def source_params(root, crate, path):
    return None


def convert(root, crate, key, info):
    fn_path = key[len(f"Rattle-{crate}-proofs.") : -len(".Lts")]
    folder = os.path.join(root, "crates", crate, "proofs", *fn_path.split("."))
    proof = os.path.join(folder, "Proof.antt")
    if not os.path.exists(proof):
        return None
    with open(proof, encoding="utf-8") as f:
        text = f.read()
    if "tie.close" not in text:
        return f"{fn_path}: a walk by hand"
    fn = Function(crate, fn_path, info)
    uses, defs, spec, head = [], {}, None, []
    order = []
    for part in blocks(text):
        comments = []
        while part and part[0].startswith("--"):
            comments.append(part.pop(0))
        if not part:
            head += comments
            continue
        if part[0].startswith("use "):
            head += comments
            uses += [l for l in part if l.startswith("use ")]
            continue
        m = re.match(rf"^(?:abbrev |unfoldable |pub )*({NAME}) *:(.*)$", part[0])
        if not m:
            fn.said.append("a part that is not read: " + part[0][:80])
            continue
        name, signature = m.group(1), m.group(2).strip()
        rest = part[1:]
        unfolding = None
        while rest and rest[0].startswith("unfolding"):
            unfolding = rest.pop(0)
        body = "\n".join(rest).rstrip()
        if "tie.close" in body:
            spec = (unfolding, body)
        else:
            defs[name] = (comments, signature, unfolding, body, part[0].startswith("abbrev"))
            order.append(name)
    if not spec:
        return f"{fn_path}: no closing part"
    m = re.search(r"tie\.close\s*\(tie\.spec(.*)\)\s*$", spec[1], re.S)
    if not m:
        m = re.search(r"tie\.close\s+tie\.spec()\s*$", spec[1], re.S)
    if not m:
        return f"{fn_path}: a closing part that is not read"
    args = split_args(m.group(1))
    loops = info["loops"]
    invs, rest = args[: 2 * len(loops)], args[2 * len(loops) :]
    needs = info["needs"]
    asked = info["asked_at"]
    answers, helpers, used_as_need = [], [], set()
    pairs = []
    if len(rest) == len(needs):
        pairs = list(zip(rest, range(len(needs))))
    else:
        fn.said.append(f"{len(rest)} answers for {len(needs)} goals")
        by_old = {norm(n[0]): i for i, n in enumerate(needs)}
        plain = lambda a: a not in defs and not TRIVIAL.match(strip_outer(re.sub(r"^λ c(?: κs)?\.", "", strip_outer(a)).strip()))
        inline = [a for a in rest if plain(a)]
        ends = [i for i, n in enumerate(needs) if n[0].startswith("returns")]
        if len(inline) == len(ends):
            pairs = list(zip(inline, ends))
            rest = [a for a in rest if a not in inline]
        for a in rest:
            if a in defs:
                s = re.match(r"tie\.Need-([\w'-]+)", defs[a][1])
                old = norm(s.group(1)) if s else ""
                tries = [old, re.sub(r"^(overflow|slice_bounds|bounds|nonzero)_", "", old), re.sub(r"^slice_bounds_", "part_", old)]
                hit = next((t for t in tries if t in by_old), None)
                if hit is None:
                    fn.said.append(f"no goal for {a} : {defs[a][1]}")
                    used_as_need.add(a)
                else:
                    pairs.append((a, by_old[hit]))
            elif not TRIVIAL.match(strip_outer(re.sub(r"^\(?λ c(?: κs)?\.", "", strip_outer(a)).strip())):
                fn.said.append("an answer without a goal: " + " ".join(a.split())[:160])
    for a, i in pairs:
        new = needs[i][1]
        at = asked[i][0]
        if a in defs:
            used_as_need.add(a)
            comments, signature, unfolding, body, _ = defs[a]
            m = re.match(rf"^{re.escape(a)}((?: {NAME})*) =(.*)$", body, re.S)
            if not m:
                fn.said.append(f"a body that is not read: {a}")
                continue
            params, b = m.group(1).split(), m.group(2)
        else:
            comments, unfolding = [], spec[0]
            b = strip_outer(a)
            m = re.match(rf"^λ ({NAME})(?: {NAME})*\.(.*)$", b, re.S)
            if m:
                params, b = [m.group(1)], m.group(2)
            else:
                m = re.match(rf"^({NAME})$", b)
                fn.said.append(f"an answer that is not read: {b[:80]}")
                continue
        if TRIVIAL.match(strip_outer(b)):
            continue
        r = Reader(fn, at)
        r.env = {params[0]: at} if params else {}
        answers.append((comments, new, unfolding, by_clause(r.body(b.rstrip()), info["asked"].get(needs[i][0]))))
    for n in order:
        if n in used_as_need or n in invs:
            continue
        comments, signature, unfolding, body, is_abbrev = defs[n]
        m = re.match(r"^\(c : tie\.([\w'-]+)[^)]*\) → (.*)$", signature, re.S)
        if m:
            old = next((p for p in fn.order if norm(p) == norm(m.group(1))), None)
            if old is None:
                fn.said.append(f"no place for {n}: {m.group(1)}")
                continue
            r = Reader(fn, old)
            sig = r.body(m.group(2))
            b = re.match(rf"^{re.escape(n)} ({NAME}) =(.*)$", body, re.S)
            r = Reader(fn, old)
            helpers.append((comments, f"{n} : (c : goal.{fn.new_place[old]}) → {sig}", unfolding, f"{n} c ={r.body(b.group(2).rstrip())}"))
        else:
            helpers.append((comments, f"{'abbrev ' if is_abbrev else ''}{n} : {signature}", unfolding, body))
    written = []
    keep = [u for u in uses if ".Statement." not in u and not u.endswith(" as tie")]
    module = f"Rattle.{crate}.proofs.{fn_path}"
    if answers or helpers:
        out = list(head)
        out += keep + [f"use {module}.Goals as goal"]
        for comments, sig, unfolding, body in helpers:
            out += [""] + comments + [sig] + ([unfolding] if unfolding else []) + [body]
        for comments, new, unfolding, body in answers:
            out += [""] + comments + [f"pub {new} : goal.{new}"] + ([unfolding] if unfolding else []) + [f"{new} c ={body}"]
        written.append(("Answers.antt", "\n".join(out) + "\n"))
    if loops:
        out = list(head) + keep + [f"use {module}.Given as goal"]
        for n, ((old, new), names) in enumerate(loops):
            flags = info["changed"][n]
            for which, arg, word in ((0, invs[2 * n], "invariant"), (1, invs[2 * n + 1], "decreases")):
                if arg not in defs:
                    fn.said.append(f"the {word} {arg} is not read")
                    continue
                comments, signature, unfolding, body, _ = defs[arg]
                m = re.match(rf"^{re.escape(arg)}((?: [^\s=]+)*) =(.*)$", body, re.S)
                olds = m.group(1).split()
                turn = {}
                want = names + [v for v, c in zip(names, flags) if c]
                if len(want) != len(olds):
                    fn.said.append(f"{arg}: {len(olds)} variables for {len(want)}")
                for k, v in enumerate(olds):
                    if v == "_":
                        continue
                    if k < len(names):
                        turn[v] = f"l.{names[k]}" if not flags[k] else f"l.initial.{names[k]}"
                    elif k < len(want):
                        turn[v] = f"l.{want[k]}"
                b = re.sub(rf"(?<![\w.'-])({NAME})", lambda q: turn.get(q.group(1), q.group(1)), m.group(2).rstrip())
                out += [""] + comments + [f"abbrev pub {word}-{new} : goal.{word}-{new}"] + ([unfolding] if unfolding else []) + [f"{word}-{new} l ={b}"]
        written.append(("Invariants.antt", "\n".join(out) + "\n"))
    for name, content in written:
        with open(os.path.join(folder, name), "w", encoding="utf-8") as f:
            f.write(content)
    os.remove(proof)
    if not written and not os.listdir(folder):
        os.removedirs(folder)
    return f"{fn_path}: " + "; ".join(fn.said) if fn.said else None


def main():
    names, crate, only = sys.argv[1], sys.argv[2], sys.argv[3:]
    with open(os.path.join(names, "crates", crate, "names.json"), encoding="utf-8") as f:
        info = json.load(f)
    for key in sorted(info):
        if not key.endswith(".Lts"):
            continue
        if only and key[len(f"Rattle-{crate}-proofs.") : -len(".Lts")] not in only:
            continue
        said = convert(".", crate, key, info[key])
        if said:
            print("left: " + said)


main()
