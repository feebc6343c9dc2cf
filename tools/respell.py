#!/usr/bin/env python3
"""Brings the names of this repository's own definitions, fields, constructors and lemmas to the spelling of the library: words in snake case.
usage: tools/respell.py [--dry]   at the top, once, right after the upgrade scripts have run.

A name is taken from a line `NAME : ..` or `NAME NAME : ..` of an .antt file. A dash stays where a part beside it is the name of a definition of
several words or of a type (`size-boxOf` becomes `size-box_of`, `Within-rank` stays); else it becomes `_`. Types, modules and facts, which begin
with a capital, stay. Names that Rattle makes (of goals, in proofs/F/) stay, and so do the texts of strings in .rt files."""

import collections
import os
import re
import sys

HERE = os.path.dirname(os.path.dirname(os.path.realpath(__file__)))
TOKEN = re.compile(r"[A-Za-zℕℤ_][A-Za-z0-9_'₀-₉ℕℤ]*(?:-[A-Za-z0-9_'₀-₉ℕℤ]+)*")
DEF = re.compile(r"^\s*(?:(?:abbrev|unfoldable|opaque|pub|field)\s+)*((?:[A-Za-z_][\w'₀-₉-]*\s+)+):\s")
STRING = re.compile(r'"(?:[^"\\\n]|\\.)*"')
# what two old names would fall together on, or what has that name already: another name for it
OTHER = {
    "counts-after": "counts_after_lem", "counts_of": "counts_of_lem", "def-line": "def_line_lem", "poss-line": "poss_line_lem",
    "def-no": "def_no_lem", "def-yes": "def_yes_lem", "poss-no": "poss_no_lem", "poss-yes": "poss_yes_lem", "excess-level": "excess_level_lem",
    "first-at": "first_at_lem", "full-of": "full_of_lem", "given-fault": "given_fault_lem", "pathAfter": "path_then", "level-bits": "level_bits_lem",
    "levels-fit": "levels_fit_lem", "stamps-fit": "stamps_fit_lem", "m-at": "m_at_lem", "refused-text": "refused_text_lem", "way-to": "way_to_lem",
}
# the crates in which these are the names of definitions
KEPT = {"settled": ("def-no", "def-yes", "poss-no")}


def files(root, *endings):
    for folder, dirs, names in os.walk(root):
        dirs[:] = sorted(d for d in dirs if d not in ("out", ".git"))
        for n in sorted(names):
            if n.endswith(endings):
                yield os.path.join(folder, n)


def is_goal_file(path):
    return "/proofs/" in path and path.split("/proofs/")[1].count("/") > 0


def plain(part):
    return re.fullmatch(r"[a-z0-9']+", part) is not None


def snake(part):
    if part[0].isupper() and (len(part) > 1 and not part.isupper()):
        return part
    return re.sub(r"(?<=[a-z0-9])([A-Z])", lambda m: "_" + m[1].lower(), part).lower() if not part[0].isupper() else part.lower()


def respelt(name):
    if name in OTHER:
        return OTHER[name]
    if name[0].isupper() and "-" not in name:
        return name
    parts = name.split("-")
    out = snake(parts[0])
    for a, b in zip(parts, parts[1:]):
        joint = "_" if (plain(a) or a.isupper()) and (plain(b) or b.isupper()) else "-"
        out += joint + snake(b)
    return out


def defined(path):
    goal_file = is_goal_file(path)
    with open(path, encoding="utf-8") as f:
        lines = f.read().splitlines()
    for i, line in enumerate(lines):
        if line.lstrip().startswith(("let ", "--", "use ", "in ", "module ", "(")):
            continue
        m = DEF.match(line)
        if not m:
            continue
        if goal_file:
            said = line + (lines[i + 1] if i + 1 < len(lines) else "")
            if "tie." in said or "goal." in said or " statement " in said or line[0] == " ":
                continue
        yield from (w for w in m[1].split() if w not in ("in", "let", "where", "record"))


def main():
    dry = "--dry" in sys.argv
    names = set()
    where = collections.defaultdict(set)
    every = collections.defaultdict(set)
    for p in files(os.path.join(HERE, "crates"), ".antt"):
        for n in defined(p):
            names.add(n)
            where[n].add(os.path.relpath(p, HERE))
    for p in files(os.path.join(HERE, "crates"), ".antt", ".rt"):
        with open(p, encoding="utf-8") as f:
            for w in TOKEN.findall(f.read()):
                every[w].add(os.path.relpath(p, HERE))
    new = {n: respelt(n) for n in names}
    turned = {n: r for n, r in new.items() if n != r}
    back = collections.defaultdict(set)
    for n, r in new.items():
        back[r].add(n)
    for r, olds in sorted(back.items()):
        if len(olds) > 1:
            print("fall together:", r, "<-", {o: sorted(where[o]) for o in sorted(olds)})
    for n, r in sorted(turned.items()):
        if r in every and len(back[r]) == 1:
            print("is there already:", n, "->", r, sorted(every[r])[:6])
    print(len(names), "names,", len(turned), "respelt")
    if dry:
        return
    for p in files(HERE, ".antt", ".rt", ".edit", ".md", ".txt"):
        rel = os.path.relpath(p, HERE)
        if rel.startswith(("tests/", "tools/", "target/")):
            continue
        kept = KEPT.get(rel.split("/")[1], ()) if rel.startswith("crates/") else ()

        def name(m):
            n = m[0]
            if n in kept:
                return n.replace("-", "_")
            if n in turned:
                return turned[n]
            # a name that the upgrade scripts respelt in the code alone
            return respelt(n) if not p.endswith((".antt", ".rt")) and n[0].islower() and respelt(n) in back else n

        turn = lambda text: TOKEN.sub(name, text)
        with open(p, encoding="utf-8") as f:
            text = f.read()
        if p.endswith((".rt", ".edit")):
            out, last = [], 0
            for m in STRING.finditer(text):
                out += [turn(text[last:m.start()]), m[0]]
                last = m.end()
            out.append(turn(text[last:]))
            t = "".join(out)
        else:
            t = turn(text)
        if t != text:
            with open(p, "w", encoding="utf-8") as f:
                f.write(t)


main()
