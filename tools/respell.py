#!/usr/bin/env python3
"""Respells the definitions and lemmas of this repository: snake case for all but types, and a dash only between two names.

usage: tools/respell.py [--list]      at the top of the repository, once, after the toolchain's own port.py

A name that is defined in specs/ or proofs/ with capitals inside, as keyOf, becomes key_of. In a name with dashes, as times-comm, a dash stays
before a part that is a name itself, as length-drop, and becomes an underscore before a plain word, as times_comm. Goals' names stay.
Names in src/ outside ghost text, strings and data have neither form, so the same replacement serves every .rt, .antt and .edit file.
"""
import os
import re
import sys

LETTER = r"[^\s(){}\[\],;:.\"⌜⌝⟨⟩]"
DEFINED = re.compile(rf"^[ \t]*(?:(?:abbrev|unfoldable|pub|data|record)[ \t]+)*({LETTER}+)[ \t]+(?:[({{][^\n]*?[)}}][ \t]*)*:[ \t]*(\S*)", re.M)
FUNCTION = re.compile(rf"^[ \t]*(?:abbrev|unfoldable)[ \t]+(?:pub[ \t]+)?({LETTER}+)[ \t]", re.M)
# operations of a field and functions of the library that lemmas here speak of, and words that are joined as plain ones though a function has the name
NAMED = set("plus times negate minus inverse length take drop append map set get_or reverse replicate suc zero one cond mod mul div add sub pow".split())
PLAIN = set("all at more back row word step low first is of left right here last long same high".split())


def files(*ends):
    for folder, dirs, names in os.walk("crates"):
        dirs[:] = sorted(d for d in dirs if d != "out")
        for n in sorted(names):
            if n.endswith(ends):
                yield os.path.join(folder, n)
    for folder, dirs, names in os.walk("tools/edits"):
        for n in sorted(names):
            if n.endswith(ends):
                yield os.path.join(folder, n)


def snake(part):
    part = part.replace("getD", "get_or")
    return re.sub(r"(?<=[a-z0-9])([A-Z])", lambda m: "_" + m.group(1), part).lower() if part[:1].islower() else part


def names():
    """The names that specs/ and proofs/ define, but for goals and their parts."""
    found = set()
    for p in files(".antt"):
        with open(p, encoding="utf-8") as f:
            for m in DEFINED.finditer(f.read()):
                if not re.match(r"(goal|given|need|goals)\.", m.group(2)):
                    found.add(m.group(1))
    return found


def functions():
    found = set()
    for p in files(".antt"):
        with open(p, encoding="utf-8") as f:
            found |= set(FUNCTION.findall(f.read()))
    return found


def ghosts():
    """Ghost members and fields, and names that a `ghost use` gives."""
    found = set()
    for p in files(".rt"):
        with open(p, encoding="utf-8") as f:
            found |= set(re.findall(r"\b[a-z]+[A-Z][A-Za-z]*\b", f.read()))
    return found


def respelt(all_names):
    simple = {snake(n) for n in functions() if "-" not in n} | NAMED
    simple -= PLAIN
    out = {}
    for n in all_names:
        if not n[0].islower() or n.startswith(("loop-", "invariant-", "returns-", "overflow-")):
            continue
        parts = [snake(p) for p in n.split("-")]
        new = parts[0]
        for p in parts[1:]:
            new += ("-" if p in simple else "_") + p
        if new != n:
            out[n] = new
    for n, new in list(out.items()):
        if "-" in n and (new in all_names or any(o != n and s == new for o, s in out.items())):
            out[n] = new + "_lem"
    return out


def main():
    all_names = names()
    table = respelt(all_names)
    table.update({n: snake(n) for n in ghosts()})
    taken = {}
    for old, new in sorted(table.items()):
        if new in all_names or new in taken:
            print(f"look: {old} and {taken.get(new, new)} fall together as {new}")
        taken[new] = old
    if "--list" in sys.argv:
        for old, new in sorted(table.items()):
            print(old, new)
        return
    token = re.compile(rf"{LETTER}+")
    for p in files(".antt", ".rt", ".edit"):
        with open(p, encoding="utf-8") as f:
            was = f.read()
        now = token.sub(lambda m: table.get(m.group(0), m.group(0)), was)
        if now != was:
            with open(p, "w", encoding="utf-8") as f:
                f.write(now)


main()
