#!/usr/bin/env python3
"""The second part of tools/respell.py: what it left with a dash gets `_`, and fields of specs/ lose the ending of a lemma.

usage: python3 tools/respell_dashes.py    at the top of the repository, once, at any time after respell.py

A fact keeps the dash behind its type (`Told-by`). What Rattle names itself keeps its dashes: goals, and the steps that a proof cites.
"""
import os
import re
import sys

sys.path.insert(0, os.path.dirname(os.path.abspath(__file__)))
from respell import TOKEN, defined, files, read, turned

# the name is that of a definition or of another lemma
LEMMAS = {n: n.replace("-", "_") + "_lem" for n in "handed-back left-first same-slot sound-after sound-call sound-list sound-seen".split()}
# port.py took the first word of this one for the library's
OTHERS = {"None-found": "none_found"}
FIELDS = {"rules/specs/Fresh.antt": {"in_range_lem": "made_in_range"}, "rules/proofs/Fresh.antt": {"in_range_lem": "made_in_range"},
    "demands/proofs/Demand2.antt": {"in_range_lem": "made_in_range"},
    "schedule/specs/Examples.antt": {"no_ids_lem": "no_ids", "too_deep_lem": "too_deep"},
    "schedule/proofs/Examples.antt": {"no_ids_lem": "no_ids", "too_deep_lem": "too_deep"}}
MADE = {"Proof.antt", "Answers.antt", "Invariants.antt"}


def table(root):
    """The names, and those of them that are fields or constructors and so stand behind a dot too."""
    new, fields = dict(OTHERS), set()
    for p in files(root, (".antt",)):
        if os.path.basename(p) in MADE:
            continue
        t = read(p)
        for n in defined(t):
            if "-" in n and n[0].islower():
                new[n] = LEMMAS.get(n, n.replace("-", "_"))
        fields |= {m.group(1) for m in re.finditer(rf"^\s+(?:pub )?({TOKEN.pattern}) :", t, re.M)}
    return new, fields & set(new)


def turn(text, new, fields):
    def one(m):
        n = m.group(0)
        behind_dot = m.start() > 0 and text[m.start() - 1] == "."
        return new[n] if n in new and (not behind_dot or n in fields) else n

    return TOKEN.sub(one, text)


def main():
    new, fields = table(".")
    changed = 0
    for p in files(".", (".antt", ".rt", ".edit")):
        t = u = read(p)
        if p.endswith(".edit"):
            u = "\n".join(turned(l, new) if re.match(r"^(old|new): ", l) else l for l in t.split("\n"))
        elif p.endswith(".rt"):
            u = "\n".join(turned(l, new) if re.match(r"^\s*(pub )?(ghost use|requires|ensures)\b", l) else l for l in t.split("\n"))
        else:
            u = "\n".join(l if l.lstrip().startswith("--") else turn(l, new, fields) for l in t.split("\n"))
            for end, names in FIELDS.items():
                if p.endswith("crates/" + end):
                    u = turned(u, names)
        if u != t:
            changed += 1
            with open(p, "w", encoding="utf-8") as f:
                f.write(u)
    print(f"{len(new)} names, {changed} files")


main()
