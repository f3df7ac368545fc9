#!/usr/bin/env python3
"""Brings the names of definitions and lemmas to today's spelling: words in snake case, a dash only between two names.

usage: python3 tools/respell.py          at the top of the repository, once, right after port.py
       python3 tools/respell.py --table  prints what becomes what, and changes nothing

A lower-camel-case name of an .antt file is one of the logic's own, since names of src/ are in snake case. A name with dashes is turned only
where a file of specs/ or a lemma file of proofs/ defines it; what a Proof.antt defines is made anew when that proof is. Names that the
library exports keep their spelling. A name that would fall together with another is in TOGETHER, with what it becomes.
"""
import os
import re
import sys

WORD = r"[A-Za-z0-9_'₀-₉Α-ωℕℤ≤≡≢]"
TOKEN = re.compile(rf"{WORD}+(?:-{WORD}+)*")
LIST_WORDS = {"length", "get_or", "set", "take", "drop", "append", "table"}
# A lemma that would get the name of its function or of a definition ends in `_lem`; of other pairs one has another name.
LEMMAS = """
    all-leaving buffers-beyond calls-in demand-1 demand-2 demand-3 ends-none guard-ids guards-beyond in-range is-make no-ids on-first
    request-101 request-102 slot-here slot-id sound-of too-deep worker-ids worker-passes workers-beyond write-at
"""
TOGETHER = {n: n.replace("-", "_") + "_lem" for n in LEMMAS.split()}
TOGETHER |= {"givingUp": "giving", "badLine": "bad_line_bytes", "tooLong": "too_long_bytes"}


def files(root, ends):
    for folder, dirs, names in os.walk(os.path.join(root, "crates")):
        dirs[:] = sorted(d for d in dirs if d not in ("out", ".git"))
        for n in sorted(names):
            if n.endswith(ends):
                yield os.path.join(folder, n)


def read(path):
    with open(path, encoding="utf-8") as f:
        return f.read()


def by_hand(path):
    return os.path.basename(path) == "Proof.antt"


def defined(text):
    """Names that a line gives a signature, a record, a data type or a rule set of that name, and names after `as`."""
    names = set()
    for line in text.splitlines():
        if line.lstrip().startswith("--"):
            continue
        for m in re.finditer(rf"\bas ({WORD}+(?:-{WORD}+)*)(?=[,;}}]|$)", line):
            names.add(m.group(1))
        m = re.match(rf"^\s*((?:abbrev|unfoldable|pub|data|record|ruleset|infixl|infixr)\s+)*({WORD}+(?:-{WORD}+)*)\s*(:|=|\(|$)", line)
        if m and (m.group(3) == ":" or re.match(r"^\s*(pub )?(data|record|ruleset)\s", line)):
            names.add(m.group(2))
    return names


def imported(text, own):
    """Names that a `use` of the library brings in."""
    names = set()
    for m in re.finditer(r"\buse ([^\s{;]+)\.\{([^}]*)\}", text):
        parts = m.group(1).split(".")
        if parts[0] == "Rattle" and parts[1] in own:
            continue
        names |= {n.split(" as ")[0].strip() for n in m.group(2).split(",")}
    return names


def snake(name):
    return re.sub(r"(?<=[a-z0-9])([A-Z])", lambda m: "_" + m.group(1).lower(), name)


def is_camel(name):
    return name[0].islower() and re.search(r"[a-z0-9][A-Z]", name) is not None


def table(root):
    own = {c for c in os.listdir(os.path.join(root, "crates"))}
    library, dashed, words, tokens, there = set(), set(), set(LIST_WORDS), set(), set()
    for p in files(root, (".antt", ".rt")):
        t = read(p)
        library |= imported(t, own)
        if p.endswith(".antt"):
            code = "\n".join(l.split("--")[0] if l.lstrip().startswith("--") else l for l in t.splitlines())
            tokens |= set(TOKEN.findall(code))
            if not by_hand(p):
                d = defined(t)
                there |= d
                dashed |= {n for n in d if "-" in n and n[0].islower()}
                if "/specs/" in p:
                    words |= {snake(n) for n in d if "-" not in n and n[0].islower()}
    new = {}
    for n in sorted((tokens | dashed) - library):
        if n in TOGETHER:
            new[n] = TOGETHER[n]
        elif "-" not in n and is_camel(n):
            new[n] = snake(n)
        elif n in dashed:
            parts = [snake(x) for x in n.split("-")]
            new[n] = "-".join(parts) if len(parts) == 2 and all(x in words for x in parts) else "_".join(parts)
    new = {a: b for a, b in new.items() if a != b}
    seen = {}
    for a, b in sorted(new.items()):
        if b in there or b in library or b in seen:
            print(f"falls together: {a} -> {b}" + (f", as {seen[b]}" if b in seen else ", which is there"), file=sys.stderr)
        seen[b] = a
    return new


def turned(text, new, only=None):
    def one(m):
        n = m.group(0)
        return new[n] if n in new and (only is None or n in only) else n

    return TOKEN.sub(one, text)


def turn_antt(text, new, only=None):
    out = []
    for line in text.split("\n"):
        if line.lstrip().startswith("--"):
            out.append(re.sub(r"`[^`]*`", lambda m: turned(m.group(0), new), line))
        else:
            out.append(turned(line, new, only))
    return "\n".join(out)


def turn_rt(text, new):
    """Only ghost lines and clauses: code and strings keep their names."""
    out, clause, depth = [], False, 0
    for line in text.split("\n"):
        if line.lstrip().startswith("//"):
            out.append(re.sub(r"`[^`]*`", lambda m: turned(m.group(0), new), line))
            continue
        if not clause and re.match(r"^\s*(pub )?(ghost|requires|ensures|decreases)\b", line):
            clause, depth = True, 0
        if clause:
            depth += line.count("{") - line.count("}")
            out.append(turned(line, new))
            clause = depth > 0
        else:
            out.append(line)
    return "\n".join(out)


def turn_edit(text, new):
    return "\n".join(turned(l, new) if re.match(r"^(old|new): ", l) else l for l in text.split("\n"))


def main(argv):
    root = "."
    new = table(root)
    if argv == ["--table"]:
        for a, b in sorted(new.items()):
            print(f"{a}\t{b}")
        return 0
    changed = 0
    for p in files(root, (".antt", ".rt", ".edit")):
        t = read(p)
        if p.endswith(".rt"):
            u = turn_rt(t, new)
        elif p.endswith(".edit"):
            u = turn_edit(t, new)
        elif by_hand(p):
            brought = {n.split(" as ")[0].strip() for m in re.finditer(r"\buse Rattle\.[^\s{;]+\.\{([^}]*)\}", t) for n in m.group(1).split(",")}
            u = turn_antt(t, new, {n for n in new if "-" not in n or n in brought})
        else:
            u = turn_antt(t, new)
        if u != t:
            changed += 1
            with open(p, "w", encoding="utf-8") as f:
                f.write(u)
    print(f"{len(new)} names, {changed} files")
    return 0


if __name__ == "__main__":
    raise SystemExit(main(sys.argv[1:]))
