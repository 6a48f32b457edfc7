#!/usr/bin/env python3
"""Gives the repository's own definitions and lemmas the spelling of words in snake case and types in camel case.

usage: python3 tools/respell.py [FOLDER]     once, after /opt/rattle/port/port.py, at the top of FOLDER (default: here)

A name that specs/ or proofs/ of a crate define with a dash gets `_` for it (`cut-item` -> `cut_item`); one that begins
with a capital loses it (`Ends-early` -> `EndsEarly`). Names of goals keep theirs, since the check makes them. The names
are changed in .antt files, in the clauses of .rt files and in must-fail edits; strings, inputs and outputs stay.
A name that would fall together with another one, or that a library has too, stays, and the script says so.
"""

import os
import re
import sys

GOALS = re.compile(r"^(invariant|decreases|returns|loop|overflow|nonzero|bounds|slice|range|offset|prove|in|if|then|else|not|field|ghost)-|-(requires|law)$|-(requires)-")
OWN = re.compile(r"^\s*((?:(?:abbrev|unfoldable|pub) )*)(?:(record|data) )?([^\s:(){}=,;.λ◌]+)(?= *(?::|\())", re.M)
BOUND = re.compile(r"[({]((?:[^\s:(){}=,;.λ◌]+ )+): ")
LET = re.compile(r"\blet ([^\s:(){}=,;.λ◌]+) (?::|=)")
LAMBDA = re.compile(r"λ ((?:[^\s:(){}=,;.λ◌]+ ?)+)\.")
DECLARED = re.compile(r"\b(?:const|struct|enum|ghost|trait) (\w+)|^ +(?:pub )?(\w+):", re.M)
EDGE = r"[^\s(){}.,;:=\"'`\[\]|]"


def files(root, ends):
    for folder, dirs, names in os.walk(os.path.join(root, "crates")):
        dirs[:] = sorted(d for d in dirs if d != "out")
        for n in sorted(names):
            if n.endswith(ends):
                yield os.path.join(folder, n)


def spelled(name):
    parts = name.split("-")
    if name[0].isupper():
        return "".join(p[:1].upper() + p[1:] for p in parts)
    return "_".join(parts)


def imported(text):
    """The names that the file takes from elsewhere than the repository's own crates."""
    out = set()
    for path, items in re.findall(r"^(?:ghost )?use ([^\s{;]+)\.\{([^}]*)\}", text, re.M):
        if not OWNERS.match(path):
            out.update(i.split(" as ")[0].strip() for i in items.split(","))
    return out


def main():
    global OWNERS
    root = sys.argv[1] if len(sys.argv) > 1 else "."
    crates = sorted(os.listdir(os.path.join(root, "crates")))
    OWNERS = re.compile(r"Rattle[.·](%s)\b" % "|".join(crates))
    names, others, foreign = {}, set(), {}
    for path in files(root, (".antt", ".rt")):
        text = open(path, encoding="utf-8").read()
        foreign[path] = imported(text)
        others.update(foreign[path])
        if not path.endswith(".antt"):
            # a definition may have the name of a function, but not of a constant, a field, a type or a ghost member
            others.update(a or b for a, b in DECLARED.findall(text))
            continue
        answers = re.search(r"/proofs/.+/(Answers|Invariants|Proof)\.antt$", path)
        for _, _, name in OWN.findall(text):
            if "-" not in name:
                others.add(name)
            elif not (answers and GOALS.search(name)) and re.match(r"^[A-Za-z]", name):
                names.setdefault(name, set()).add(path)
        for found in BOUND.findall(text) + LET.findall(text) + LAMBDA.findall(text):
            for name in found.split():
                if "-" not in name:
                    others.add(name)
                elif re.match(r"^[A-Za-z]", name):
                    names.setdefault(name, set()).add(path)
    turned = {n: spelled(n) for n in names}
    for n, t in sorted(turned.items()):
        if t in others or list(turned.values()).count(t) > 1 or any(n in f for f in foreign.values()):
            print("stays, as it would fall together with another name or is also a library's:", n, "in", *sorted(names[n]))
            del turned[n]
    any_name = re.compile("(?<!%s)(%s)(?!%s)" % (EDGE, "|".join(sorted(map(re.escape, turned), key=len, reverse=True)), EDGE))
    changed = 0
    for path in files(root, (".antt", ".rt", ".edit")):
        text = open(path, encoding="utf-8").read()
        answers = re.search(r"/proofs/.+/(Answers|Invariants|Proof)\.antt$", path)

        def turn(m):
            before = text[max(0, m.start() - 5):m.start()]
            if answers and before.endswith(("goal.", "c.")) or m.group(1) in foreign.get(path, ()):
                return m.group(1)
            return turned[m.group(1)]

        new = any_name.sub(turn, text)
        if new != text:
            open(path, "w", encoding="utf-8").write(new)
            changed += 1
    print("%d names turned in %d files" % (len(turned), changed))


if __name__ == "__main__":
    main()
