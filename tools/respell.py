#!/usr/bin/env python3
"""Brings the names of this repository's definitions and lemmas to snake case.

usage: python3 tools/respell.py      once, at the top of the repository, after the toolchain's porting script

Turned are the names that specs/ and the lemma files of proofs/ declare: valuesOf and values-of become values_of. Names that begin with a
capital stay (types, and the constructors that bear the original's names), and so do the names of Rust items, and what Rattle makes. Where
two names would fall together, a definition has the plain one, and the other ends in _fact; each such pair has a line 'met:'.
"""

import glob
import re

NAME = r"[^\s(){}.;,@\"«»`]+"
DECLARED = re.compile(r"(?m)^( *)((?:pub |abbrev |unfoldable )*)(" + NAME + r"(?: " + NAME + r")*?)(?: \{[^{}\n]*\}| \([^()\n]*\))* :")
WALK = re.compile(r"/proofs/.*/(Proof|Answers|Invariants)(/.*)?\.antt$|/out/")
LENT = re.compile(r"(?m)^use (?:mathlib|native|lib|borrow|denote|Prim)\b[^{\n]*\{([^}]*)\}")
CLAUSE = re.compile(r"\s*(ghost |requires|ensures|pub ghost)|(old|new): .*(ghost |requires|ensures)")
PATH = re.compile(r"(?:" + NAME + r")(?:\." + NAME + r")*")


def snake(name):
    return re.sub(r"(?<=[a-z0-9])[A-Z]", lambda m: "_" + m[0].lower(), name).replace("-", "_")


def read(path):
    with open(path, encoding="utf-8") as f:
        return f.read()


def names():
    """Every declared name with its rank (0 a definition of specs/, 1 its field, 2 a lemma, 3 its field), the least it has, and the fields."""
    rank, fields = {}, set()
    for path in glob.glob("crates/**/*.antt", recursive=True):
        walk = WALK.search("/" + path)
        for m in DECLARED.finditer(read(path)):
            for n in m[3].split():
                if not walk and m[1]:
                    fields.add(n)
                r = 4 if walk else (0 if "/specs/" in path else 2) + bool(m[1])
                rank[n] = min(r, rank.get(n, 4))
    return rank, fields


def main():
    rank, fields = names()
    groups = {}
    for n, r in rank.items():
        if r < 4 and re.match(r"\w", n) and not n[:1].isupper():
            groups.setdefault(snake(n), []).append(n)
    new = {}
    for s, ns in groups.items():
        # A definition goes before a lemma of its name, and that has the ending then.
        ns.sort(key=lambda n: (rank[n], n))
        new.update((n, s + "_fact" * (i > 0)) for i, n in enumerate(ns))
        if len(ns) > 1:
            print("met:", ", ".join(f"{n} is {new[n]}" for n in ns))
    new = {n: s for n, s in new.items() if n != s}
    old = set()

    def turn(m):
        steps = m[0].split(".")
        path = steps[0] in ("Rattle", "crate", "package") or len(steps) > 1 and all(s[:1].isupper() for s in steps[:-1])
        for i, s in enumerate(steps):
            if s in old and (i == 0 or path or s in fields):
                steps[i] = new[s]
        return ".".join(steps)

    def line(l):
        code, dashes, comment = l.partition("-- ")
        words = lambda m: turn(m) if re.search("[a-z0-9][A-Z]", m[0]) else m[0]
        return PATH.sub(turn, code) + dashes + PATH.sub(words, comment)

    for path in glob.glob("crates/**/*.antt", recursive=True) + glob.glob("crates/**/*.rt", recursive=True) + glob.glob("crates/*/must-fail/*.edit"):
        if "/out/" in path:
            continue
        text = read(path)
        # What a file has from a library keeps the library's name.
        lent = {n.split(".")[-1] for m in LENT.finditer(text) for n in re.findall(NAME, m[1])}
        old = set(new) - lent
        if path.endswith(".antt"):
            t = "\n".join(map(line, text.split("\n")))
        else:
            # Only clauses and ghost imports have such names.
            t = "\n".join(PATH.sub(turn, l) if CLAUSE.match(l) or any(c in l for c in "≡≤λ→×") else l for l in text.split("\n"))
        if t != text:
            with open(path, "w", encoding="utf-8") as f:
                f.write(t)
    print(len(new), "names turned")


main()
