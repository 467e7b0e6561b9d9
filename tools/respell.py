#!/usr/bin/env python3
"""Brings this repository's own definitions and lemmas to today's spelling, once, after port.py.

A definition `rowAt` becomes `row_at`. In a lemma's name a dash stays where it joins two names of definitions, as in `length-marks`;
every other dash becomes `_`, as in `given_exactly_when`. The folders specs/code become specs/Code. Functions of src/, exported names,
strings and the names that Rattle makes for goals (those declared in a Proof.antt) stay.

usage: python3 tools/respell.py        at the top of the repository
"""
import os
import re
import subprocess
import sys

DECLARED = re.compile(r"\s*(?:\| )?((?:pub |abbrev |unfoldable |data |record )*)([^\s:(){}\[\],;.]+) (?:[({].*)?:(?: |$)")
WORD = re.compile(r"[^\s(){}\[\],;.`\"]+")
CAMEL = re.compile(r"(?<=[a-z0-9])(?=[A-Z])")
# words of the library that lemmas name
STD = set("length get_or get set append drop take add sub mul div mod pow eq zero suc cons nil max min map le lt pos and or xor not sum_by count fold mem"
          " bit_and bit_or bit_xor ones eqb ltb leb cond replicate count_ones".split())
# names whose parts are a phrase, or whose first part is the name of a definition and the rest is not
PHRASES = {"kept-at-most": "kept-at_most", "rank-at-most": "rank-at_most", "bad-row-none": "bad_row-none", "kept-fewest": "kept-fewest", "kept-necessary": "kept-necessary",
           "family-iff": "family-iff", "family-choice": "family-choice", "family-admits": "family-admits"}


def files(*endings):
    for root, dirs, names in os.walk("."):
        dirs[:] = sorted(d for d in dirs if d not in ("out", ".git", "tools", "target", "landings"))
        for n in sorted(names):
            if n.endswith(endings):
                yield os.path.join(root, n)


def read(p):
    with open(p, encoding="utf-8") as f:
        return f.read()


def declared(p):
    for line in read(p).splitlines():
        m = DECLARED.match(line)
        if m and not line.lstrip().startswith("--"):
            yield m.group(2), line[0] not in " |"


def snake(n):
    if n[0].islower() and CAMEL.search(n):
        return CAMEL.sub("_", n).lower()
    return n


def joined(n, names):
    """Parses the parts between dashes into names, the longest first, and plain words."""
    parts, out, i = n.split("-"), [], 0
    while i < len(parts):
        for j in range(len(parts), i, -1):
            w = "_".join(snake(x) for x in parts[i:j])
            if w in names or j == i + 1:
                out.append((w, w in names))
                i = j
                break
    text = out[0][0]
    for (a, an), (b, bn) in zip(out, out[1:]):
        text += ("-" if an and bn else "_") + b
    return text


def main():
    lemmas, words = set(), set(STD)
    for p in files(".antt"):
        if p.endswith("Proof.antt"):
            continue
        for n, top in declared(p):
            lemmas.add(n)
            if top and "/specs/" in p and "-" not in n:
                words.add(snake(n))
    turned = {}
    for n in sorted(lemmas, key=lambda n: ("-" in n, n)):
        m = PHRASES.get(n) or (joined(n, words) if "-" in n else snake(n))
        if m != n:
            # a lemma that would have its function's name
            turned[n] = m + "_lem" if m in turned.values() or "-" in n and m in lemmas else m
    every = set()
    for p in files(".antt", ".rt"):
        every |= set(WORD.findall(read(p))) | set(re.findall(r"\w+", read(p)))
    clash = False
    back = {}
    for n, m in turned.items():
        if m in every:
            print(f"look: {n} becomes {m}, which stands already")
        if m in back:
            print(f"refused: {n} and {back[m]} both become {m}")
            clash = True
        back[m] = n
    if clash:
        return 1

    def word(m):
        w = m.group(0)
        bare = w.strip("'*:?!<>=")
        return w.replace(bare, turned[bare]) if bare in turned else w

    for p in files(".antt", ".rt", ".edit"):
        t = read(p)
        u = WORD.sub(word, t)
        u = u.replace(".specs.code.", ".specs.Code.").replace("pub mod code\n", "pub mod Code\n").replace("specs/code/", "specs/Code/").replace("`code`", "`Code`")
        if u != t:
            with open(p, "w", encoding="utf-8") as f:
                f.write(u)
    for p in ["README.md", "docs/DECISIONS.md", "docs/PROMISES.md", "docs/REQUEST.md", "docs/HANDBOOK.md"]:
        t = read(p)
        u = re.sub(r"`[^`\n]*`", lambda q: WORD.sub(word, q.group(0)), t).replace("specs/code/", "specs/Code/")
        if u != t:
            with open(p, "w", encoding="utf-8") as f:
                f.write(u)
    for root, dirs, names in os.walk("crates"):
        if root.endswith("/specs"):
            for old, new in (("code", "Code"), ("code.antt", "Code.antt")):
                if os.path.exists(os.path.join(root, old)):
                    subprocess.run(["git", "mv", os.path.join(root, old), os.path.join(root, new)], check=True)
    for n in sorted(turned):
        print(f"{n} -> {turned[n]}")
    return 0


if __name__ == "__main__":
    sys.exit(main())
