#!/usr/bin/env python3
"""Respells the definitions and lemmas of this repository: words in snake case, types in upper camel case.

usage: python3 tools/respell.py [--list]     at the top of the repository, once, after the kit's own script

A name is turned, in every .rt and .antt file with its comments, where specs/ or proofs/ define it or VARIABLES lists it.
Behind a dot only a word of a module's path or a field of our own records is turned. Names that the checker makes (goals,
invariants, measures, steps) and names that a file imports from the library keep their spelling, and so does a name whose
new form stands in an .antt file already: a lemma keeps its dash there, which joins two names. A function of src/ and the
definition that says what it answers may share a name. must-fail/ and docs/ are left alone.
`--list` prints what would be turned and what is kept.
"""

import glob
import re
import sys

WORD = re.compile(r"[^\s(){}\[\],;.|\"⟦⟧⌜⌝λ]+")
SIGNATURE = re.compile(r"^(\s*)((?:pub |abbrev |unfoldable |unfold )*)([^\s(){},;.:]+) : (.*)$")
HEAD = re.compile(r"^\s*(?:pub )?(?:data|record) ([^\s(){},;.:]+)")
ALIAS = re.compile(r"\bas ([^\s(){},;.:]+)\s*$")
# bound by a pattern, a binder or a `let`, and so not found by a signature
VARIABLES = (
    "down-closed dp-y fits-now fits-room had-h is-clear new-booked no-back no-in no-k no-take no-tally not-star "
    "same-fits star-outside tally-one under-n up-y wider-hist yes-k"
).split()
MADE = re.compile(r"^(goal|given|need)\.")
LIBRARY = re.compile(r"^(?:pub )?(?:ghost )?use (?:Rattle\.std|lib|borrow|native|mathlib|Prim)\b.*$", re.MULTILINE)


def files(kind):
    return sorted(p for p in glob.glob("crates/**/*." + kind, recursive=True) if "/out/" not in p)


def own_names():
    names = set()
    for p in files("antt"):
        for line in open(p, encoding="utf-8"):
            m = SIGNATURE.match(line)
            if m and not MADE.match(m.group(4)) and "λ" not in m.group(3):
                names.add(m.group(3))
            m = HEAD.match(line)
            if m:
                names.add(m.group(1))
            m = ALIAS.search(line)
            if m:
                names.add(m.group(1))
    names.update(VARIABLES)
    return {n for n in names if "-" in n.strip("-") and re.match(r"^[\w'-]+$", n)}


def own_fields():
    """The fields of the records that specs/ and proofs/ declare."""
    fields = set()
    for p in files("antt"):
        inside = None
        for line in open(p, encoding="utf-8"):
            depth = len(line) - len(line.lstrip())
            if re.match(r"^\s*(?:pub )?record ", line):
                inside = depth
            elif line.strip() and inside is not None and depth <= inside:
                inside = None
            m = SIGNATURE.match(line)
            if inside is not None and m:
                fields.add(m.group(3))
    return fields


def other_words(names):
    seen = set()
    for p in files("antt"):
        text = open(p, encoding="utf-8").read()
        seen.update(m.group(0) for m in WORD.finditer(text) if text[m.start() - 1 : m.start()] != ".")
    return seen - names


def turned(n):
    if n[0].isupper():
        return "".join(w[0].upper() + w[1:] for w in n.split("-"))
    return n.replace("-", "_")


def plan():
    names = own_names()
    taken = other_words(names)
    to = {}
    kept = {}
    for n in sorted(names):
        t = turned(n)
        if t in taken or t in to.values():
            kept[n] = t
        else:
            to[n] = t
    return to, kept


def respell(text, to, fields):
    """Turns each word but the steps of a proof: after a dot only a word of a module's path, and a field of a record of ours.
    A name that the file imports from the library is the library's."""
    theirs = {w for line in LIBRARY.findall(text) for w in WORD.findall(line)}

    def one(m):
        w = m.group(0)
        if w in theirs:
            return w
        before = text[: m.start()]
        if before.endswith("."):
            owner = re.search(r"([^\s(){}\[\],;.|]+)\.$", before)
            if w not in fields and (not owner or owner.group(1)[0].islower()):
                return w
        return to.get(w, w)

    return WORD.sub(one, text)


def main():
    to, kept = plan()
    if "--list" in sys.argv[1:]:
        for n, t in to.items():
            print(n, "->", t)
        for n, t in kept.items():
            print("kept", n, "for", t)
        return
    fields = own_fields()
    for p in files("antt") + files("rt"):
        with open(p, encoding="utf-8") as f:
            old = f.read()
        new = respell(old, to, fields)
        if new != old:
            with open(p, "w", encoding="utf-8") as f:
                f.write(new)


if __name__ == "__main__":
    main()
