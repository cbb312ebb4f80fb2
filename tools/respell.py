#!/usr/bin/env python3
"""Spells the repository's own definitions and lemmas as today's Rattle does; run once, at the top, after the kit's port.py.

A definition or a lemma is in snake case. A dash stays only between two names, as in length-drop; a plain word hangs on by an underscore. The names are those that are
declared in specs/ and proofs/*.antt; names that Rattle makes, names of src/, the standard library's and those inside a function's own proof (proofs/F/) stay.
It turns crates/*/{src,specs,proofs,must-fail}, README.md and docs/. With --list it prints the table, old and new, and writes nothing. It takes no other
argument, and stops where docs/PORT.md says that the port has begun: names that it has made would be taken for old ones.
"""
import glob
import os
import re
import sys

DECLARED = re.compile(r"^(?= *(?:unfoldable |abbrev |pub )|\S) *(?:unfoldable |abbrev |pub |pattern )*([^\s(){}.;,@\"«»:]+)(?: \{[^}]*\})? :(?: |$)")
INNER = re.compile(r"^ +([a-z][^\s(){}.;,@\"«»:]*(?: [a-z][^\s(){}.;,@\"«»:]*)*) :(?: |$)")
NAMED = re.compile(r"[^\s(){}.;,@\"«»`\[\]:|'/]+'*")
CAMEL = re.compile(r"(?<=[a-z0-9])(?=[A-Z])")
# of the standard library: what a lemma's name may join by a dash
WORDS = "length append take drop map get_or set eqb leb ltb cond reverse sum filter slice_index suc".split()
# lemmas that port.py spelled as a definition's name will be
EARLIER = {"by_number": "by_number_lem"}
# where two names would fall together, or the rule does not see the words
CHOSEN = {
    "isNotANumber": "is_not_a_number",
    "is-nan": "is_nan_lem",
    "pattern-size": "length-pattern",
    "viewOneAtATime": "view_one_at_a_time",
    "oneAtATime": "one_at_a_time",
}


def files(*kinds):
    return sorted(f for k in kinds for f in glob.glob(k, recursive=True))


def read(f):
    with open(f, encoding="utf-8") as h:
        return h.read()


def sources():
    return files("crates/*/src/**/*.rt", "crates/*/specs/**/*.antt", "crates/*/proofs/**/*.antt", "crates/*/must-fail/*.edit", "README.md", "docs/**/*.md")


def declared(fs):
    """The names declared in these files: at the left margin or with a mark, and also a constructor or a local name that has a capital inside."""
    names = {}
    for f in fs:
        for line in read(f).split("\n"):
            if m := DECLARED.match(line):
                names[m[1]] = None
            elif m := INNER.match(line):
                names.update((n, None) for n in m[1].split() if CAMEL.search(n))
    return names


def snake(name):
    if not name[:1].islower():
        return name
    return CAMEL.sub("_", name).lower() if CAMEL.search(name) else name


def dashed(name, definitions):
    """The parts of a lemma's name, joined by a dash where both sides are definitions, else by an underscore."""
    if name in CHOSEN:
        return CHOSEN[name]
    parts = [snake(p) for p in name.split("-")]
    if parts[-1] == "determined":
        return "_".join(parts)
    made, last = parts[0], parts[0]
    for p in parts[1:]:
        dash = last in definitions and p in definitions
        made += ("-" if dash else "_") + p
        last = p if dash else last + "_" + p
    return made


def table():
    """Old and new names. Where two fall together, the lemma's gets _lem: of the two the one with a dash, or which port.py has spelled already."""
    specs = declared(files("crates/*/specs/**/*.antt"))
    proofs = declared(files("crates/*/proofs/*.antt"))
    definitions = {snake(d) for d in specs if "-" not in d} | set(WORDS)
    names = [n for n in {**specs, **proofs} if re.match(r"[a-z]", n)]
    rows = {n: dashed(n, definitions) for n in names}
    made = {}
    for old, new in rows.items():
        made.setdefault(new, []).append(old)
    for new, olds in made.items():
        keeper = max(olds, key=lambda n: (n in specs, bool(CAMEL.search(n)), n))
        for n in olds:
            if n != keeper:
                rows[n] = new + "_lem"
    rows.update(EARLIER)
    return {old: new for old, new in rows.items() if old != new}


def meets(rows):
    """Where a file that turns a name has the new one already, and that one stays."""
    for f in sources():
        words = set(NAMED.findall(read(f)))
        for w in sorted(words):
            if w in rows and rows[w] in words and rows[w] not in rows:
                yield f, w, rows[w]


def turn(text, rows):
    def one(m):
        before = text[max(0, m.start() - 5) : m.start()]
        if before.endswith("tie.") or before.endswith("goal."):
            return m[0]
        return rows.get(m[0], m[0])

    return NAMED.sub(one, text)


def main():
    if sys.argv[1:] not in ([], ["--list"]):
        sys.exit(__doc__)
    if os.path.exists("docs/PORT.md"):
        sys.exit("respell: docs/PORT.md is there, so this has run")
    rows = table()
    if "--list" in sys.argv:
        for f, old, new in meets(rows):
            print("meets:", f, old, new)
        for old, new in sorted(rows.items()):
            print(old, new, sep="\t")
        return
    changed = 0
    for f in sources():
        old = read(f)
        new = turn(old, rows)
        if new != old:
            changed += 1
            with open(f, "w", encoding="utf-8") as h:
                h.write(new)
    print(len(rows), "names,", changed, "files")


main()
