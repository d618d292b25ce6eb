#!/usr/bin/env python3
"""Brings the repository's own definitions and lemmas to today's spelling: words in snake case, a dash only between names.

usage: tools/respell.py      at the top, once, after the toolchain's port.py

Definitions and lemmas in camel case become snake case. In a dashed name the words of one definition or function are
joined by '_' (`own-demand-requires` is `own_demand-requires`), and so are the words of a record's field. `f-spec` is
`f_spec`. EXCEPT names what would fall together with another name. Types, modules and what src/ declares stay.
It prints each name that it turned.
"""
import glob
import re
import sys

# the definitions that would have the name of a field of `Areas`, and two lemmas that would have a definition's name
EXCEPT = {
    "rowWidth": "row_width_of",
    "rowsEnd": "rows_end_of",
    "namesEnd": "names_end_of",
    "lowering_from": "lowering_from-meets",
}

# names that are a lemma in one place and a field in another: by the beginning of the path, the longest first
PLACES = {
    "crates/plan/proofs/Canonical.antt": {"rows-to": "rows_to-is", "names-to": "names_to-is"},
    "crates/plan/": {"rows-to": "rows_to", "names-to": "names_to", "in-range": "in-range"},
    "crates/optimizer/": {"in-range": "is_in_range"},
}

TOKEN = re.compile(r"[^\s(){}.,;«»\"\[\]:=|λ`/]+")
HEAD = re.compile(r"^ *(?:abbrev pub|abbrev|unfoldable pub|unfoldable|pub|axiom)? ?([^\s:(){}.,|=]+) :(?: |$)")
RECORD = re.compile(r"^ *(?:pub )?record (?:pub )?[^\s({]+")
CAMEL = re.compile(r"(?<=[a-z0-9])([A-Z])")


def snake(name):
    return CAMEL.sub(lambda m: "_" + m.group(1).lower(), name)


def antt():
    return sorted(glob.glob("crates/*/specs/**/*.antt", recursive=True) + glob.glob("crates/*/proofs/**/*.antt", recursive=True))


def declared():
    """The names that the files of specs/ and proofs/ declare, and those that are only fields of records."""
    items, fields = set(), set()
    for path in antt():
        depth = None
        for line in open(path, encoding="utf-8"):
            indent = len(line) - len(line.lstrip(" "))
            if depth is not None and line.strip() and indent <= depth:
                depth = None
            if RECORD.match(line):
                depth = indent
            m = HEAD.match(line)
            if m:
                (fields if depth is not None and indent == depth + 2 else items).add(m.group(1))
    return items, fields - items


def functions():
    found = set()
    for path in glob.glob("crates/*/src/**/*.rt", recursive=True):
        found |= set(re.findall(r"\bfn (\w+)", open(path, encoding="utf-8").read()))
    return found


def joined(name, known):
    """The dashed name with the words of each known name joined, the longest first."""
    words, out, at = name.split("-"), [], 0
    while at < len(words):
        end = next((e for e in range(len(words), at + 1, -1) if "_".join(words[at:e]) in known), at + 1)
        out.append("_".join(words[at:end]))
        at = end
    return "-".join(out)


def table():
    items, fields = declared()
    fns = functions()
    turned = {n: EXCEPT.get(n, snake(n)) for n in items | fields if n in EXCEPT or (n[0].islower() and snake(n) != n)}
    plain = {turned.get(n, n) for n in items if "-" not in n}
    known = {n for n in plain | fns if "_" in n}
    for n in sorted(items | fields):
        if n in turned or "-" not in n:
            continue
        new = n.replace("-", "_") if n in fields else joined(n, known)
        if new.endswith("-spec") and new[:-5] in fns:
            new = new[:-5] + "_spec"
        if n in items and new in plain | fns:
            new += "_lem"
        if new != n:
            turned[n] = new
    return turned


def main():
    turned = table()
    for path in antt() + sorted(glob.glob("crates/*/src/**/*.rt", recursive=True) + glob.glob("crates/*/must-fail/*.edit")):
        here = next((names for start, names in PLACES.items() if path.startswith(start)), {})
        old = open(path, encoding="utf-8").read()
        new = TOKEN.sub(lambda m: here.get(m.group(0), turned.get(m.group(0), m.group(0))), old)
        if new != old:
            open(path, "w", encoding="utf-8").write(new)
    final = declared()
    final = final[0] | final[1]
    quoted = re.compile(r"`[^`\n]+`")
    word = re.compile(r"\b[a-z]+[a-z0-9]*(?:[A-Z][a-z0-9]*)+\b")

    def respelt(m):
        return word.sub(lambda w: (lambda n: n if n in final else w.group(0))(EXCEPT.get(w.group(0), snake(w.group(0)))), m.group(0))

    for path in ["README.md"] + sorted(glob.glob("docs/**/*.md", recursive=True)):
        old = open(path, encoding="utf-8").read()
        new = quoted.sub(respelt, old)
        if new != old:
            open(path, "w", encoding="utf-8").write(new)
    for n in sorted(turned):
        print(n, turned[n])
    return 0


if __name__ == "__main__":
    sys.exit(main())
