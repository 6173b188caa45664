#!/usr/bin/env python3
"""Respells the definitions and lemmas of specs/ and proofs/, and the names of them in contracts, to snake case for values
and upper camel case for facts. Run once, at the top of the repository, after the kit's port.py:

    python3 tools/respell.py

Only names of definitions, constructors, fields and lemmas are touched; functions, types, strings and must-fail edits keep theirs.
It stops, and writes nothing, where two names would fall together in one file."""

import os
import re
import sys

# facts, which are in upper camel case
FACTS = {"fineLeaf": "FineLeaf", "globsFine": "GlobsFine"}
# names of the library
KEPT = {"cases_Bool"}
# lemmas that would take the name of the function that they are about, by crate
LEMMAS = {
    "unicode_string": {"run_end": "run_end_lem"},
    "parsing": {"opening_on": "opening_on_lem", "first_on": "first_on_lem", "has_room": "has_room_lem"},
    "compile": {"in_group": "in_group_lem"},
}
# fields of records
FIELDS = ["top-alone", "top-fits", "bottom-alone", "bottom-fits", "both-fits", "either-fits", "in-package", "in-time"]
# old words of the library within names
WORDS = {"getD": "get_or"}
CAMEL = re.compile(r"(?<![A-Za-z0-9_'])[a-z][a-z0-9_]*[A-Z][A-Za-z0-9_]*")


def snake(name):
    return re.sub(r"([a-z0-9])([A-Z])", r"\1_\2", name).lower()


def turned(name):
    if name in KEPT:
        return name
    return FACTS.get(name) or WORDS.get(name) or snake(name)


def parts(path, text):
    """The text, cut into pieces that may be turned and pieces that stay: a .rt file turns in its ghost lines and clauses alone."""
    if path.endswith(".antt"):
        return [(True, text)]
    return [(not re.match(r'\s*(pub )?(const |use |mod |let |"|\')', line), line) for line in text.splitlines(keepends=True)]


def outside_strings(text, f):
    return "".join(p if p.startswith('"') else f(p) for p in re.split(r'("(?:[^"\\\n]|\\.)*")', text))


def main():
    files = []
    for folder, dirs, names in os.walk("crates"):
        dirs[:] = sorted(d for d in dirs if d not in ("out", "must-fail"))
        files += [os.path.join(folder, n) for n in sorted(names) if n.endswith((".rt", ".antt"))]
    written, clashes = {}, []
    for path in files:
        crate = path.split(os.sep)[1]
        with open(path, encoding="utf-8") as f:
            old = f.read()
        text = old
        # a file that the crate's imports tie to a lemma under its function's name
        for lemma, name in LEMMAS.get(crate, {}).items():
            if path.endswith(".antt"):
                text = re.sub(r"(?<![\w.'-])%s(?![\w'-])" % lemma, name, text)
        seen = set(re.findall(r"(?<![\w.'-])[A-Za-z_][\w']*(?:-[\w']+)*", re.sub(r"(?m)--.*$|//.*$", "", text))) if path.endswith(".antt") else set()
        for name in set(CAMEL.findall(text)):
            if name not in WORDS and turned(name) != name and turned(name) in seen:
                clashes.append(f"{path}: {name} would be {turned(name)}, which stands there")

        def turn(piece):
            piece = CAMEL.sub(lambda m: turned(m[0]), piece)
            for name in FIELDS:
                piece = re.sub(r"(?<![\w'-])%s(?![\w'-])" % name, name.replace("-", "_"), piece)
            return piece

        text = "".join(outside_strings(piece, turn) if may else piece for may, piece in parts(path, text))
        if text != old:
            written[path] = text
    if clashes:
        print("\n".join(clashes))
        return 1
    for path, text in written.items():
        with open(path, "w", encoding="utf-8") as f:
            f.write(text)
    print(f"respelled {len(written)} files")
    return 0


if __name__ == "__main__":
    sys.exit(main())
