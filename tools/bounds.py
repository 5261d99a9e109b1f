#!/usr/bin/env python3
"""Names the ghost members of a bound through its parameter in the clauses of src/: F.ops, E.Coeff.ops, E.lists.

usage: python3 tools/bounds.py [FOLDER]     (FOLDER: a checkout; the one that holds this script if none is given)

Run once, after tools/respell.py. A member stood there behind the name of its trait, as F.Field.ops, or bare.
"""
import os
import re
import sys

MEMBERS = "lists|high|bounded|lawful"
OWN = ("coloring/src/encoding.rt", "fields/src/field.rt", "algebra/src/field.rt")


def turned(text, own):
    text = re.sub(r"\b(Self|[A-Z])\.Encoding\.(" + MEMBERS + r")\b", r"\1.\2", text)
    text = text.replace("Coeff.Field.", "Coeff.")
    text = re.sub(r"\b([A-Z])\.Field\.(ops|laws)\b", r"\1.\2", text)
    lines, params = text.split("\n"), []
    for i, line in enumerate(lines):
        head = re.search(r"\b(?:fn \w+|impl)<([^>]*?)>", line)
        if head:
            params = re.findall(r"\b([A-Z])\b(?=:)", head.group(1)) or params
        if not params or not re.match(r"\s*(ensures|requires|ghost (?!use))", line) or re.match(r"\s*ghost \w+ = ", line):
            continue
        one, two = params[0], params[-1]
        line = line.replace("Coeff-as-Field-1", one + ".Coeff").replace("Coeff-as-Field-2", two + ".Coeff").replace("Coeff-as-Field", one + ".Coeff")
        if not own:
            line = re.sub(r"(?<![\w.'-])ops\b", one + ".ops", line)
            if one != "F":
                line = re.sub(r"(?<![\w.'-])lists(?= )", one + ".lists", line)
        lines[i] = line
    return "\n".join(lines)


def main(argv):
    root = argv[0] if argv else os.path.join(os.path.dirname(os.path.abspath(__file__)), "..")
    for folder, dirs, names in os.walk(os.path.join(root, "crates")):
        dirs[:] = sorted(d for d in dirs if d != "out")
        for name in sorted(names):
            path = os.path.join(folder, name)
            if not name.endswith(".rt"):
                continue
            with open(path, encoding="utf-8") as f:
                text = f.read()
            new = turned(text, path.replace(os.sep, "/").endswith(OWN))
            if new != text:
                with open(path, "w", encoding="utf-8") as f:
                    f.write(new)
    return 0


if __name__ == "__main__":
    sys.exit(main(sys.argv[1:]))
