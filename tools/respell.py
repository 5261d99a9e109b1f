#!/usr/bin/env python3
"""Brings the names of the definitions and lemmas of this repository to one spelling.

usage: python3 tools/respell.py [--list] [FOLDER]     (FOLDER: a checkout; the one that holds this script if none is given)

Words are in snake case and types in camel case. Renamed are names with a dash and names in lower camel case that the files of specs/ and proofs/
declare: definitions, lemmas, fields and constructors, and the variables of one proof with them. Names of the library, names that Rattle makes (goals,
invariants, measures, steps of the code), functions of src/ and strings keep their spelling. --list prints the pairs and writes nothing. Stops where two names would fall together.
"""
import os
import re
import sys

# lemmas that would get the name of a definition
BY_HAND = {"monomial-at": "monomial_at_lem", "certificate-of": "certificate_of_lem", "getD-zeros": "get_or_zeros"}
# laws: a dash joins two operations, as in the library
KEPT = {"add-zero", "mul-add", "mul-one", "mul-inv", "mul-zero", "inv-zero"}

WORD = re.compile(r"[^\s(){};,.\"⌜⌝]+")
DECLARED = re.compile(r"^\s*(?:(?:abbrev|unfoldable|private|opaque)\s+)*(?:pub\s+)?(?:(?:record|data)\s+([^\s:({]+)|([^\s:({]+)\s+:\s+(\S+))", re.M)
USE = re.compile(r"^\s*(?:ghost\s+)?use\s+([^\s{]+?)\.\{([^}]*)\}", re.M | re.S)


def files(root, *ends):
    for folder, dirs, names in os.walk(os.path.join(root, "crates")):
        dirs[:] = sorted(d for d in dirs if d != "out")
        for n in sorted(names):
            if n.endswith(ends):
                yield os.path.join(folder, n)


def read(path):
    with open(path, encoding="utf-8") as f:
        return f.read()


def bare(text):
    return re.sub(r"--.*", "", text)


def spelled(name):
    if name[0].isupper():
        return "".join(p[:1].upper() + p[1:] for p in name.split("-"))
    return re.sub(r"(?<=[a-z0-9])([A-Z])", lambda m: "_" + m.group(1).lower(), name.replace("-", "_"))


def pairs(root):
    own, made = {}, set()
    for path in files(root, ".antt"):
        text = bare(read(path))
        for kind, name, first in DECLARED.findall(text):
            word = kind or name
            if name and (first.startswith("goal.") or first == "goal"):
                made.add(word)
                continue
            own.setdefault(word, set()).add(path)
        for where, items in USE.findall(text):
            if not is_own(where, root):
                made |= {i.strip().split(" as ")[0].strip() for i in items.split(",")}
    for path in files(root, ".rt"):
        for where, items in USE.findall(read(path)):
            if not is_own(where, root):
                made |= {i.strip().split(" as ")[0].strip() for i in items.split(",")}
    out = {}
    for word in own:
        if word in made or word in KEPT or "◌" in word or not re.match(r"[A-Za-z][\w'-]*$", word):
            continue
        new = BY_HAND.get(word) or spelled(word)
        if new != word:
            out[word] = new
    return out, own, made


def is_own(where, root):
    parts = where.split(".")
    return parts[0] == "Rattle" and len(parts) > 1 and os.path.isdir(os.path.join(root, "crates", parts[1])) and "Goals" not in parts and "Given" not in parts


def main(argv):
    only_list = "--list" in argv
    rest = [a for a in argv if a != "--list"]
    root = rest[0] if rest else os.path.join(os.path.dirname(os.path.abspath(__file__)), "..")
    out, own, made = pairs(root)
    clash = [(w, n) for w, n in sorted(out.items()) if n in own or n in made]
    twice = {}
    for w, n in out.items():
        twice.setdefault(n, []).append(w)
    clash += [tuple(ws) for n, ws in sorted(twice.items()) if len(ws) > 1]
    if clash:
        print("these fall together:", *[" ".join(c) for c in clash], sep="\n  ")
        if not only_list:
            return 1
    if only_list:
        for w, n in sorted(out.items()):
            print(w, n)
        return 0
    for path in files(root, ".antt", ".rt"):
        text = read(path)
        new = WORD.sub(lambda m: out.get(m.group(0), m.group(0)), text)
        if new != text:
            with open(path, "w", encoding="utf-8") as f:
                f.write(new)
    print(f"{len(out)} names respelled")
    return 0


if __name__ == "__main__":
    sys.exit(main(sys.argv[1:]))
