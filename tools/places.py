#!/usr/bin/env python3
"""Counts, in crates/*/src of a commit, the places where the language has a newer form: the rows of docs/DESIGN-PASS.md.

usage: tools/places.py [COMMIT] [--list ROW]    COMMIT is HEAD where none is given; with a row, its places
"""

import collections
import itertools
import re
import subprocess
import sys


def git(*words):
    return subprocess.run(["git", *words], check=True, capture_output=True, text=True).stdout


# Rows of one line each: a place is a line that fits.
LINES = {
    "1.1 enums": r"^\s*(pub )?enum ",
    "1.2 flags among the fields of a struct or the parameters of a call": r"^\s+(pub |pub\(crate\) )?\w+: bool,$|\w+: bool\)",
    "1.3 numbers for kinds or refusals": r"-> i64|kind: u\d|as i64|return -\d",
    "1.4 early returns of None or Err": r"return (None|Err\()",
    "1.5 arms for None and Err": r"^\s+(None|Err\([a-z_]+\)) =>",
    "3.1 while": r"^\s*('\w+: )?while ",
    "3.2 for over a range": r"\bfor \w+ in \(?[^{]*\.\.",
    "3.3 counters kept by hand": r"^\s+\w+ (\+|-)= 1;",
    "4.1 comparisons of codes": r"code\(\) (!=|==)",
    "4.2 derives of copying or dropping alone": r"^#\[derive\((Clone, Copy|Copy, Clone|Drop)\)\]",
    "4.3 casts": r" as (usize|u8|i64|u32|char|u16|u64)\b",
    "4.4 digits and words printed by hand": r"b'[0-9A-Za-z]' ?[-+]|[-+] b'|\"(few|open|no|batch) |b\"(few|open|no|batch) ",
    "6.1 a slice and where to write in it": r"\b(at|start|end|used|from): usize\b",
    "7.1 matches and tests that pick what to run": r"match (kind|step|shape|draws\.below|call)\b|if triangles|match letter|if letter ==",
}


def sources(rev):
    names = [n for n in git("ls-tree", "-r", "--name-only", rev, "crates").splitlines() if re.match(r"crates/\w+/src/.*\.rt$", n)]
    return {n: git("show", f"{rev}:{n}") for n in names}


def functions(text):
    """The name, parameters and result of each function."""
    for m in re.finditer(r"\bfn (\w+)(?:<[^()]*?>)?\(([^)]*)\)( -> [^\n{]*)?", text):
        yield m.start(), m.group(1), m.group(2), (m.group(3) or "").strip()


def changing_flags(texts):
    """Calls that change something and answer a flag."""
    return [(n, name) for n, text in texts.items() for _, name, params, result in functions(text) if "&mut" in params and result == "-> bool"]


def repeated_clauses(texts):
    """Clauses that stand, word for word, in three or more contracts of a crate."""
    found = collections.Counter()
    for n, text in texts.items():
        for m in re.finditer(r"^\s+(?:requires|ensures)(?: \w+)? \{ (.*) \}$", text, re.M):
            found[n.split("/")[1], m.group(1)] += 1
    return [(c, f"{k} times: {clause}") for (c, clause), k in sorted(found.items()) if k >= 3]


def together(texts):
    """Three or more parameters that stand together in three or more functions of a crate."""
    groups = collections.defaultdict(collections.Counter)
    for n, text in texts.items():
        for _, _, params, _ in functions(text):
            names = sorted({re.sub(r"^mut ", "", p.split(":")[0].strip()) for p in re.split(r",(?![^<\[]*[>\]])", params) if ":" in p})
            for k in (3, 4, 5):
                for group in itertools.combinations(names, k):
                    groups[n.split("/")[1]][group] += 1
    rows = []
    for crate, counts in sorted(groups.items()):
        often = {g: k for g, k in counts.items() if k >= 3}
        rows += [(crate, f"{k} functions: {' '.join(g)}") for g, k in sorted(often.items()) if not any(set(g) < set(h) for h in often)]
    return rows


def answers(rev):
    names = [n for n in git("ls-tree", "-r", "--name-only", rev, "crates").splitlines() if re.search(r"/proofs/.*/(Answers|Invariants)\.antt$", n)]
    return [(n, line) for n in names for line in git("show", f"{rev}:{n}").splitlines() if re.match(r"(abbrev )?pub ", line)]


def proof_lines(rev):
    names = [n for n in git("ls-tree", "-r", "--name-only", rev, "crates").splitlines() if "/proofs/" in n]
    return [(n, "") for n in names for _ in git("show", f"{rev}:{n}").splitlines()]


def main():
    words = sys.argv[1:]
    row = words[words.index("--list") + 1] if "--list" in words else None
    rev = words[0] if words and words[0] != "--list" else "HEAD"
    texts = sources(rev)
    rows = {name: [(n, line.strip()) for n, text in texts.items() for line in text.splitlines() if re.search(fits, line) and not line.strip().startswith("//")] for name, fits in LINES.items()}
    rows["1.6 changing calls that answer a flag"] = changing_flags(texts)
    rows["5.1 clauses in three or more contracts"] = repeated_clauses(texts)
    rows["5.2 three or more parameters together in three or more functions"] = together(texts)
    rows["8.1 answers and invariants"] = answers(rev)
    rows["8.2 lines of proofs"] = proof_lines(rev)
    for name in sorted(rows):
        if row is None:
            print(f"{len(rows[name]):6}  {name}")
        elif name.startswith(row):
            for place in rows[name]:
                print("  ".join(place))


main()
