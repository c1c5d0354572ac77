#!/usr/bin/env python3
"""Brings the repository's own names to today's spelling, behind the scripts of the kit's port.py.

usage: tools/respell.py table    works out tools/respell.tsv, a line `old<TAB>new` for each name of specs/ and proofs/ that changes
       tools/respell.py apply    respells crates/ by that table: .antt files whole, .rt files outside texts

Words are in snake case; types, modules and facts keep their capitals. A dash stays where it joins the names of two definitions.
Functions of src/, exported names, texts, inputs and outputs keep their names.
"""

import glob
import os
import re
import sys

TOP = os.path.dirname(os.path.dirname(os.path.realpath(__file__)))
TABLE = os.path.join(TOP, "tools", "respell.tsv")
ENDS = r"\s(){}\[\],;.:→λ⟨⟩∷\"`"
NAME = re.compile(rf"[^{ENDS}]+")
SIGNED = re.compile(rf"^(\s*)((?:pub\s+|abbrev\s+|unfoldable\s+)*)((?:[^{ENDS}]+\s+)+):\s")
BOUND = re.compile(rf"[({{]((?:[^{ENDS}]+\s+)+):\s")
FIELDS = ("in_use",)  # a record's field beside a definition: each keeps its name
# fields and variables that a definition's new name meets
BETTER = {"well-formed": "body_formed", "make-way": "ways_made", "dropped-writes": "writes_dropped", "dropped-copies": "copies_dropped"}
USED = re.compile(r"^\s*(?:ghost )?use ([^\s{]+)\.\{([^}]*)\}")
LIBRARY = ("mathlib.", "Prim.", "native.", "lib.", "borrow.", "denote.", "contract.", "Rattle.std", "Rattle.core")


def read(path):
    with open(path, encoding="utf-8") as f:
        return f.read()


def files(kind):
    found = glob.glob(os.path.join(TOP, "crates", "*", "**", "*." + kind), recursive=True)
    return sorted(f for f in found if "/out/" not in f)


def is_shared(path):
    """A file of specs/ or a lemma file right in proofs/, and not of one function's proof."""
    return "/specs/" in path or re.search(r"/proofs/[^/]+\.antt$", path)


def names():
    """The names that the repository declares, the definitions among them, and the names that it takes from the library."""
    own, defined, library = set(), set(), set()
    for path in files("antt"):
        for line in read(path).splitlines():
            if line.lstrip().startswith("--"):
                continue
            used = USED.match(line)
            if used:
                if used[1].startswith(LIBRARY):
                    library |= {n.strip().split(" as ")[0] for n in used[2].split(",")}
                continue
            if not is_shared(path):
                continue
            signed = SIGNED.match(line)
            if signed and not line.lstrip().startswith(("let ", "use ", "mod ")):
                own |= set(signed[3].split())
                if "/specs/" in path and ("abbrev" in signed[2] or "unfoldable" in signed[2]):
                    defined |= set(signed[3].split())
            for bound in BOUND.finditer(line):
                own |= set(bound[1].split())
    for path in files("rt"):
        for line in read(path).splitlines():
            used = USED.match(line)
            if used and used[1].startswith(LIBRARY):
                library |= {n.strip().split(" as ")[0] for n in used[2].split(",")}
    return own, defined, library


def snake(word):
    """A camel-case word in snake case; a capital at its head is a fact's or a type's and stays."""
    head, rest = (word[0], word[1:]) if word[:1].isupper() else ("", word)
    if head and re.search(r"[a-z]", rest):
        return word
    return head + re.sub(r"(?<=[a-z0-9'])([A-Z])", lambda m: "_" + m[1].lower(), rest)


def respelled(name, words):
    parts = [snake(p) for p in name.split("-")]
    if "" in parts:
        return name
    done, held = [], parts[0]
    for i, part in enumerate(parts[1:], 1):
        ahead = {"_".join(parts[i:j]) for j in range(i + 1, len(parts) + 1)}
        if held in words and ahead & words:
            done.append(held)
            held = part
        else:
            held += "_" + part
    return "-".join(done + [held])


def table():
    own, defined, library = names()
    words = {snake(n) for n in defined} | {n for n in library if re.fullmatch(r"[a-z_]+", n)}
    rows, taken = {}, {}
    for name in sorted(own - library):
        if not re.search(r"-|[a-z0-9'][A-Z]", name) or not re.match(r"[A-Za-z]", name):
            continue
        new = respelled(name, words)
        if new != name:
            rows[name] = new
    for name, new in sorted(rows.items()):
        taken.setdefault(new, []).append(name)
    for new, olds in taken.items():
        if len(olds) == 1 and new not in own and new not in library:
            continue
        lemmas = [n for n in olds if "-" in n]
        if len(olds) - len(lemmas) + (not lemmas) > 1 or new in library:
            print("falls together:", new, olds)
        for name in lemmas:
            rows[name] = BETTER.get(name, new + "_lem")
        if new in own and not lemmas and new not in FIELDS:
            rows[new] = new + "_lem"
    with open(TABLE, "w", encoding="utf-8") as f:
        f.writelines(f"{a}\t{b}\n" for a, b in sorted(rows.items()))
    print(len(rows), "names")


def respell(text, rows, plain):
    def new(m):
        if m[0] in plain and text[m.start() - 1 : m.start()] == ".":
            return m[0]
        return rows.get(m[0], m[0])

    return NAME.sub(new, text)


def apply():
    rows = dict(line.split("\t") for line in read(TABLE).splitlines())
    plain = {a for a, b in rows.items() if b == a + "_lem"}
    for path in files("antt"):
        old = read(path)
        # a lemma that a definition's new name meets: its file, and those that import it
        lemmas = {n for n in plain if re.search(rf"(?m)^\s*(?:pub )?{n}\s+: |^use Rattle\.\w+\.proofs\.[\w.]+\.{{[^}}]*\b{n}\b", old) or re.search(rf"[({{]{n} : ", old)}
        fit = {a: b for a, b in rows.items() if a not in plain or a in lemmas}
        new = respell(old, fit, plain)
        if new != old:
            with open(path, "w", encoding="utf-8") as f:
                f.write(new)
    for path in files("rt"):
        old = read(path)
        pieces = re.split(r'("(?:[^"\\]|\\.)*")', old)
        new = "".join(p if i % 2 else respell(p, {a: b for a, b in rows.items() if a not in plain}, plain) for i, p in enumerate(pieces))
        if new != old:
            with open(path, "w", encoding="utf-8") as f:
                f.write(new)


if __name__ == "__main__":
    {"table": table, "apply": apply}[sys.argv[1]]()
