#!/usr/bin/env python3
"""Counts the places that docs/DESIGN-PASS.md speaks of, in the crates' src/: tools/places.py [--list POINT] [ROOT].

Each count is by a form of the text, so it finds also places that are as they should be; docs/DESIGN-PASS.md says which stay, and why.
"""
import argparse
import collections
import pathlib
import re

CONVERSIONS = re.compile(r"[/%*] (256|65536|16777216|4294967296)\b")
SMALLER = re.compile(r"^\s*if \w+ < [\w.]+ \{ [\w.]+ \} else \{ [\w.]+ \}$")
LOOP = re.compile(r"^\s*while ")
STEP = re.compile(r"^\s*\w+ [+-]= 1;$")
SENTINEL = re.compile(r"\b(NOWHERE|NO_KIND|NO_PLACE|PAGES)\b")


def bracketed(text, start):
    """Where the bracket that opens at `start` is closed."""
    depth = 0
    for i in range(start, len(text)):
        if text[i] in "(<[":
            depth += 1
        elif text[i] in ")]" or (text[i] == ">" and text[i - 1] != "-"):
            depth -= 1
            if depth == 0:
                return i
    raise ValueError(text)


def split(parameters):
    """At the commas that stand in no bracket."""
    parts, depth, begin = [], 0, 0
    for i, c in enumerate(parameters):
        depth += (c in "(<[") - (c in ")]" or (c == ">" and parameters[i - 1] != "-"))
        if c == "," and depth == 0:
            parts.append(parameters[begin:i])
            begin = i + 1
    return [p.strip() for p in parts + [parameters[begin:]] if p.strip()]


class Function:
    def __init__(self, crate, file, line, text):
        self.crate, self.file, self.line, self.text = crate, file, line, text
        found = re.search(r"fn (\w+)", text)
        self.name = found.group(1)
        at = found.end()
        if text[at] == "<":
            at = bracketed(text, at) + 1
        end = bracketed(text, at)
        self.parameters = split(text[at + 1:end])
        result = re.match(r" -> ([^\n{]+)", text[end + 1:])
        self.result = result.group(1).strip() if result else ""
        self.body = text[text.find("\n{") + 2:] if "\n{" in text else text[text.find("{", end) + 1:]
        self.clauses = re.findall(r"^\s*(?:requires|ensures)(?: \w+)? \{ (.*) \}$", text, re.M)

    def place(self):
        return f"{self.file}:{self.line} {self.name}"


def functions_of(path, crate):
    lines = path.read_text().split("\n")
    start = None
    for number, line in enumerate(lines):
        if re.match(r"^\s*(pub )?(extern \"C\" )?fn \w", line) or re.match(r"^\s*pub extern", line):
            start, indent = number, len(line) - len(line.lstrip())
        if start is not None and line == " " * indent + "}":
            yield Function(crate, path, start + 1, "\n".join(lines[start:number + 1]))
            start = None


def shape(body):
    """The body with names and numbers replaced in the order in which they come: twins have one shape."""
    names = {}
    keep = {"let", "mut", "if", "else", "while", "for", "in", "return", "match", "as", "true", "false", "usize", "u8", "u16", "u32", "u64"}
    tokens = []
    for token in re.findall(r"[A-Za-z_]\w*|\d+|[^\s\w]", re.sub(r"//.*", "", body)):
        if re.match(r"\w", token) and token not in keep:
            token = names.setdefault(token, f"x{len(names)}")
        tokens.append(token)
    return tuple(tokens)


def main():
    parser = argparse.ArgumentParser(description=__doc__)
    parser.add_argument("--list", type=int, help="print the places of this point")
    parser.add_argument("root", nargs="?", default=pathlib.Path(__file__).resolve().parent.parent)
    options = parser.parse_args()
    places = collections.defaultdict(list)
    functions = []
    for path in sorted(pathlib.Path(options.root).glob("crates/*/src/*.rt")):
        crate = path.parts[-3]
        functions += functions_of(path, crate)
        text = path.read_text()
        for number, line in enumerate(text.split("\n"), 1):
            here = f"{path}:{number} {line.strip()}"
            if re.match(r"^    (pub )?\w+: bool,$", line):
                places["1 flags in structs"].append(here)
            if re.match(r"^(pub )?const [A-Z_]+: (u8|usize) = ", line) and re.search(r"KIND|NO_|PLACE|FORMAT|READ\b|WRITE\b|ERASE|DRAIN|RECOVER|STATE|PAGE\b|UNIT|LOOK|LESS|SEND|RECEIVE|DONE|IDLE|CUT", line):
                places["1 numbers for kinds and answers"].append(here)
            if CONVERSIONS.search(line) and "ensures" not in line and "requires" not in line:
                places["4 bytes of numbers by hand"].append(here)
            if SMALLER.match(line):
                places["4 the smaller or larger by hand"].append(here)
            if re.search(r"\bmatch (operation|kind|way|pages)\b", line):
                places["7 switches on numbers"].append(here)
            if re.match(r"^    (pub )?(len|count|length|held): usize,$", line):
                places["6 lengths in structs"].append(here)
    shapes = collections.defaultdict(list)
    facts = collections.Counter()
    for f in functions:
        if re.search(r"Victim|-> Found|-> Logs|-> Place\b|-> Got\b", f.text.split("{")[0]):
            places["1 own Options"].append(f.place())
        if f.result == "u8" and re.search(r"refusal|fault|number|unmade|letter|kind|put_", f.name):
            places["1 refusals and kinds as numbers"].append(f.place())
        if SENTINEL.search(f.body) and f.result in ("usize", "u16", "u8"):
            places["1 sentinels for none"].append(f.place())
        for number, line in enumerate(f.body.split("\n")):
            if LOOP.match(line) and any(STEP.match(other) for other in f.body.split("\n")):
                places["3 loops that count by hand"].append(f"{f.file}:{f.line + number} {f.name}: {line.strip()}")
        names = [p.split(":")[0].strip() for p in f.parameters]
        if {"flash", "spare", "disk"} <= set(names):
            places["5 flash, spare and disk side by side"].append(f.place())
        elif {"flash", "spare"} <= set(names):
            places["5 flash and spare side by side"].append(f.place())
        if any(re.search(r": \[\w+; \d+\]$", p) for p in f.parameters) and "n" in names:
            places["6 arrays with a length beside"].append(f.place())
        if any(p.endswith(": bool") for p in f.parameters):
            places["7 bools that choose"].append(f.place())
        for clause in f.clauses:
            for fact in set(re.findall(r"(?:^|× |\()([A-Z]\w+) ", clause)):
                facts[fact] += 1
        if len(shape(f.body)) >= 24:
            shapes[shape(f.body)].append(f)
    for same in shapes.values():
        if len(same) > 1:
            places["2 functions of one shape"] += [f.place() for f in same[1:]]
    for fact, count in facts.items():
        if count >= 3:
            places["5 facts in three clauses or more"].append(f"{fact}: {count}")
    for name in sorted(places):
        print(f"{len(places[name]):4} {name}")
        if options.list is not None and name.startswith(str(options.list)):
            for place in places[name]:
                print(f"       {place}")


if __name__ == "__main__":
    main()
