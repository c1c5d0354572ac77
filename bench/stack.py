#!/usr/bin/env python3
"""The largest stack of each entry of the proved engine, computed from its machine code.

In a library where an entry is called once it is taken apart into its caller. So a
library is made, in a folder of its own, that calls each entry twice: there each is a
function by itself. Its stack is that of the longest path of calls from it on, return
addresses included; memcpy, memmove and memset count with theirs alone. A call of what is not
known, a circle of calls or a stack pointer moved in another way ends the run with
words that say so. Printed as a table of Markdown.
"""

import collections
import os
import re
import shutil
import subprocess
import tempfile

ROOT = os.path.dirname(os.path.dirname(os.path.abspath(__file__)))
WORD = 8
OUTSIDE = ("memcpy", "memmove", "memset")

ENTRIES = {
    "format": "format::format(begun.state, z, allowance, flash, spare, disk)",
    "erase_step": "erasestep::erase_step(begun.state, allowance, flash, spare, disk)",
    "read": "read::read(begun.state, b, offset, bytes, allowance, flash, spare, disk)",
    "write": "write::write(begun.state, b, offset, bytes, allowance, flash, spare, disk)",
    "drain": "drain::drain(begun.state, allowance, flash, spare, disk)",
    "recover": "recover::recover(begun.state, z, allowance, flash, spare, disk)",
    "read_text": "receive::read_text(z, bytes, flash, spare)",
    "write_text": "send::write_text(z, flash, spare, bytes)",
}

# What is made of an entry's outcome, so that the call stays.
RESULTS = {"read_text": "match o { model::Answer::Done => 0, _ => 1 }", "write_text": "o.length"}

CALLER = """
#[unsafe(no_mangle)]
pub extern "C" fn {name}(
    z: &[usize; 6],
    allowance: usize,
    b: u16,
    offset: usize,
    bytes: &mut [u8],
    flash: &mut [u8],
    spare: &mut [u8],
    disk: &mut [u8],
) -> usize {{
    let z = model::Sizes {{ s: z[0], p: z[1], c: z[2], b: z[3], r: z[4], w: z[5] }};
    let begun = format::format(state::State::unformatted(), z, allowance, flash, spare, disk);
    let o = {call};
    {result}
}}
"""

# A large frame is made piece by piece: sub $0xSIZE,%r11, then a loop.
PIECE_BY_PIECE = ["mov %rsp,%r11", "sub", "sub $0xc00,%rsp", "movq $0x0,(%rsp)", "cmp %r11,%rsp", "jne"]

Instruction = collections.namedtuple("Instruction", "place name operands symbol")


# The library.

def build(folder):
    """The library of the callers, over a copy of the repository's crates. Their checks begin with what was proved here."""
    shutil.copytree(os.path.join(ROOT, "crates"), os.path.join(folder, "crates"), ignore=shutil.ignore_patterns("out"))
    entries = os.path.join(folder, "crates", "entries")
    os.makedirs(os.path.join(entries, "src"))
    with open(os.path.join(ROOT, "crates.txt"), encoding="utf-8") as file:
        listed = file.read()
    write(os.path.join(folder, "crates.txt"), f"{listed}\nentries staticlib: format erasestep read write drain recover "
                                              "receive send outcome state queue fifo model lists\n")
    write(os.path.join(entries, "src", "lib.rt"), callers())
    rt("lib", folder=entries)
    return os.path.join(entries, "out", "libentries.a")


def rt(*words, folder):
    """Runs the kit; what it says is shown only when it fails."""
    done = subprocess.run(["rt", *words], cwd=folder, stdout=subprocess.PIPE, stderr=subprocess.STDOUT, text=True)
    if done.returncode:
        raise SystemExit(done.stdout)


def write(path, text):
    """A new file."""
    with open(path, "w", encoding="utf-8") as file:
        file.write(text)


def callers():
    """Two callers of each entry."""
    each = [CALLER.format(name=f"{which}_{entry}", call=call, result=RESULTS.get(entry, "o.stores"))
            for entry, call in ENTRIES.items() for which in ("one", "other")]
    return "#![tactic(auto)]\n" + "".join(each)


# Its machine code.

def functions(library):
    """The instructions of each function, by its name."""
    text = subprocess.run(["objdump", "-dr", "--no-show-raw-insn", library], stdout=subprocess.PIPE, check=True,
                          text=True).stdout
    code = collections.defaultdict(list)
    for line in text.splitlines():
        if label := re.match(r"[0-9a-f]+ <(.+)>:$", line):
            name = label.group(1)
        elif found := re.match(r" +([0-9a-f]+):\t(\S+) *([^#<]*)", line):
            place, word, operands = found.groups()
            code[name].append(Instruction(int(place, 16), word, operands.strip(), None))
        elif aim := re.match(r"\s+[0-9a-f]+: R_X86_64_PLT32\s+(?:\.text\.)?(.+)-0x4$", line):
            code[name][-1] = code[name][-1]._replace(symbol=aim.group(1))
    return {name: frame_at_once(instructions) for name, instructions in code.items()}


def frame_at_once(code):
    """The same with a frame that is made piece by piece made by one instruction."""
    for at, first in enumerate(code):
        loop = code[at:at + len(PIECE_BY_PIECE)]
        if all(f"{one.name} {one.operands}".startswith(form) for one, form in zip(loop, PIECE_BY_PIECE)):
            size = loop[1].operands.replace("%r11", "%rsp")
            return code[:at] + [first._replace(name="sub", operands=size)] + code[at + len(loop):]
    return code


class Walk:
    """A walk over a function along its jumps, with the bytes that it has on the stack at each place."""

    def __init__(self, name, code):
        self.name = name
        self.code = {instruction.place: instruction for instruction in code}
        self.after = {one.place: other.place for one, other in zip(code, code[1:])}
        self.depths = {}   # bytes on the stack before each instruction
        self.calls = {}    # bytes on the stack, a return address included, by what is called
        self.table = None  # bytes on the stack at a jump by a table
        self.follow(code[0].place, 0)
        # A table leads to what nothing else leads to.
        for place in self.code:
            if self.table is not None and place not in self.depths:
                self.follow(place, self.table)

    def follow(self, place, depth):
        """Walks on from a place."""
        places = [(place, depth)]
        while places:
            place, depth = places.pop()
            if self.depths.setdefault(place, depth) != depth:
                raise SystemExit(f"{self.name}: the stack at {place:x} depends on the way there")
            places += [(aim, then) for aim, then in self.step(self.code[place], depth) if self.depths.get(aim) != then]

    def step(self, instruction, depth):
        """The places that come next, with the bytes on the stack there."""
        word, operands = instruction.name, instruction.operands
        then = self.moved(word, operands, depth)
        onward = [(self.after[instruction.place], then)] if instruction.place in self.after else []
        if word == "call":
            self.call(instruction, depth + WORD)
            return onward
        if not word.startswith("j"):
            return [] if word in ("ret", "ud2") else onward
        if operands.startswith("*"):
            self.table = depth
            return []
        others = [] if word == "jmp" else onward
        if instruction.symbol:
            self.call(instruction, depth)
            return others
        return others + [(int(operands, 16), depth)]

    def moved(self, word, operands, depth):
        """The bytes on the stack after an instruction."""
        if word in ("push", "pop"):
            return depth + (WORD if word == "push" else -WORD)
        size = re.fullmatch(r"\$0x([0-9a-f]+),%rsp", operands)
        if size and word in ("sub", "add"):
            return depth + int(size.group(1), 16) * (1 if word == "sub" else -1)
        if word == "leave" or operands.endswith(",%rsp"):
            raise SystemExit(f"{self.name}: not known what `{word} {operands}` does to the stack")
        return depth

    def call(self, instruction, depth):
        """A call, or a jump in place of one at the function's end."""
        if not instruction.symbol:
            raise SystemExit(f"{self.name}: at {instruction.place:x} a call of what is not known")
        self.calls[instruction.symbol] = max(depth, self.calls.get(instruction.symbol, 0))


def stack(name, walks, path=()):
    """Bytes of a function's frame and of the longest path of calls from it on."""
    if name in OUTSIDE:
        return 0
    if name in path:
        raise SystemExit(f"{' calls '.join((*path, name))}: a circle")
    if name not in walks:
        raise SystemExit(f"{name} is not in the library")
    walk = walks[name]
    onward = [depth + stack(callee, walks, (*path, name)) for callee, depth in walk.calls.items()]
    return max([*walk.depths.values(), *onward])


def main():
    with tempfile.TemporaryDirectory() as folder:
        walks = {name: Walk(name, code) for name, code in functions(build(folder)).items()}
    print("| entry | bytes |\n|---|---|")
    for entry, call in ENTRIES.items():
        print(f"| {entry} | {WORD + stack(call.split('(')[0], walks):,} |")


if __name__ == "__main__":
    main()
