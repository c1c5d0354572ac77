#!/usr/bin/env python3
"""Runs the driving program, or with --rewrite the rewriting one, on long, slow and failing streams.

What it prints of an input of more than a megabyte, whose last line lacks its line feed, is
compared with the independent engine's output, however the input comes and the output goes.
Where a stream fails the program must say so, and what it wrote must be the start of that output.
"""

import argparse
import os
import random
import resource
import signal
import socket
import subprocess
import sys
import tempfile
import threading
import time

from inputs.driving import KINDS, make_input
from inputs.image_text import line_for
from inputs.rewriting import LARGE, sizes_line

MEGABYTE = 1 << 20
PIECE = 65536  # what the program reads at most in one call
FILE_LIMIT = 100000
SECONDS = 120  # for all of it; a program that hangs must not hang the tests


def long_input(seed):
    """Every kind of input in turn, and reads whose answers fill any buffer; no line feed at the end."""
    text, index = b"", 0
    while len(text) <= MEGABYTE:
        for kind in KINDS:
            text += make_input(seed, kind, index, 1000).rstrip(b"\n") + b"\n"
        index += 1
    return text + b"01FFFF03F004000800040203\n" + b"02FFFF000000000FC0\n" * 100 + b"06FFFF"


def long_text(seed):
    """A whole chip of 1,024 bytes a page, its pages falling; no line feed at the end."""
    rng, z = random.Random(seed), LARGE[1]
    pages = reversed(range(z.C * z.P))
    return "\n".join([sizes_line(z), *(line_for(rng, z, page) for page in pages)]).encode()


def feed(fd, text):
    """Writes the text slowly, in pieces of a size that divides no buffer, until the reader goes away."""
    def write():
        try:
            for start in range(0, len(text), 7001):
                part = text[start:start + 7001]
                while part:
                    part = part[os.write(fd, part):]
                time.sleep(0.001)
        except BrokenPipeError:
            pass
        os.close(fd)
    threading.Thread(target=write).start()


def limit_files():
    signal.signal(signal.SIGXFSZ, signal.SIG_IGN)
    resource.setrlimit(resource.RLIMIT_FSIZE, (FILE_LIMIT, FILE_LIMIT))


class Streams:
    def __init__(self, oracle, program, text, broken_off):
        self.oracle = oracle
        self.program = program
        self.name = os.path.basename(program).encode()
        self.text = text
        self.broken_off = broken_off  # what is written of "06FFFF\n06FFFF" where the input then fails
        self.expected = self.answer(text)
        self.failed = 0

    def check(self, name, good):
        print(f"{'ok    ' if good else 'FAILED'} {name}")
        self.failed += not good

    def answer(self, text):
        """The independent engine's output."""
        return subprocess.run([self.oracle], input=text, stdout=subprocess.PIPE, check=True).stdout

    def answers(self, text):
        """The same, and what is said beside it: a refusal of the rewriting program, its only line."""
        answer = self.answer(text)
        refused = self.name == b"rewrite" and len(answer) == 7
        return answer, b"rewrite: refused: " + answer if refused else b""

    def start(self, **streams):
        """The program, its input in a file unless told otherwise. A closed pipe is an error to it, no signal."""
        with tempfile.TemporaryFile() as file:
            file.write(self.text)
            file.seek(0)
            streams = {"stdin": file, "stdout": subprocess.PIPE, **streams}
            return subprocess.Popen([self.program], stderr=subprocess.PIPE, restore_signals=False, **streams)

    def run(self, **streams):
        """What the program wrote, and what it complained of."""
        return self.start(**streams).communicate()

    def whole(self):
        self.check(f"a file of {len(self.text)} bytes", self.run() == (self.expected, b""))
        for size in (0, 1, PIECE - 1, PIECE, PIECE + 1):
            text = self.text[:size].rstrip(b"\n")
            done = self.start(stdin=subprocess.PIPE).communicate(text)
            self.check(f"{len(text)} bytes", done == self.answers(text))

    def slow_input(self, blocking):
        out, into = os.pipe()
        os.set_blocking(out, blocking)
        feed(into, self.text)
        self.check(f"a slow writer, {'blocking' if blocking else 'not blocking'}",
                   self.run(stdin=out) == (self.expected, b""))
        os.close(out)

    def slow_output(self):
        out, into = os.pipe()
        os.set_blocking(into, False)
        program = self.start(stdout=into)
        os.close(into)
        text = b""
        while part := os.read(out, 30000):
            text += part
            time.sleep(0.001)
        os.close(out)
        complaint = program.communicate()[1]
        self.check("a slow reader, not blocking", (text, complaint) == (self.expected, b""))

    def failing_output(self):
        with open("/dev/full", "wb") as device:
            complaint = self.run(stdout=device)[1]
        self.check("a full disk", complaint == self.name + b": standard output: No space left on device\n")
        with tempfile.TemporaryFile() as file:
            complaint = self.run(stdout=file, preexec_fn=limit_files)[1]
            file.seek(0)
            self.check("a file that may not grow on", file.read() == self.expected[:FILE_LIMIT]
                       and complaint == self.name + b": standard output: File too large\n")
        out, into = os.pipe()
        program = self.start(stdout=into)
        os.close(into)
        text = os.read(out, 1000)
        os.close(out)
        complaint = program.communicate()[1]
        self.check("a reader that goes away", self.expected.startswith(text)
                   and complaint == self.name + b": standard output: Broken pipe\n")

    def failing_input(self):
        folder = os.open(".", os.O_RDONLY)
        self.check("a folder as the input", self.run(stdin=folder)
                   == (b"", self.name + b": standard input: Is a directory\n"))
        os.close(folder)
        self.check("no input at all", self.run(preexec_fn=lambda: os.close(0))
                   == (b"", self.name + b": standard input: Bad file descriptor\n"))
        # A peer that leaves with something unread resets the connection, once all that it sent is read.
        ours, theirs = socket.socketpair()
        ours.send(b"unread")
        theirs.send(b"06FFFF\n06FFFF")
        theirs.close()
        self.check("an input that breaks off within a line", self.run(stdin=ours)
                   == (self.broken_off, self.name + b": standard input: Connection reset by peer\n"))
        ours.close()


def main():
    parser = argparse.ArgumentParser(description=__doc__)
    parser.add_argument("--oracle", required=True, metavar="BIN", help="the independent engine's program")
    parser.add_argument("--program", required=True, metavar="BIN", help="the program")
    parser.add_argument("--rewrite", action="store_true", help="the programs rewrite texts")
    parser.add_argument("--seed", default="1", help="any text; the same seed gives the same input")
    options = parser.parse_args()
    signal.alarm(SECONDS)
    text, broken_off = (long_text(options.seed), b"") if options.rewrite else (long_input(options.seed), b"030000\n")
    streams = Streams(os.path.abspath(options.oracle), os.path.abspath(options.program), text, broken_off)
    streams.whole()
    streams.slow_input(blocking=True)
    streams.slow_input(blocking=False)
    streams.slow_output()
    streams.failing_output()
    streams.failing_input()
    return 1 if streams.failed else 0


if __name__ == "__main__":
    sys.exit(main())
