#!/usr/bin/env python3
"""The fitters' screen of document 02: blocks with a live Write bucket, read again and again.

In each round a page is written to every block of the screen, which is then refreshed:
every block is read, one after the other, as often as asked. Prints the stores that each
driving program makes for it; the bytes read must be the same.
"""

import argparse
import collections
import os
import random
import statistics
import subprocess
import sys

ROOT = os.path.dirname(os.path.dirname(os.path.abspath(__file__)))
sys.path.insert(0, os.path.join(ROOT, "oracle"))

from inputs.calls import Sizes, fits  # noqa: E402
from inputs.probes import read, write  # noqa: E402
from inputs.situation import format_line  # noqa: E402

Request = collections.namedtuple("Request", "is_read line")


def requests_of(options):
    """The same requests for every program."""
    rng, z, blocks = random.Random(options.seed), options.sizes, range(options.blocks)
    requests = []
    for _ in range(options.rounds):
        requests += [Request(False, write(block, rng.randrange(z.P) * z.S, rng.randbytes(z.S))) for block in blocks]
        requests += [Request(True, read(block, 0, z.P * z.S)) for _ in range(options.refreshes) for block in blocks]
    return requests


def answers_of(program, z, requests):
    """What a program prints for each request, after a format."""
    lines = [format_line(z)] + [request.line for request in requests]
    printed = subprocess.run([program], input="\n".join(lines), stdout=subprocess.PIPE, check=True, text=True).stdout
    answers = printed.splitlines()[1:]
    if len(answers) != len(requests) or any(not answer.startswith("00") for answer in answers):
        raise SystemExit(f"{program}: a request was not Done")
    return answers


def check_bytes(answers):
    """Stores may differ from program to program, and what is read may not."""
    if len({tuple(answer[6:] for answer in printed) for printed in answers.values()}) != 1:
        raise SystemExit("the programs read different bytes")


def row(program, requests, answers):
    """A program's stores: in all, for each read and for each write."""
    stores = {True: [], False: []}
    for request, answer in zip(requests, answers):
        stores[request.is_read].append(int(answer[2:6], 16))
    made = sum(map(sum, stores.values()))
    return (f"| {program} | {len(requests)} | {made} | {statistics.mean(stores[True]):.3f} "
            f"| {statistics.mean(stores[False]):.3f} |")


def parse_options():
    parser = argparse.ArgumentParser(description=__doc__)
    parser.add_argument("programs", nargs="+", metavar="BIN", help="driving programs")
    parser.add_argument("--sizes", nargs=6, type=int, default=[4, 16, 64, 256, 20, 40], metavar=tuple("SPCBRW"))
    parser.add_argument("--blocks", type=int, default=16, help="blocks of the screen; at most R and at most W")
    parser.add_argument("--rounds", type=int, default=100, help="writes of a page to each block")
    parser.add_argument("--refreshes", type=int, default=10, help="reads of each block after each of them")
    parser.add_argument("--seed", default="1", help="any text; the same seed gives the same requests")
    options = parser.parse_args()
    options.sizes = z = Sizes(*options.sizes)
    # No block may push the copy or the Write bucket of another out.
    if not fits(z) or not 1 <= options.blocks <= min(z.B, z.R, z.W) or min(options.rounds, options.refreshes) < 1:
        parser.error("the sizes break a limit, or the screen does not fit them")
    return options


def main():
    options = parse_options()
    requests = requests_of(options)
    answers = {program: answers_of(program, options.sizes, requests) for program in options.programs}
    check_bytes(answers)
    print("| program | requests | stores | for each read | for each write |", "|---" * 5 + "|", sep="\n")
    for program, printed in answers.items():
        print(row(program, requests, printed))


if __name__ == "__main__":
    main()
