#!/usr/bin/env python3
"""Random small writes over the engine and over the B_like of source document 003.

The engine runs behind a driving program, which prints the stores of each call;
what kinds they are follows from their number. Writes the tables of docs/ARTICLE.md.
"""

import argparse
import collections
import os
import random
import subprocess

from blike import BLike
from document import replace_figures

ROOT = os.path.dirname(os.path.dirname(os.path.abspath(__file__)))

# A chip of 64 buckets before a disk of 256, as large as the program's disk buffer.
S, P, C, B, R, W = 4, 16, 64, 256, 20, 40

Request = collections.namedtuple("Request", "is_read bucket page pages")
Workload = collections.namedtuple("Workload", "name bucket pages reads")
# What 003 leaves open about B_like: requests to a page of the journal, and blocks of over-provisioned space.
Setting = collections.namedtuple("Setting", "name batch spare_blocks")

SETTINGS = [
    Setting("B_like, 10 % spare", 1, 6),
    Setting("B_like, 25 % spare", 1, 16),
    Setting("B_like, 25 % spare, journal in batches of 16", 16, 16),
]


def uniform(buckets):
    """Any of the first so many back-end buckets."""
    return lambda rng: rng.randrange(buckets)


def skewed(rng):
    """Nine requests in ten to a tenth of the back-end buckets."""
    return rng.randrange(B // 10) if rng.random() < 0.9 else rng.randrange(B)


WORKLOADS = [
    Workload("writes of 1 page, uniform over 256 buckets", uniform(B), 1, 0.0),
    Workload("writes of 1 page, uniform over 64 buckets", uniform(64), 1, 0.0),
    Workload("writes of 1 page, uniform over 32 buckets", uniform(32), 1, 0.0),
    Workload("writes of 1 page, skewed", skewed, 1, 0.0),
    Workload("writes of 4 pages, skewed", skewed, 4, 0.0),
    Workload("writes of 16 pages, skewed", skewed, 16, 0.0),
    Workload("1 page, uniform over 32 buckets, 18 % reads", uniform(32), 1, 0.18),
    Workload("1 page, skewed, 18 % reads", skewed, 1, 0.18),
    Workload("1 page, skewed, 42 % reads", skewed, 1, 0.42),
]


def requests_of(workload, seed, count):
    """The same requests for every system."""
    rng = random.Random(f"{seed} {workload.name}")
    return [Request(rng.random() < workload.reads, workload.bucket(rng), rng.randrange(P - workload.pages + 1),
                    workload.pages) for _ in range(count)]


# The engine, behind the driving program.

def line_of(request):
    """The request as a line."""
    place = f"{request.bucket:04X}{request.page * S:04X}"
    if request.is_read:
        return f"02FFFF{place}{request.pages * S:04X}"
    return f"03FFFF{place}" + "5A" * (request.pages * S)


def stores_of(program, requests):
    """The stores of each request, after a format."""
    lines = [f"01FFFF{S:04X}{P:02X}{C:04X}{B:04X}{R:02X}{W:02X}"] + [line_of(request) for request in requests]
    printed = subprocess.run([program], input="\n".join(lines), stdout=subprocess.PIPE, check=True, text=True).stdout
    answers = printed.splitlines()[1:]
    if len(answers) != len(requests) or any(not answer.startswith("00") for answer in answers):
        raise SystemExit("a request was not Done")
    return [int(answer[2:6], 16) for answer in answers]


def kinds_of(request, stores):
    """Erases, programs and disk units among the stores of a request.

    Once the first bucket had to be erased none is free beforehand, so every
    allocation erases one, behind an entry in the erase ledger; a ledger bucket
    that hands over is erased too, at most one in a call. A write that evicts
    allocates for its log alone when the merged bytes go to the disk or a copy
    has them already, and once more when they become a copy.
    """
    if request.is_read:
        log, ways = 0, {0: (0, 0, 0), P + 2: (1, P + 1, 0), 2 * P + 2: (1, P + 1, P)}
    else:
        log, ways = request.pages, {0: (0, 0, 0), 2: (1, 1, 0), P + 2: (1, 1, P), P + 4: (2, P + 2, 0)}
    others = stores - log
    hand_over = others not in ways
    erases, programs, units = ways[others - hand_over]
    return erases + hand_over, log + programs, units


def engine_counts(program, requests, first):
    """Erases, programs, disk units and disk runs of the requests from `first` on."""
    stores = stores_of(program, requests)
    # Before the first erase a write's stores are its log's pages, with or without a bucket's.
    if all(made - (0 if request.is_read else request.pages) in (0, P, 2 * P)
           for request, made in zip(requests[:first], stores)):
        raise SystemExit("no bucket was erased before the counting: more requests are needed first")
    kinds = [kinds_of(*pair) for pair in zip(requests[first:], stores[first:])]
    erases, programs, units = (sum(column) for column in zip(*kinds))
    return erases, programs, units, units // P


# B_like.

def blike_counts(setting, requests, first):
    """The same counts for the model."""
    cache = BLike(C, P, setting.spare_blocks, setting.batch)
    before = None
    for number, request in enumerate(requests):
        if number == first:
            before = cache.counts()
        start = request.bucket * P + request.page
        units = range(start, start + request.pages)
        (cache.read if request.is_read else cache.write)(units)
    return tuple(after - earlier for after, earlier in zip(cache.counts(), before))


# The tables.

def measured(options):
    """For each workload the counts of the engine and of each B_like."""
    rows = []
    for workload in WORKLOADS:
        requests = requests_of(workload, options.seed, options.first + options.requests)
        engine = engine_counts(options.program, requests, options.first)
        rows.append((workload.name, [engine] + [blike_counts(s, requests, options.first) for s in SETTINGS]))
    return rows


def table(rows, cell):
    """One figure of each system, for every workload."""
    lines = ["| workload | engine | " + " | ".join(setting.name for setting in SETTINGS) + " |", "|---" * 5 + "|"]
    lines += [f"| {name} | " + " | ".join(cell(counts, systems[0]) for counts in systems) + " |"
              for name, systems in rows]
    return "\n".join(lines) + "\n"


def erases_cell(counts, engine, requests):
    """A system's erases and, beside B_like's, what the engine makes of them."""
    if counts is engine:
        return f"{counts[0] / requests:.3f}"
    share = engine[0] / counts[0]
    said = f"{100 * (1 - share):.0f} % fewer" if share <= 1 else f"{share:.1f} times"
    return f"{counts[0] / requests:.3f} ({said})"


def report(options):
    """The tables: erases, programs, disk units."""
    rows, requests = measured(options), options.requests
    return (f"Made by `bench/article.py --program PROGRAM --first {options.first} --requests {requests} "
            f"--seed {options.seed}`.\n\n"
            "### Erases for each request (in brackets: the engine's, against that)\n\n"
            + table(rows, lambda counts, engine: erases_cell(counts, engine, requests))
            + "\n### Flash programs for each request\n\n"
            + table(rows, lambda counts, _: f"{counts[1] / requests:.2f}")
            + "\n### Disk units written for each request, and the runs that they are written in\n\n"
            + table(rows, lambda counts, _: f"{counts[2] / requests:.2f} in {counts[3] / requests:.2f}"))


def main():
    parser = argparse.ArgumentParser(description=__doc__)
    parser.add_argument("--program", required=True, metavar="BIN",
                        help="a driving program; the proved and the Rust one print the same")
    parser.add_argument("--first", type=int, default=10000, help="requests that are not counted, which fill the chip")
    parser.add_argument("--requests", type=int, default=40000, help="requests that are counted")
    parser.add_argument("--seed", default="1", help="any text; the same seed gives the same requests")
    options = parser.parse_args()
    figures = report(options)
    replace_figures(os.path.join(ROOT, "docs", "ARTICLE.md"), figures)
    print(figures)


if __name__ == "__main__":
    main()
