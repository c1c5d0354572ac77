#!/usr/bin/env python3
"""The benchmark: the proved engine and driving program beside those of oracle/, and the new merge beside the old.

Builds what it needs, measures both sides in one run, and writes the tables into
docs/BENCHMARK.md and the plot docs/benchmark.svg.
"""

import argparse
import os
import random
import shutil
import statistics
import subprocess
import sys

ROOT = os.path.dirname(os.path.dirname(os.path.abspath(__file__)))
sys.path.insert(0, os.path.join(ROOT, "oracle"))

import chart  # noqa: E402
import document  # noqa: E402
import measure  # noqa: E402
from inputs.calls import Kind, Sizes  # noqa: E402
from inputs.driving import KINDS, Script  # noqa: E402

TARGET = os.path.join(ROOT, "target")
ORACLE = os.path.join(TARGET, "oracle")
EXPORTS = os.path.join(ROOT, "crates", "bench_c")
LIBRARY = os.path.join(TARGET, "staticlib", "libbench.a")
PROGRAM = os.path.join(ROOT, "crates", "tugmerov", "out", "tugmerov")
HARNESS = os.path.join(TARGET, "harness")
DOCUMENT = os.path.join(ROOT, "docs", "BENCHMARK.md")
PLOT = os.path.join(ROOT, "docs", "benchmark.svg")

# From the smallest pages and buckets to chips that fill the flash or the disk buffer.
DRIVING_SIZES = [
    Sizes(4, 1, 10, 16, 3, 4), Sizes(16, 8, 32, 32, 8, 16),
    Sizes(64, 64, 6, 4, 1, 2), Sizes(16, 4, 256, 256, 64, 64),
    Sizes(1024, 1, 31, 16, 10, 10),
]
PROFILES = {"calm": "calm", "mixed": "wide", "recovery-heavy": "recovery"}


def build():
    """The oracle, the static library of crate bench_c and the harness that calls both."""
    subprocess.run(["sh", os.path.join(ROOT, "oracle", "build.sh"), ORACLE], check=True)
    if not os.path.exists(LIBRARY) or os.path.getmtime(LIBRARY) < newest_source():
        subprocess.run(["rt", "lib"], cwd=EXPORTS, check=True, stdout=subprocess.DEVNULL)
        os.makedirs(os.path.dirname(LIBRARY), exist_ok=True)
        shutil.copyfile(os.path.join(EXPORTS, "out", "libbench_c.a"), LIBRARY)
    subprocess.run(["rustc", "-O", "--edition", "2021", os.path.join(ROOT, "bench", "harness.rs"),
                    "--extern", f"oracle={ORACLE}/liboracle.rlib", "-L", os.path.dirname(LIBRARY),
                    "-o", HARNESS], check=True)


def newest_source():
    """When a crate last changed. Proving the library again takes a minute, so it is done only then."""
    return max(os.path.getmtime(os.path.join(folder, name))
               for folder, _, names in os.walk(os.path.join(ROOT, "crates"))
               for name in names if "out" not in os.path.relpath(folder, ROOT).split(os.sep))


def driving_input(seed, profile, sizes, lines):
    """An input of one of the comparison's kinds, at fixed sizes, with reads and writes in no order."""
    kind = KINDS[PROFILES[profile]]
    fixed = Kind(lambda rng: sizes, kind.weights, kind.short, refresh=0)
    return Script(random.Random(f"{seed} {profile} {sizes}"), fixed).text(lines)


def driving_rows(program, options):
    """Each profile at each of the sizes."""
    programs = [program, os.path.join(ORACLE, "oracle")]
    rows = []
    for profile in PROFILES:
        for sizes in DRIVING_SIZES:
            text = driving_input(options.seed, profile, sizes, options.lines)
            counted = b"".join(text.splitlines(keepends=True)[:options.lines // 20])
            what = " ".join(f"{name} {value}" for name, value in sizes._asdict().items())
            name = f"{profile}, S {sizes.S} P {sizes.P} C {sizes.C}"
            rows.append(measure.driving_row(name, what, programs, text, options.repeats, counted))
    return rows


def table(rows, unit, scale, sides=("proved", "Rust")):
    """Rows as a table of Markdown."""
    one, other = sides
    lines = [f"| row | what | {one} ({unit}) | {other} ({unit}) | ratio | quartiles "
             f"| instructions, {one} | ratio of instructions |", "|---" * 8 + "|"]
    for row in rows:
        first, second = (statistics.median(times) * scale for times in (row.one, row.other))
        low, high = measure.spread(row)
        lines.append(f"| {row.name} | {row.what} | {first:.1f} | {second:.1f} | {measure.ratio(row):.2f} | "
                     f"{low:.2f} to {high:.2f} | {row.one_count:,.0f} | "
                     f"{measure.count_ratio(row):.2f} |")
    return "\n".join(lines) + "\n"


def limit_line(limit):
    """The limit in words."""
    return (f"The limit: one bare pass over the spare bytes takes {statistics.median(limit.seconds) * 1e6:.1f} µs, "
            f"{limit.count:,.0f} instructions.\n")


def report(engine, limit, merges, driving, options):
    """The part of the document between its marks."""
    text = (f"Made by `bench/run.py --repeats {options.repeats} --calls {options.calls} --lines {options.lines} "
            f"--seed {options.seed}`.\n\n"
            "### The engine, S 1,024 P 64 C 256 R 64 W 64 (time and instructions of one call)\n\n"
            + table(engine, "µs", 1e6) + "\n" + limit_line(limit)
            + "\n### The new merge and the old, S 1,024 P 64 (time and instructions of one merge)\n\n"
            + table(merges, "ns", 1e9, ("new", "old"))
            + "\n### The driving program (time of a whole input, instructions of a line)\n\n")
    if driving:
        return text + f"Inputs of {options.lines} lines each.\n\n" + table(driving, "ms", 1e3)
    return text + "Not measured: the program was not there.\n"


def write_plot(engine, limit, driving):
    """The ratios of all rows as bars."""
    groups = [(title, [(row.name, measure.ratio(row), *measure.spread(row), measure.limit_ratio(row, limit))
                       for row in rows])
              for title, rows in [("Engine", engine), ("Driving program", driving)] if rows]
    with open(PLOT, "w", encoding="utf-8") as file:
        file.write(chart.chart(groups))


def main():
    parser = argparse.ArgumentParser(description=__doc__)
    parser.add_argument("--program", default=PROGRAM, metavar="BIN",
                        help="the proved driving program, which rt run and rt ci build; its rows are left out where "
                             "it is missing")
    parser.add_argument("--repeats", type=int, default=9, help="runs of each row")
    parser.add_argument("--calls", type=int, default=4, help="calls of which instructions are counted")
    parser.add_argument("--lines", type=int, default=10000, help="lines of each input")
    parser.add_argument("--seed", default="1", help="any text; the same seed gives the same inputs")
    options = parser.parse_args()
    build()
    engine = measure.engine_rows(HARNESS, options.repeats, options.calls)
    limit = measure.limit(HARNESS, options.repeats, options.calls)
    merges = measure.merge_rows(HARNESS, options.repeats, options.calls)
    driving = driving_rows(os.path.abspath(options.program), options) if os.path.exists(options.program) else []
    if not driving:
        print(f"note: {options.program} is not there, so the driving programs are not compared")
    figures = report(engine, limit, merges, driving, options)
    document.replace_figures(DOCUMENT, figures)
    write_plot(engine, limit, driving)
    print(figures)


if __name__ == "__main__":
    main()
