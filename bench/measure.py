"""Times and instruction counts of two sides, row by row: proved engine and Rust one, new merge and old."""

import collections
import re
import resource
import statistics
import subprocess

# Seconds of each repeat on either side, the instructions of one call or line, and the passes over the spare bytes
# that a call cannot do without (None: not known).
Row = collections.namedtuple("Row", "name what one other one_count other_count passes")

# One bare pass over the spare bytes: seconds of each repeat, and its instructions.
Limit = collections.namedtuple("Limit", "seconds count")


def ratio(row):
    """The median of the ratios of single repeats: what a row is judged by. A machine that changes its speed on the
    way slows both sides of a repeat."""
    return statistics.median(single_ratios(row))


def spread(row):
    """The quartiles of the ratios of single repeats: how noisy the row is."""
    ratios = single_ratios(row)
    low, _, high = statistics.quantiles(ratios, n=4) if len(ratios) > 1 else ratios * 3
    return low, high


def single_ratios(row):
    """One over the other, of each repeat: the two sides take turns."""
    return [one / other for one, other in zip(row.one, row.other)]


def limit_ratio(row, limit):
    """What the row's passes alone would take, over what the Rust engine takes; None where they are not known."""
    return row.passes * statistics.median(limit.seconds) / statistics.median(row.other) if row.passes else None


def count_ratio(row):
    """The ratio of the instruction counts."""
    return row.one_count / row.other_count


def instructions(command, text=b""):
    """Instructions of one run: the same each time, whatever else the machine does."""
    done = subprocess.run(
        ["valgrind", "--tool=callgrind", "--callgrind-out-file=/dev/null", *command],
        input=text, stdout=subprocess.DEVNULL, stderr=subprocess.PIPE, check=True)
    return int(re.search(rb"Collected : (\d+)", done.stderr).group(1))


# The engine by itself: the harness makes the calls.

def engine_rows(harness, repeats, count):
    """The rows of the harness, with the instructions of a few calls of each."""
    described = [line.split("\t") for line in lines_of([harness, "rows"])]
    times = times_of([harness, "time", str(repeats)])
    return [Row(name, what, *times[name], one_of([harness, "run", name, "proved"], count),
                one_of([harness, "run", name, "rust"], count), int(passes)) for name, what, passes in described]


def merge_rows(harness, repeats, count):
    """The new merge over the old, both proved: logs and window are the row's name in the harness."""
    times = times_of([harness, "time-merges", str(repeats)])
    return [Row(*name.split("; "), *times[name], one_of([harness, "run-merge", name, "new"], count),
                one_of([harness, "run-merge", name, "old"], count), None) for name in times]


def times_of(command):
    """Seconds of each repeat on either side, by the row's name."""
    times = collections.defaultdict(lambda: ([], []))
    for line in lines_of(command):
        name, *nanoseconds = line.split("\t")
        for side, time in zip(times[name], nanoseconds):
            side.append(float(time) * 1e-9)
    return times


def limit(harness, repeats, count):
    """The bare pass, measured like a row."""
    seconds = [float(line) * 1e-9 for line in lines_of([harness, "limit", str(repeats)])]
    return Limit(seconds, one_of([harness, "pass"], count))


def lines_of(command):
    """What a command prints, line by line."""
    return subprocess.run(command, stdout=subprocess.PIPE, check=True, text=True).stdout.splitlines()


def one_of(command, count):
    """Instructions of one call: a run with `count` of them less one with none."""
    before, after = (instructions([*command, str(n)]) for n in (0, count))
    return (after - before) / count


# The driving programs: the same input to both.

def driving_row(name, what, programs, text, repeats, counted):
    """One input given to both programs in turn; `counted` is a shorter one for the instructions."""
    outputs = {subprocess.run([program], input=text, stdout=subprocess.PIPE, check=True).stdout
               for program in programs}
    if len(outputs) != 1:
        raise SystemExit(f"{name}: the two programs print different bytes")
    times = [[cpu_seconds(program, text) for program in programs] for _ in range(repeats)]
    lines = counted.count(b"\n")
    return Row(name, what, *zip(*times), *(instructions([program], counted) / lines for program in programs), None)


def cpu_seconds(program, text):
    """User and system time of one run: other work on the machine is not in it."""
    before = resource.getrusage(resource.RUSAGE_CHILDREN)
    subprocess.run([program], input=text, stdout=subprocess.DEVNULL, check=True)
    after = resource.getrusage(resource.RUSAGE_CHILDREN)
    return after.ru_utime - before.ru_utime + after.ru_stime - before.ru_stime
