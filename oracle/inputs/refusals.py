"""Calls that are turned down for one reason, for several, or only just not."""

from functools import partial

from inputs.calls import FULL, SPARE_BYTES, Sizes
from inputs.image_text import any_line
from inputs.images import EPOCH_END, mark_some
from inputs.probes import (BESIDES, LENDING, MOST_TEXT, good_call, lend_less, page_look, read, read_text, write,
                           write_text)
from inputs.situation import format_line

ROOMY = Sizes(4, 1, 200, 1, 1, 1)
# Sizes just within a limit and just beyond it; all else is within.
EDGES = [ROOMY._replace(**edge) for edge in (
    *({"S": s, "C": 5} for s in (0, 3, 4, 1024, 1025, 65535)), *({"P": p, "C": 5} for p in (0, 1, 64, 65, 255)),
    *({"C": c} for c in (0, 2, 3, 4, 5, 256, 257, 65535)), *({"B": b} for b in (0, 1, 65535)),
    *({"R": r} for r in (0, 1, 64, 65, 255)), *({"W": w} for w in (0, 1, 64, 65, 255)),
    {"R": 50, "W": 49, "C": 102}, {"R": 50, "W": 50, "C": 102}, {"R": 1, "W": 2, "C": 6}, {"R": 2, "W": 1, "C": 5})]


def by_limit(z, rng, rich):
    """Sizes about a limit, in the state and in a format."""
    forged = rich.situation.copy()
    forged.state.values.update(z._asdict())
    op = rng.choice([0x02, 0x03, 0x04, 0x05, *BESIDES])
    return [*rich.situation.lines_to(forged), good_call(rng, forged.sizes, op, 0), format_line(z, 0),
            *forged.lines_to(rich.situation)]


LIMITS = [partial(by_limit, z) for z in EDGES]


def about_buffers(rng, rich):
    """Formats that fill the buffers, or are beyond them by a little or much."""
    z = rng.choice(FULL)
    more = rng.choice([{}, {"C": min(z.C + 1, 256)}, {"B": z.B + 1}, {"S": min(z.S + 1, 1024)},
                       {"P": min(z.P + 1, 64)}, {"S": 1024, "P": 64, "C": 256}, {"B": 65535}])
    return [format_line(z._replace(**more), 0), *rich.situation.lines_to(rich.situation)]


def by_epochs(rng, rich):
    """The last next epochs: a write is turned down, and a read stores, moves and marks nothing from one on."""
    lines, forged = [], rich.situation.copy()
    for op in rng.sample([0x02, 0x02, 0x03], 3):
        forged.state.values["epoch"] = EPOCH_END - rng.choice([0, 1, 1, 2, 2, 3])
        mark_some(rng, forged)
        lines += [*rich.situation.lines_to(forged), good_call(rng, forged.sizes, op, 0, forged.written()), "11"]
    return lines + forged.lines_to(rich.situation)


def lengths(z):
    return [z.C * z.P * z.S, z.C * z.P * SPARE_BYTES, z.B * z.P * z.S]


def by_length(op, buffer, bytes_of, rng, rich):
    """One buffer lent too short."""
    less = [0, 0, 0]
    less[buffer] = bytes_of(rng, lengths(rich.situation.sizes)[buffer])
    return [lend_less(*less), good_call(rng, rich.situation.sizes, op, 0), *rich.situation.lines_to(rich.situation)]


def by_lengths(rng, rich):
    """Any part of chip and disk lent, now and then with sizes that are turned down before it."""
    z, forged = rich.situation.sizes, rich.situation.copy()
    less = [rng.choice([0, 1, most - 1, most, most + 1, 65535]) for most in lengths(z)]
    if rng.random() < 0.3:
        forged.state.values[rng.choice("SPCBRW")] = 0
    calls = [good_call(rng, z, rng.choice(LENDING), 0) for _ in range(2)]
    return [*rich.situation.lines_to(forged), lend_less(*less), *calls, *forged.lines_to(rich.situation)]


BYTES_OF = (lambda rng, most: 1, lambda rng, most: rng.randint(1, most), lambda rng, most: most)
LENGTHS = [partial(by_length, op, buffer, bytes_of) for op in LENDING for buffer in range(3) for bytes_of in BYTES_OF]


def several(rng, rich):
    """Reasons for several numbers at once; the first one counts."""
    numbers = set(rng.sample(range(1, 11), rng.randint(1, 4)))
    forged = rich.situation.copy()
    spoil(rng, rich, forged, numbers)
    lines = rich.situation.lines_to(forged)
    if 2 in numbers:
        lines.append(lend_less(*rng.choice([(1, 0, 0), (0, 1, 0), (0, 0, 1), (1, 1, 1)])))
    lines.append(faulty_call(rng, forged.sizes, numbers))
    if rng.random() < 0.3:
        lines.append("11")
    return lines + forged.lines_to(rich.situation)


def spoil(rng, rich, s, numbers):
    """Makes the situation one that numbers 1, 3, 4, 5 and 8 turn down, as asked."""
    values = s.state.values
    if 1 in numbers:
        values[rng.choice("SPCBRW")] = 0
    if 3 in numbers:
        values["running"] = 0
    if 4 in numbers:
        s.change(rich.buckets["short logs"], 0, zero=1)
    if 5 in numbers:
        fields, name = rng.choice([(values, "count"), (rng.choice(s.queue("writes")), "blank")])
        fields[name] += 16
    if 8 in numbers:
        values["epoch"] = EPOCH_END - rng.choice([0, 1])


def faulty_call(rng, z, numbers):
    """A call, most often a read or write, with the fields that numbers 1, 6 and 7 turn down, as asked; or a text or a
    buffer for one."""
    op = rng.choice([0x02, 0x03, 0x02, 0x03, *LENDING])
    if op == 0x01:
        return format_line(z._replace(P=0) if 1 in numbers else z, 0)
    if op == 0x16:
        beyond = [(z.C, 0), (0, z.P), (z.C, z.P), (65535, 255)]
        return page_look(*rng.choice(beyond if 6 in numbers else [(z.C - 1, z.P - 1)]))
    if op == 0x30:
        return write_text(rng.choice([0, 1] if 2 in numbers else [MOST_TEXT]))
    if op == 0x31:
        return read_text(faulty_text(rng, z, numbers))
    if op not in (0x02, 0x03):
        return good_call(rng, z, op, 0)
    back_end = rng.choice([z.B, 65535] if 6 in numbers else [0, z.B - 1])
    offset, length = rng.choice(parts_beyond(z) if 7 in numbers else parts_within(z))
    if op == 0x02:
        return read(back_end, offset, length, 0)
    return write(back_end, offset, rng.randbytes(min(length, 4000)), 0)


def faulty_text(rng, z, numbers):
    """A text with faults of numbers 9 and 10, as asked, in any order; with one in any case, so that the chip stays."""
    line = any_line(rng, z)
    faults = [{9: line[2:], 10: line}[number] for number in (9, 10) if number in numbers] or [""]
    return "".join(line + "\n" for line in [line] + rng.sample(faults, len(faults)))


def parts_beyond(z):
    whole = z.P * z.S
    return [(0, 0), (whole, 0), (65535, 0), (whole, 1), (whole - 1, 2), (0, whole + 1), (1, whole), (65535, 1),
            (65535, 65535), (1, 65535)]


def parts_within(z):
    whole = z.P * z.S
    return [(0, 1), (whole - 1, 1), (0, whole), (1, whole - 1)]
