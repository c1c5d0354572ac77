"""Random inputs for the rewriting program: a line of sizes and the text of a chip image."""

import random

from inputs.calls import Sizes, any_sizes, fitting, within_limits
from inputs.form import OTHERS, SIZES, fields
from inputs.image_text import any_line, line_for, rearranged, some_small, text_of, with_fault, with_faults
from inputs.refusals import EDGES

MOST_DATA_BYTES = 1048576
# Chips as large as the program takes, or nearly; most pages, most bytes of a page, longest text.
LARGE = [Sizes(4, 64, 256, 65535, 64, 64), Sizes(1024, 4, 256, 1, 1, 1), Sizes(1024, 64, 16, 300, 6, 7),
         Sizes(64, 64, 256, 2, 64, 1), Sizes(1023, 41, 25, 9, 11, 11), Sizes(165, 31, 205, 3, 2, 64)]
# Sizes within the limits that are beyond the program by as little as can be, or by as much.
TOO_LARGE = [Sizes(919, 7, 163, 1, 1, 1), Sizes(1024, 64, 17, 300, 6, 7), Sizes(65, 64, 256, 2, 64, 1),
             Sizes(1024, 64, 256, 65535, 64, 64)]


def sizes_line(z):
    return fields(z._asdict(), SIZES)


def taken(z):
    """Whether the program takes a chip of these sizes."""
    return within_limits(z) and z.C * z.P * z.S <= MOST_DATA_BYTES


def some_lines(rng, z, most):
    """Lines for some of the pages, rising, or for all if they are no more than that."""
    pages = z.C * z.P
    count = min(most, rng.choice([0, 1, rng.randint(0, pages), pages, pages]))
    return [line_for(rng, z, place) for place in sorted(rng.sample(range(pages), count))]


def whole(rng, z, lines):
    """The whole input, with the sizes in either case."""
    return text_of(rng, [some_small(rng, sizes_line(z)), *lines])


def texts(rng, most):
    """Texts without a fault; some of them are as the program gives them."""
    z = fitting(any_sizes, rng, taken)
    return whole(rng, z, rearranged(rng, some_lines(rng, z, most)))


def fault(rng, _):
    """One fault, in few lines."""
    z = fitting(any_sizes, rng, taken)
    return whole(rng, z, with_fault(rng, z, rearranged(rng, some_lines(rng, z, rng.choice([1, 3, 10])))))


def faults(rng, most):
    z = fitting(any_sizes, rng, taken)
    return whole(rng, z, with_faults(rng, z, rearranged(rng, some_lines(rng, z, rng.choice([3, 10, most])))))


def sizes(rng, most):
    """Sizes about each limit and about what the program takes, or both at once, and lines that are none; a text behind
    them, often with faults."""
    z = rng.choice(rng.choice([EDGES, LARGE, TOO_LARGE]))
    if rng.random() < 0.2:
        z = z._replace(**{rng.choice("BRW"): 0})
    of_chip = z if taken(z) else rng.choice(LARGE)
    lines = some_lines(rng, of_chip, min(most, 4))
    if rng.random() < 0.5:
        lines = with_faults(rng, of_chip, lines)
    first = sizes_line(z) if rng.random() < 0.7 else no_sizes(rng, sizes_line(z))
    return text_of(rng, [first, *lines]) if rng.random() < 0.9 else rng.choice(["", "\n", "\n\n", first, "\n" + first])


def no_sizes(rng, line):
    """A first line with a digit, a byte or a character too few or too many, or another one."""
    place = rng.randrange(len(line))
    other = rng.choice(OTHERS)
    return rng.choice(["", "\r", line[:-1], line[:-2], line + "0", line + "00", line + "\r", " " + line, line * 2,
                       line * 2000, line[:place] + other + line[place + 1:], line[:place] + other + line[place:]])


def raw(rng, most):
    """A text that ends anywhere, has any byte changed or left out, or is none."""
    z = fitting(any_sizes, rng, taken)
    text = whole(rng, z, rearranged(rng, some_lines(rng, z, min(most, 20))))
    place, byte = rng.randrange(len(text)), chr(rng.randrange(256))
    garbage = "".join(rng.choices("0123456789ABCDEFabcdef\n", k=rng.choice([1, 18, 200, 3000])))
    return rng.choice([text[:place], text[:place] + byte + text[place + 1:], text[:place] + text[place + 1:],
                       text[:place] + byte + text[place:], garbage, sizes_line(z) + "\n" + garbage,
                       rng.randbytes(200).decode("latin-1")])


def large(rng, _):
    """Chips of the most pages and bytes, nearly all given; often with a fault behind them, or all of it again."""
    z = rng.choice(LARGE)
    pages = z.C * z.P
    lines = [line_for(rng, z, place) for place in rng.sample(range(pages), pages - rng.choice([0, 0, 1, 9]))]
    behind = rng.choice([[], [], [""], lines[:1], lines, with_faults(rng, z, [any_line(rng, z)])])
    return whole(rng, z, lines + behind)


KINDS = {"texts": texts, "fault": fault, "faults": faults, "sizes": sizes, "raw": raw, "large": large}


def make_input(seed, kind, index, lines):
    """An input of at most about so many lines, but for the large ones."""
    rng = random.Random(f"{seed} {kind} {index}")
    return KINDS[kind](rng, lines).encode("latin-1")
