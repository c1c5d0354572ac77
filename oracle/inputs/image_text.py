"""The text of a chip image: its lines, in any order and case, and the faults of a line."""

from inputs.form import BLANK, OTHERS, SPARE_DIGITS

PLACE_DIGITS = 6


def page_line(bucket, page, spare, data):
    return f"{bucket:04X}{page:02X}{spare}{data}"


def image_lines(pages):
    """What the writer gives for pages, without line feeds."""
    return [page_line(*place, *page) for place, page in sorted(pages.items()) if page[0] != BLANK]


def line_length(z):
    """Of a line with its line feed."""
    return PLACE_DIGITS + SPARE_DIGITS + 2 * z.S + 1


def any_line(rng, z):
    """A line for the last page or for any."""
    return line_for(rng, z, rng.choice([z.C * z.P - 1, rng.randrange(z.C * z.P)]))


def line_for(rng, z, place):
    """A line for a page, counted from the chip's first, with any bytes, also nearly those of a blank page."""
    nearly_blank = bytearray.fromhex(BLANK)
    nearly_blank[rng.randrange(16)] ^= 1 << rng.randrange(8)
    spare = rng.choice([rng.randbytes(16), nearly_blank, bytes(1) + rng.randbytes(15)])
    return page_line(*divmod(place, z.P), spare.hex().upper(), rng.randbytes(z.S).hex().upper())


def rearranged(rng, lines):
    """Rising, falling or in any order; letters large or small."""
    order = rng.choice([lines, lines[::-1], rng.sample(lines, len(lines))])
    return [some_small(rng, line) for line in order] if rng.random() < 0.7 else list(order)


def some_small(rng, line):
    """The line with a part of its letters small, all of them or none."""
    start, end = rng.choice([(0, 0), (0, len(line)), sorted(rng.choices(range(len(line) + 1), k=2))])
    return line[:start] + line[start:end].lower() + line[end:]


def text_of(rng, lines):
    """The last line may lack its line feed, unless it has nothing else."""
    text = "".join(line + "\n" for line in lines)
    return text[:-1] if rng.random() < 0.3 and not ("\n" + text).endswith("\n\n") else text


# Faults: each changes a list of one line at least

def a_length(rng, _, lines):
    """A digit or a byte too few or too many, or half a line, or far too many."""
    at, line = some_line(rng, lines)
    place = rng.randint(0, len(line))
    lines[at] = rng.choice([line[:-1], line[:-2], line + "0", line + "00", line[:place], line[place:],
                            line[:place] + "A5" + line[place:], line * 2, line * rng.choice([40, 500])])


def a_character(rng, _, lines):
    at, line = some_line(rng, lines)
    place = rng.choice([0, len(line), rng.randint(0, len(line))])
    lines[at] = line[:place] + rng.choice(OTHERS) + line[place + rng.choice([0, 1, 1]):]


def carriage_return(rng, _, lines):
    """At the end of a line, or of each."""
    start = rng.choice([0, rng.randrange(len(lines))])
    end = rng.choice([start + 1, len(lines)])
    lines[start:end] = [line + "\r" for line in lines[start:end]]


def an_empty_line(rng, _, lines):
    lines.insert(rng.choice([0, len(lines), rng.randint(0, len(lines))]), "")


def a_line_feed(rng, _, lines):
    """One too many, within a line, or one too few, between two."""
    at, line = some_line(rng, lines)
    place = rng.randint(0, len(line))
    if rng.random() < 0.5:
        lines[at:at + 1] = [line[:place], line[place:]]
    else:
        lines[at:at + 2] = ["".join(lines[at:at + 2])]


def a_blank_page(rng, _, lines):
    at, line = some_line(rng, lines)
    lines[at] = without_spare(rng, line)


def a_place(rng, z, lines):
    """A bucket or a page that is not there, or both, by one or by much."""
    at, line = some_line(rng, lines)
    bucket = rng.choice([line[:4]] * 3 + [f"{z.C:04X}", f"{z.C + 1:04X}", "0100", "0101", "8000", "FFFF"])
    page = rng.choice([line[4:6]] * 2 + [f"{z.P:02X}", f"{z.P + 1:02X}", "80", "FF"])
    lines[at] = bucket + page + line[PLACE_DIGITS:]


def a_page_twice(rng, z, lines):
    """The same line again, or another for that page, anywhere."""
    _, line = some_line(rng, lines)
    other = line[:PLACE_DIGITS] + any_line(rng, z)[PLACE_DIGITS:]
    lines.insert(rng.choice([len(lines), rng.randint(0, len(lines))]), rng.choice([line, some_small(rng, line), other]))


def a_faulty_page_twice(rng, _, lines):
    """A line for a page that was given, and with a fault of its own, which comes first."""
    at, line = some_line(rng, lines)
    second = rng.choice([line + "00", line[:-1] + "g", without_spare(rng, line)])
    lines.insert(rng.randint(at + 1, len(lines)), second)


def without_spare(rng, line):
    return line[:PLACE_DIGITS] + some_small(rng, BLANK) + line[PLACE_DIGITS + SPARE_DIGITS:]


def some_line(rng, lines):
    """One of the lines, often the first or the last, and where it is."""
    at = rng.choice([0, len(lines) - 1, rng.randrange(len(lines)), rng.randrange(len(lines))])
    return at, lines[at]


FAULTS = [a_length, a_length, a_character, carriage_return, an_empty_line, a_line_feed, a_blank_page, a_place, a_place,
          a_page_twice, a_page_twice, a_page_twice, a_faulty_page_twice]


def with_fault(rng, z, lines):
    """The lines, or one if there are none, with one fault."""
    lines = list(lines) or [any_line(rng, z)]
    rng.choice(FAULTS)(rng, z, lines)
    return lines


def with_faults(rng, z, lines):
    """One fault or several, in any order."""
    for _ in range(rng.choice([1, 1, 1, 2, 2, 3])):
        lines = with_fault(rng, z, lines)
    return lines
