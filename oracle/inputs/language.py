"""Lines about every bound of the workbench's language itself."""

from inputs.calls import PLENTY, Sizes
from inputs.form import BLANK, OTHERS, QUEUES
from inputs.image_text import image_lines, line_for, line_length, rearranged
from inputs.images import entry_for
from inputs.probes import (LENDING, MOST_TEXT, call, good_call, lend_less, page_look, put_unit, read, read_text,
                           show_unit, write, write_text)
from inputs.situation import format_line, show_page

MOST_DIGITS = 8192
OPERATIONS = (*range(0x01, 0x07), *range(0x10, 0x18), 0x30, 0x31)
# Bytes of any number are a text, and may blank the chip.
OF_A_LENGTH = OPERATIONS[:-1]
# A bucket of these holds the data of the longest line.
WIDE = Sizes(1024, 4, 5, 2, 1, 1)
# The text of all pages of these is as long as a line holds.
FULL_TEXT = Sizes(12, 5, 13, 2, 3, 4)


def good_line(rng, rich, op):
    """A line of each operation, with no store allowed."""
    z, state = rich.situation.sizes, rich.situation.state
    bucket, back_end, page = rng.randrange(z.C), rng.randrange(z.B), rng.randrange(z.P)
    if op in LENDING:
        return good_call(rng, z, op, 0)
    return {
        0x10: "10" + state.text(), 0x11: "11",
        0x12: f"12{bucket:04X}{page:02X}" + "".join(rich.situation.pages[bucket, page]),
        0x13: show_page(bucket, page), 0x14: put_unit(rng, z, back_end, page), 0x15: show_unit(back_end, page),
        0x17: lend_less(0, 0, 0),
    }[op]


def wrong_length(rng, rich):
    """A byte or a digit too few or too many, somewhere or at the end."""
    line = good_line(rng, rich, rng.choice(OF_A_LENGTH))
    place = rng.choice([len(line), 2, 2 * rng.randint(0, len(line) // 2)])
    return [rng.choice([line[:-2], line[:-2], line + "00", line + "FF", line[:-1], line + "0",
                        line[:place] + "00" + line[place:], line[:place], ""])]


def wrong_character(rng, rich):
    line = good_line(rng, rich, rng.choice(OPERATIONS))
    place = rng.choice([0, 1, len(line) - 1, rng.randrange(len(line))])
    return [line[:place] + rng.choice(OTHERS) + line[place + rng.choice([0, 1, 1, 1]):]]


def any_operation(rng, rich):
    """Any first byte, with fields that are another's."""
    line = good_line(rng, rich, rng.choice(OPERATIONS))
    op = rng.choice([0x00, 0x07, 0x08, 0x0F, 0x18, 0x1F, 0x20, 0x21, 0x22, 0x23, 0x24, 0x2F, 0x32, 0xFF,
                     rng.randrange(256)])
    return [f"{op:02X}" + rng.choice(["", "FFFF", line[2:]])]


def long_line(rng):
    """Lines of about the most digits, where a write of as many bytes fits and where nothing does."""
    digits = MOST_DIGITS + rng.choice([-2, -1, 0, 0, 1, 2, 3, 20000])
    op = rng.choice([0x03, 0x03, 0x10, 0x12, 0x11, 0x31])
    return [format_line(WIDE), (f"{op:02X}FFFF00010000" + rng.choice(["A5", "5a", "00"]) * digits)[:digits],
            read(1, 0, 4096), "11"]


def full_text(rng):
    """A text of the most digits, or with a line feed too few or too many, and buffers for it."""
    lines = [line_for(rng, FULL_TEXT, place) for place in range(FULL_TEXT.C * FULL_TEXT.P)]
    text = "".join(line + "\n" for line in rearranged(rng, lines))
    return [format_line(FULL_TEXT), read_text(rng.choice([text, text, text[:-1], text + "\n"])),
            *(write_text(len(text) + more) for more in (-1, 0, 1))]


def rooms(rng, rich):
    """Buffers for a text at their bounds, and numbers of other widths."""
    whole = len(image_lines(rich.situation.pages)) * line_length(rich.situation.sizes)
    line = write_text(rng.choice([0, 1, whole - 1, whole, whole + 1, 65535, 65536, MOST_TEXT, MOST_TEXT + 1,
                                  2 ** 32 - 1]))
    return [rng.choice([line, line, line, line, line[:-2], line + "00", "30"])]


def counts(rng, rich):
    """Queues at their bounds, and counts that are not those of the entries."""
    state = rich.situation.state.copy()
    queue = rng.choice(list(QUEUES))
    _, most, table = QUEUES[queue]
    length = rng.choice([0, most - 1, most, most, most + 1, most + 1, most + 40])
    state.queues[queue] = [entry_for(queue, n % 256, rng.randrange(65536), rng.randrange(256), rng.choice([0, 1]),
                                     rng.randrange(256))
                           for n in range(length)]
    line = "10" + state.text()
    if rng.random() < 0.2:
        size = 2 * sum(width for _, width in table)
        line = rng.choice([line[:-size], line + "00" * (size // 2), line[:-2]])
    return [line, "11", good_call(rng, rich.situation.sizes, 0x04, 0)]


def marks(rng, rich):
    """The running mark, or that of a record of few or of as many as there may be."""
    state = rich.situation.state.copy()
    writes = state.queues["writes"] * rng.choice([1, 1, 32])
    state.queues["writes"] = writes = [dict(entry) for entry in writes]
    fields, name = rng.choice([(state.values, "running"), (writes[-1], "mark"), (rng.choice(writes), "mark")])
    fields[name] = rng.choice([0, 1, 2, 3, 16, 254, 255])
    return ["10" + state.text(), "11", good_call(rng, rich.situation.sizes, 0x04, 0)]


def any_values(rng, rich):
    """A state of any numbers."""
    state = rich.situation.state.copy()
    for name in rng.sample("SPCBRW", 3):
        state.values[name] = rng.choice([0, 1, 255])
    state.values.update(count=rng.randrange(256), epoch=rng.randrange(2 ** 64))
    return ["10" + state.text(), "11", good_call(rng, rich.situation.sizes, rng.choice(LENDING), 0), "11"]


def places(rng, rich):
    """Pages and units that are just there or just not, shown and put."""
    z = rich.situation.sizes
    bucket, page = rng.choice([z.C - 1, z.C, 256, 65535]), rng.choice([z.P - 1, z.P - 1, z.P, 255])
    back_end = rng.choice([z.B - 1, z.B, 256, 65535])
    new = f"{bucket:04X}{page:02X}{BLANK}" + rng.randbytes(z.S).hex()
    return rng.choice([
        [show_page(bucket, page), page_look(bucket, page)],
        [show_unit(back_end, page), put_unit(rng, z, back_end, page), show_unit(back_end, page)],
        ["12" + new, show_page(bucket, page), show_page(0, 0), last_page_back(rich)]])


def last_page_back(rich):
    """The last page as it was."""
    bucket, page = rich.situation.sizes.C - 1, rich.situation.sizes.P - 1
    return f"12{bucket:04X}{page:02X}" + "".join(rich.situation.pages[bucket, page])


def lent_less_once(rng, rich):
    """How long a line 17 lasts: what leaves it, what takes its place, what uses it up."""
    z = rich.situation.sizes
    between = rng.choice([
        [], ["11"], [show_page(0, 0)], [show_unit(0, 0)], ["17"], ["05"], ["0500"], ["1600000"], ["30"], ["FF"], [""],
        ["10" + rich.situation.state.text()], [lend_less(0, 0, 0)], [lend_less(0, 1, 0)], [page_look(0, 0)],
        [page_look(z.C, 0)], [write_text(0)], [write_text(MOST_TEXT + 1)], [read_text("\n")],
        [format_line(z._replace(P=0))], [format_line(z._replace(S=1024, P=64, C=256))],
        [format_line(z, 0)], [call(0x06, 0)], [read(z.B, 0, 1)], [write(0, 0, b"")], [last_page_back(rich)]])
    calls = [good_call(rng, z, rng.choice(LENDING), 0) for _ in range(2)]
    return [lend_less(*rng.choice([(1, 0, 0), (0, 1, 0), (0, 0, 1), (1, 1, 1)])), *between, *calls]


BOUNDS = [wrong_length, wrong_length, wrong_character, any_operation, rooms, counts, counts, marks, any_values, places,
          places, lent_less_once, lent_less_once]


def before_format(rng, rich):
    """Lines of all operations before the first Done format; there S is 0."""
    z = rich.situation.sizes
    lines = [good_line(rng, rich, op) for op in OPERATIONS]
    lines += [f"120000{page:02X}{BLANK}" for page in (0, 255)] + ["14000000", "14FFFFFF", "1400000000"]
    lines += [format_line(z, z.C - 1), format_line(z._replace(P=0)), format_line(z._replace(S=1024, P=64, C=256)),
              *wrong_length(rng, rich), *wrong_character(rng, rich), call(0x06, PLENTY)]
    # A line 17 that is turned down so does not count for the format that follows.
    return rng.sample(lines, rng.randint(1, len(lines))) + rng.choice([[], [lend_less(1, 1, 1)]])
