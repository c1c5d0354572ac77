"""Lines of the workbench that try a situation: calls, page looks, texts, lines that show something."""

from inputs.calls import PLENTY
from inputs.form import number
from inputs.image_text import any_line
from inputs.situation import format_line, show_page

# The four that need a running state, those that look at the chip, page look and texts, and all that are lent something.
RUNNING = (0x02, 0x03, 0x04, 0x05)
ON_CHIP = RUNNING + (0x06,)
BESIDES = (0x16, 0x30, 0x31)
LENDING = (0x01,) + ON_CHIP + BESIDES
MOST_TEXT = 131072


def call(op, allowance, rest=""):
    return f"{op:02X}{allowance:04X}{rest}"


def read(back_end, offset, length, allowance=PLENTY):
    return call(0x02, allowance, f"{back_end:04X}{offset:04X}{length:04X}")


def write(back_end, offset, data, allowance=PLENTY):
    return call(0x03, allowance, f"{back_end:04X}{offset:04X}{data.hex().upper()}")


def page_look(bucket, page):
    return f"16{bucket:04X}{page:02X}"


def write_text(room=MOST_TEXT):
    return "30" + number(room, 4)


def read_text(text):
    return "31" + text.encode("latin-1").hex().upper()


def show_unit(back_end, unit):
    return f"15{back_end:04X}{unit:02X}"


def put_unit(rng, z, back_end, unit):
    return f"14{back_end:04X}{unit:02X}{rng.randbytes(z.S).hex().upper()}"


def some_units(rng, z):
    """Bytes on a few units of the disk."""
    return [put_unit(rng, z, rng.randrange(z.B), rng.randrange(z.P)) for _ in range(rng.randint(0, 4))]


def lend_less(data, spare, disk):
    return "17" + number(data, 2) + number(spare, 2) + number(disk, 2)


def good_call(rng, z, op, allowance, wanted=()):
    """A call with fields that are never refused, often of a back-end bucket that is wanted. A text is refused, by its
    last line: the chip stays."""
    if op == 0x01:
        return format_line(z, allowance)
    if op in BESIDES:
        return {0x16: page_look(rng.randrange(z.C), rng.randrange(z.P)), 0x30: write_text(),
                0x31: read_text(any_line(rng, z) + "\n\n")}[op]
    if op not in (0x02, 0x03):
        return call(op, allowance)
    back_end = rng.choice(wanted) if wanted and rng.random() < 0.5 else rng.randrange(z.B)
    offset = rng.randrange(z.P * z.S)
    length = rng.randint(1, min(z.P * z.S - offset, rng.choice([1, z.S, z.P * z.S])))
    if op == 0x02:
        return read(back_end, offset, length, allowance)
    return write(back_end, offset, rng.randbytes(length), allowance)


def show_something(rng, z):
    """The state, the chip, or a page or unit; now and then one that is not there."""
    bucket, back_end, page = rng.randrange(z.C), rng.randrange(z.B), rng.randrange(z.P)
    if rng.random() < 0.05:
        bucket, back_end = rng.choice([(z.C, z.B), (0xFFFF, 0xFFFF)])
    if rng.random() < 0.05:
        page = rng.choice([z.P, 255])
    return rng.choice(["11", "11", show_page(bucket, page), show_unit(back_end, page), page_look(bucket, page),
                       write_text()])


def show_all(z):
    """Everything that calls leave, on a small chip."""
    return (["11"] + [show_page(bucket, page) for bucket in range(z.C) for page in range(z.P)]
            + [show_unit(back_end, unit) for back_end in range(z.B) for unit in range(z.P)])


def refused(rng, z, ops):
    """All of some calls in any order, or one of them, with no store allowed."""
    chosen = rng.sample(ops, len(ops)) if rng.random() < 0.4 else rng.sample(ops, 1)
    return [good_call(rng, z, op, 0) for op in chosen]
