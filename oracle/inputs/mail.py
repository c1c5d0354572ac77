"""Chip images by mail: texts of the chip at hand written and read, whole or in part, with faults, lent less, and by
states that are not its own."""

from inputs.calls import Sizes, fitting, small_sizes, tiny_sizes
from inputs.changed import any_calls
from inputs.forge import forge_state
from inputs.image_text import image_lines, line_length, rearranged, text_of, with_faults
from inputs.images import made_up
from inputs.language import MOST_DIGITS, WIDE
from inputs.lists import honest_situation, recovery
from inputs.probes import MOST_TEXT, lend_less, read_text, show_something, write_text
from inputs.situation import format_line, formatted, shown


def mail(rng, ask):
    """Steps from what a list left or from an image made up; after each the program is asked what is on the chip."""
    lines, situation = rng.choice([honest_situation, made_up_situation])(rng, ask)
    for _ in range(rng.randint(5, 12)):
        lines += rng.choice(STEPS)(rng, situation)
        situation = shown(ask, situation.sizes, lines)
    return lines


def made_up_situation(rng, _):
    sizes = rng.choice([small_sizes, tiny_sizes, tiny_sizes, lambda _: WIDE])
    situation = made_up(rng, fitting(sizes, rng))
    return [format_line(situation.sizes), *formatted(situation.sizes).lines_to(situation)], situation


def written(rng, situation):
    """Into buffers that are just long enough, too short or of any other length."""
    whole = len(image_lines(situation.pages)) * line_length(situation.sizes)
    rooms = [whole, whole - 1, whole + 1, 0, 1, rng.randint(0, whole), MOST_TEXT]
    return [write_text(max(room, 0)) for room in rng.sample(rooms, 3)]


def returned(rng, situation):
    """Read again, whole or in part; what is on the chip then is shown."""
    return [letter(rng, situation.sizes, image_lines(situation.pages)), write_text(),
            show_something(rng, situation.sizes)]


def refused(rng, situation):
    """Read with faults; the chip stays."""
    return [faulty_letter(rng, situation.sizes, image_lines(situation.pages)), write_text()]


def lent_less(rng, situation):
    """Lent not all of chip and disk, once."""
    less = lend_less(*rng.choice([(1, 0, 0), (0, 1, 0), (0, 0, 1), (1, 1, 1), (65535, 0, 0), (0, 65535, 0)]))
    return [less, *any_letters(rng, situation.sizes, image_lines(situation.pages))]


def by_forged_state(rng, situation):
    forged = situation.copy()
    forge_state(rng, forged)
    return [*situation.lines_to(forged), *any_letters(rng, situation.sizes, image_lines(situation.pages)),
            *forged.lines_to(situation)]


def by_other_buckets(rng, situation):
    """The state has as many pages, in more or fewer buckets; texts go by it."""
    z, other = situation.sizes, situation.copy()
    pages = z.C * z.P
    bucket_pages = rng.choice([count for count in range(1, 65) if pages % count == 0 and pages // count <= 256])
    other.state.values.update(P=bucket_pages, C=pages // bucket_pages)
    lines = image_lines({divmod(bucket * z.P + page, bucket_pages): content
                         for (bucket, page), content in situation.pages.items()})
    return [*situation.lines_to(other), *any_letters(rng, sizes_of(other.state), lines), *other.lines_to(situation)]


def sizes_of(state):
    return Sizes(*(state.values[name] for name in Sizes._fields))


def called(rng, situation):
    """Calls go on, or a recovery takes what was read."""
    before = rng.choice([[], recovery(rng, situation.sizes)])
    return before + any_calls(rng, situation.sizes, situation.written())


STEPS = [written, written, returned, returned, returned, refused, refused, refused, lent_less, by_forged_state,
         by_other_buckets, called]


def any_letters(rng, z, lines):
    """Texts written and read, two or three times."""
    return [rng.choice([write_text(), write_text(rng.choice([0, len(lines) * line_length(z)])), letter(rng, z, lines),
                        faulty_letter(rng, z, lines)]) for _ in range(rng.randint(2, 3))]


def letter(rng, z, lines):
    """A line that reads a text of these lines, of all if they fit."""
    return read_text(text_of(rng, rearranged(rng, some_of(rng, z, lines))))


def faulty_letter(rng, z, lines):
    return read_text(text_of(rng, with_faults(rng, z, rearranged(rng, some_of(rng, z, lines)))))


def some_of(rng, z, lines):
    """As many of the lines as a line of the workbench holds, or fewer."""
    most = min((MOST_DIGITS // 2 - 1) // line_length(z), len(lines))
    return rng.sample(lines, rng.choice([most, most, rng.randint(0, most)]))
