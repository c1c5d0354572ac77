"""Random inputs for the workbench.

Where an honest state or chip is to be changed, it is taken from a program that is asked for it.
"""

import random
from functools import partial

from inputs import page_clauses, refusals, state_clauses
from inputs.changed import chip, log_by_count, state
from inputs.driving import KINDS as DRIVING_KINDS
from inputs.driving import Script
from inputs.language import BOUNDS, MOST_DIGITS, before_format, full_text, long_line
from inputs.lists import honest, texts
from inputs.mail import mail
from inputs.probes import ON_CHIP, RUNNING, page_look, refused
from inputs.rich import Rich, rich_sizes
from inputs.situation import format_line, formatted
from inputs.state_clauses import Impossible


def broken(clause, ops, rng, rich):
    """Puts what one clause turns down, tries it and takes it back."""
    forged = rich.situation.copy()
    try:
        clause(rng, rich, forged)
    except Impossible:
        return []
    return rich.situation.lines_to(forged) + refused(rng, forged.sizes, ops) + forged.lines_to(rich.situation)


CLAUSES = [*(partial(broken, clause, RUNNING) for clause in state_clauses.CLAUSES),
           *(partial(broken, clause, ON_CHIP) for clause in page_clauses.CLAUSES),
           *refusals.LENGTHS, *[refusals.by_epochs] * 3, *[refusals.by_lengths] * 3, *[log_by_count] * 3]
REFUSALS = [*[refusals.several] * 60, *refusals.LIMITS, *[refusals.about_buffers] * 10,
            *[refusals.by_epochs] * 5, *[refusals.by_lengths] * 20]


def rich_list(rng, probes):
    """All of the probes, in any order, from one rich situation."""
    rich = Rich(rng, rich_sizes(rng))
    z = rich.situation.sizes
    lines = [format_line(z), *on_blank_chip(rng, z), *formatted(z).lines_to(rich.situation)]
    for probe in rng.sample(probes, len(probes)):
        lines += probe(rng, rich)
    return lines


def on_blank_chip(rng, z):
    """The lowest next epochs, where there is none on the chip."""
    fresh, lines = formatted(z), []
    for epoch in (0, 1):
        fresh.state.values["epoch"] = epoch
        lines += fresh.lines_to(fresh) + refused(rng, z, RUNNING)
    return lines


def clauses(rng, _):
    return rich_list(rng, CLAUSES)


def refusals_at_once(rng, _):
    script = Script(rng, DRIVING_KINDS["bad"], MOST_DIGITS)
    return rich_list(rng, REFUSALS) + texts(script.line() for _ in range(60))


def bounds(rng, _):
    """Bounds of the language; what they left is often put right before the next."""
    rich = Rich(rng, rich_sizes(rng))
    back = "10" + rich.situation.state.text()
    lines = [format_line(rich.situation.sizes), *formatted(rich.situation.sizes).lines_to(rich.situation)]
    for _ in range(100):
        lines += rng.choice(BOUNDS)(rng, rich) + rng.choice([[], [back]])
    # A line 17 may be left, which counts for no format.
    return lines + [page_look(0, 0)] + long_line(rng) + full_text(rng)


KINDS = {"honest": honest, "state": state, "chip": chip, "mail": mail, "clauses": clauses,
         "refusals": refusals_at_once, "language": bounds}


def joined(lines):
    return b"".join(line.encode("latin-1") + b"\n" for line in lines)


def make_input(ask, seed, kind, index, lines):
    """An input of so many lines; `ask` runs lines and gives their answers."""
    rng = random.Random(f"{seed} {kind} {index}")
    made = []
    if kind in ("refusals", "language"):
        made += before_format(rng, Rich(rng, rich_sizes(rng)))
    while len(made) < lines:
        made += KINDS[kind](rng, ask)
    text = joined(any_case(rng, line) for line in made[:lines])
    # The last line may lack its line feed, unless it has nothing else.
    return text[:-1] if rng.random() < 0.3 and not text.endswith(b"\n\n") else text


def any_case(rng, line):
    """The line with its letters as they are, or with some of them small."""
    small = rng.randint(0, len(line)) if rng.random() < 0.05 else 0
    return line[:small].lower() + line[small:]
