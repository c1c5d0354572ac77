"""Honest lists: calls from a Done format, with any fields and allowances."""

from inputs.calls import LISTS, PLENTY, Calls, Kind, small_sizes, tiny_sizes
from inputs.language import MOST_DIGITS
from inputs.probes import call, show_something, show_unit, some_units
from inputs.situation import shown
from inputs.tears import torn

# Lists whose state is worth a change: something is in every queue.
BUSY = Kind(small_sizes, [5, 9, 1, 0.2, 0.2], 0.0)
SMALL = Kind(tiny_sizes, [5, 9, 1, 0.5, 0.2], 0.0)


def texts(lines):
    return [line.decode("latin-1") for line in lines]


def honest(rng, ask):
    return cut_in_turn(rng, ask) if rng.random() < 0.3 else honest_list(rng, ask)


def honest_list(rng, ask):
    kind = rng.choices(list(LISTS.values()), [3 if kind.short > 0.2 else 1 for kind in LISTS.values()])[0]
    calls = Calls(rng, kind, MOST_DIGITS)
    lines = texts([calls.format()]) + some_units(rng, calls.sizes)
    for _ in range(rng.randint(20, 80)):
        # A format that was cut is none that a list goes on from, whatever it erased.
        if rng.random() < 0.02:
            lines += texts([calls.format()])
        else:
            lines += texts([calls.operation()])
            if calls.short:
                lines += torn(rng, ask, calls.sizes, lines)
        if rng.random() < 0.3:
            lines.append(show_something(rng, calls.sizes))
    return lines


def cut_in_turn(rng, ask):
    """One call from the same situation again and again, cut before each of its stores in turn."""
    calls = Calls(rng, SMALL, MOST_DIGITS)
    before = texts([calls.format()] + [calls.operation() for _ in range(rng.randint(3, 15))])
    z, op = calls.sizes, rng.choice([0x02, 0x03, 0x03, 0x04, 0x05, 0x06])
    fields, lines = calls.fields(op), []
    for allowance in range(2 * z.P + 7):
        turn = before + [call(op, allowance, fields)]
        turn += torn(rng, ask, z, turn) + ["11"]
        for cut in some_cuts(rng, z):
            turn.append(cut)
            turn += torn(rng, ask, z, turn)
        # A drain lays on the disk what reads would give.
        lines += turn + [call(0x06, PLENTY), "11"] + rng.choice([[], [call(0x05, PLENTY)]])
        lines += [show_unit(back_end, rng.randrange(z.P)) for back_end in range(z.B)]
    return lines


def recovery(rng, z):
    """A recovery that may be cut some times before it is done."""
    return some_cuts(rng, z) + [call(0x06, PLENTY), "11"]


def some_cuts(rng, z):
    return [call(0x06, rng.randint(0, 2 * z.P + 3)) for _ in range(rng.choice([0, 0, 1, 2]))]


def honest_situation(rng, ask):
    """The lines of a list that was not cut, and what they leave."""
    calls = Calls(rng, rng.choice([BUSY, BUSY, SMALL]), MOST_DIGITS)
    lines = texts([calls.format()] + [calls.operation() for _ in range(rng.randint(5, 40))])
    return lines, shown(ask, calls.sizes, lines)
