"""States and chips with something changed, and the calls that are tried on them."""

from inputs.calls import PLENTY, Sizes, fitting, small_sizes, tiny_sizes
from inputs.forge import forge_pages, forge_state, tied
from inputs.images import any_logs, fill, made_up, odd_blanks, queue_up, some_epochs, tear_named
from inputs.lists import honest_situation, recovery
from inputs.probes import (BESIDES, ON_CHIP, RUNNING, call, good_call, page_look, show_all, show_something, some_units,
                           write)
from inputs.rich import any_copy, rich_sizes
from inputs.situation import format_line, formatted, show_page


def changed(rng, before, situation, change, ops):
    """Changes put there in turn, tried by calls without a store and taken back; at last one that calls go on from."""
    lines = list(before)
    for _ in range(rng.randint(3, 8)):
        forged = situation.copy()
        change(rng, forged)
        lines += situation.lines_to(forged) + tries(rng, forged, ops) + forged.lines_to(situation)
    forged = situation.copy()
    change(rng, forged)
    lines += situation.lines_to(forged) + any_calls(rng, situation.sizes, forged.written())
    return lines + ["10" + situation.state.text()] + any_calls(rng, situation.sizes, situation.written())


def tries(rng, forged, ops):
    """Calls with no store allowed; a cut one stops the state, which is then put there again."""
    lines = []
    for op in rng.sample(ops, rng.randint(1, len(ops))):
        lines.append(good_call(rng, forged.sizes, op, 0, forged.written()))
        lines += rng.choice([[], ["11"], ["10" + forged.state.text()]])
    return lines


def any_calls(rng, z, wanted=()):
    """Calls, many of back-end buckets that are wanted, with plenty or few stores allowed; what they leave shown, and
    a recovery."""
    lines = []
    for _ in range(rng.randint(2, 12)):
        op = rng.choice([*RUNNING, 0x02, 0x03, 0x03, 0x06, 0x16])
        allowance = rng.choice([PLENTY, PLENTY, PLENTY, rng.randint(0, 2 * z.P + 5)])
        lines.append(good_call(rng, z, op, allowance, wanted))
        if rng.random() < 0.3:
            lines.append(show_something(rng, z))
    return lines + (recovery(rng, z) if rng.random() < 0.5 else ["11"])


def log_by_count(rng, rich):
    """A log that fits the kept blank pages and not the priority; they are shown, and put back."""
    forged, z = rich.situation.copy(), rich.situation.sizes
    roomy = [entry for entry in forged.queue("writes") if entry["blank"]]
    if not roomy:
        return []
    entry = rng.choice(roomy)
    pages = rng.randint(1, entry["blank"])
    entry["priority"] = rng.randrange(pages)
    lines = rich.situation.lines_to(forged) + [write(entry["back_end"], 0, rng.randbytes(pages * z.S)), "11"]
    places = [(entry["bucket"], page) for page in range(z.P - entry["blank"], z.P)]
    # Whatever the log left there is not what is put back.
    forged.pages.update(dict.fromkeys(places))
    return lines + [show_page(*place) for place in places] + forged.lines_to(rich.situation)


def state(rng, ask):
    if rng.random() < 0.1:
        return other_sizes(rng)
    before, situation = honest_situation(rng, ask)
    return changed(rng, before, situation, forge_state, ON_CHIP + BESIDES)


def other_sizes(rng):
    """A state of other sizes with the same lengths: calls go by it, but recovery and lines 12 to 15 do not."""
    times, r, w = rng.choice([2, 3]), rng.randint(1, 2), rng.randint(1, 2)
    few = Sizes(4, rng.randint(1, 3), r + w + 2 + rng.randint(1, 3), rng.randint(1, 4), r, w)
    many = few._replace(P=few.P * times)
    few = few._replace(C=few.C * times, B=few.B * times)
    one, other = rng.sample([few, many], 2)
    lines = [format_line(one), "10" + formatted(other).state.text()]
    looks = [page_look(rng.randrange(max(few.C, many.C)), rng.randrange(max(few.P, many.P))) for _ in range(4)]
    return lines + any_calls(rng, other) + looks + any_calls(rng, one)


def chip(rng, ask):
    if rng.random() < 0.5:
        return made_up_chip(rng) if rng.random() < 0.8 else victims(rng)
    before, situation = honest_situation(rng, ask)
    return changed(rng, before, situation, forge_pages, ON_CHIP)


def crowded_sizes(rng):
    """Queues of the most entries there may be, and more buckets than they hold."""
    return Sizes(4, rng.choice([1, 2]), rng.randint(131, 200), rng.randint(60, 200), 64, 64)


def made_up_chip(rng):
    """An image made up by the page rules: recovered, called with a state to it, or changed."""
    sizes = rng.choice([small_sizes] * 9 + [tiny_sizes] * 5 + [rich_sizes] * 5 + [crowded_sizes])
    # A short queue makes recovery drop some of what is on the chip.
    z = fitting(sizes, rng)._replace(**rng.choice([{}, {"R": 1}, {"W": 1}]))
    situation = made_up(rng, z)
    before = [format_line(z), *some_units(rng, z), *formatted(z).lines_to(situation)]
    all_shown = show_all(z) if (z.C + z.B) * z.P <= 60 else []
    what = rng.choice(["recovered", "called", "changed"])
    if what == "recovered":
        found = situation.copy()
        tear_named(rng, found)
        swept = swept_in_turn(found) if rng.random() < 0.5 else []
        return before + situation.lines_to(found) + swept + recovery(rng, z) + all_shown + any_calls(rng, z)
    if what == "called":
        return before + any_calls(rng, z, situation.written()) + all_shown
    return changed(rng, before, situation, forge_pages, ON_CHIP)


def swept_in_turn(found):
    """The recovery of one image again and again, cut before each of its erases in turn."""
    z, lines, lost = found.sizes, [], found.copy()
    buckets = sorted({found.spare(*place)["back_end"] for place in found.entries()} | set(found.ledger()))
    lost.pages.update(dict.fromkeys((bucket, page) for bucket in buckets for page in range(z.P)))
    for allowance in range(len(buckets)):
        lines.append(call(0x06, allowance))
        lines += [show_page(bucket, page) for bucket in buckets for page in found.used(bucket)[-1:]]
        lines += lost.lines_to(found)
    return lines


def victims(rng):
    """A full write queue in any order, all priorities alike, some of it marked, and writes for which one after the
    other goes."""
    z = Sizes(4, rng.randint(1, 3), rng.randint(10, 12), 9, 2, rng.randint(2, 4))
    situation, back_ends = formatted(z), rng.sample(range(z.B), z.B)
    for bucket, epoch in enumerate(some_epochs(rng, z.W + z.R)):
        pages = (any_logs(rng, z, epoch, back_ends[bucket]) if bucket < z.W
                 else any_copy(rng, z, epoch, back_ends[bucket - z.W]))
        fill(rng, situation, bucket, pages)
    odd_blanks(rng, situation)
    queue_up(rng, situation)
    tied(rng, situation)
    # A halving on the way keeps the marks.
    situation.state.values.update(count=rng.choice([0, 13, 14, 15]), epoch=max(situation.epochs()) + 1)
    lines = [format_line(z), *formatted(z).lines_to(situation)]
    for back_end in back_ends[z.W:]:
        lines += [write(back_end, 0, rng.randbytes(rng.randint(1, z.P * z.S))), "11"]
    return lines + show_all(z)
