"""The rules of number 4: changes of a rich situation that break exactly one of them, or just not.

Each takes the generator, the rich situation and the copy of it that is changed.
"""

from functools import partial

from inputs.calls import queued
from inputs.form import BLANK, SPOILED, spare_text
from inputs.images import DIRTY, EPOCH_END, LAST_EPOCH, READ, WRITE, any_log, ledger_entry, log, spoiled
from inputs.state_clauses import need, next_place, spoil, unused_epoch

WRITTEN = ["second copy", "second write", "third copy", "part of copy", "short logs", "long log"]


def every_page(values, rng, rich, s):
    """The same in all pages of a bucket."""
    bucket = rich.buckets[rng.choice(WRITTEN)]
    for page in s.used(bucket):
        s.change(bucket, page, **values(s))


def later_page(values, rng, rich, s):
    """In a page with a log of its own, not the first of its bucket."""
    need(s.sizes.P > 1)
    s.change(rich.buckets["short logs"], rng.randrange(1, s.sizes.P), **values(s))


def short_log(values, rng, rich, s):
    """In a log of one page, wherever it is."""
    page = rng.randrange(s.sizes.P)
    bucket = rich.buckets["short logs"]
    s.change(bucket, page, **values(s, s.spare(bucket, page)["length"] + 1))


def second_page(values, _, rich, s):
    """In the second page of a long log."""
    need(s.sizes.P > 1)
    s.change(rich.buckets["long log"], 1, **values(s))


def one_bit(role, place, rng, rich, s):
    """In one byte of a page that is not the first of its bucket."""
    bucket = rich.buckets[role]
    need(len(s.used(bucket)) > 1)
    page = rng.choice(s.used(bucket)[1:])
    spare = bytearray.fromhex(s.pages[bucket, page][0])
    spare[place] ^= 1 << rng.randrange(8)
    s.put(bucket, page, spare.hex().upper())


def copied(values, rng, rich, s):
    """The same in all pages of a copy."""
    bucket = rich.buckets[rng.choice(["second copy", "third copy", "part of copy"])]
    for page in s.used(bucket):
        s.change(bucket, page, **values(s))


def page_of_copy(values, rng, rich, s):
    """In one page of a copy, not the first."""
    need(s.sizes.P > 1)
    s.change(rich.buckets["second copy"], rng.randrange(1, s.sizes.P), **values(s))


# Blank pages

def blank_before(first, rng, rich, s):
    need(s.sizes.P > (1 if first else 2))
    s.put(rich.buckets["short logs"], 0 if first else rng.randrange(1, s.sizes.P - 1), None)


def page_after_blank(rng, rich, s):
    """A log of its own behind the blank page with which its bucket begins or goes on."""
    need(s.sizes.P > 2)
    bucket = rich.buckets[rng.choice(["blank", "long log"])]
    first = len(s.used(bucket)) + 1
    epoch = s.spare(bucket, 0)["epoch"] if first > 1 else unused_epoch(s)
    need(first < s.sizes.P)
    spare, = any_log(rng, s.sizes, epoch, rich.back_end("blank"), 1)
    s.put(bucket, rng.randrange(first, s.sizes.P), spare)


def odd_byte(place, rng, rich, s):
    """A blank page but for one byte."""
    bucket = rng.choice([rich.buckets["blank"], rich.buckets["long log"], s.queue("free")[0]["bucket"]])
    pages = [page for page in range(s.sizes.P) if s.pages[bucket, page][0] == BLANK]
    need(pages)
    byte = rng.choice([0, 1, 2, 3, 0x7F, 0xFE])
    s.put(bucket, rng.choice(pages), BLANK[:2 * place] + f"{byte:02X}" + BLANK[2 * place + 2:])


def data_of_blank(rng, rich, s):
    """Data bytes of a blank page are no matter."""
    place = rich.buckets["blank"], rng.randrange(s.sizes.P)
    s.pages[place] = (BLANK, rng.randbytes(s.sizes.S).hex().upper())


# Logs

def pages_of_long_log(spares, rich, s):
    for page, spare in enumerate(spares):
        s.put(rich.buckets["long log"], page, spare)


def long_log_from(rich, s, pages):
    """A log of so many whole pages in the place of the long log."""
    need(s.sizes.P >= pages)
    spare = s.spare(rich.buckets["long log"], 0)
    return log(WRITE, spare["epoch"], spare["back_end"], 0, pages * s.sizes.S, pages)


def begins_late(_, rich, s):
    """The first page is not the first of its log."""
    _, second = long_log_from(rich, s, 2)
    pages_of_long_log([second, None], rich, s)


def skips(_, rich, s):
    first, _, third = long_log_from(rich, s, 3)
    pages_of_long_log([first, third], rich, s)


def goes_on_too_long(_, rich, s):
    need(s.sizes.P > 2)
    first, second = long_log_from(rich, s, 2)
    pages_of_long_log([first, second, {**second, "ordinal": 2}], rich, s)


def repeats(_, rich, s):
    need(s.sizes.P > 2)
    first, second = long_log_from(rich, s, 2)
    pages_of_long_log([first, second, second], rich, s)


def changes_on_the_way(_, rich, s):
    """The second page is that of a longer log."""
    first, _ = long_log_from(rich, s, 2)
    pages_of_long_log([first, long_log_from(rich, s, 3)[1]], rich, s)


def abandoned(_, rich, s):
    """Well formed: a second log begins where the first lacks a page."""
    first, _ = long_log_from(rich, s, 2)
    pages_of_long_log([first, first], rich, s)


def begins_anew(rng, rich, s):
    """A copy with a second ordinal 0."""
    need(s.sizes.P > 1)
    bucket, start = rich.buckets["second copy"], rng.randrange(1, s.sizes.P)
    for page in range(start, s.sizes.P):
        s.change(bucket, page, ordinal=page - start)


def kind_changes(rng, rich, s):
    need(s.sizes.P > 1)
    s.change(rich.buckets["second copy"], rng.randrange(1, s.sizes.P),
             kind=READ + DIRTY - s.spare(rich.buckets["second copy"], 0)["kind"])


# Epochs

def shared_epoch(rng, rich, s):
    one, two = rng.sample(WRITTEN + ["copy", "over disk"], 2)
    epoch = s.first(rich.buckets[one])["epoch"]
    for page in s.used(rich.buckets[two]):
        s.change(rich.buckets[two], page, epoch=epoch)


def last_epoch(rng, rich, s):
    """The last epoch there is; only one next epoch is above it."""
    need(LAST_EPOCH not in s.epochs())
    every_page(lambda _: {"epoch": LAST_EPOCH}, rng, rich, s)
    s.state.values["epoch"] = EPOCH_END


# Spoiled pages

def spoiled_short_log(rng, rich, s):
    """Well formed: what is behind it begins a log."""
    spoil(rng, s, rich.buckets["short logs"], rng.randrange(s.sizes.P))


def spoiled_page(role, rng, rich, s):
    """Well formed if it is the last one in use: else its log goes on behind it."""
    bucket = rich.buckets[role]
    spoil(rng, s, bucket, rng.choice(s.used(bucket)))


def behind_spoiled(ordinals, rng, rich, s):
    """Pages of a log by their ordinals, and spoiled ones among them that may look like its others."""
    need(s.sizes.P >= len(ordinals))
    pages = long_log_from(rich, s, 3 if 2 in ordinals else 2)
    pages_of_long_log([spoiled(rng, pages[min(place, len(pages) - 1)]) if ordinal is None else pages[ordinal]
                       for place, ordinal in enumerate(ordinals)], rich, s)


def copy_behind(anew, rng, rich, s):
    """A copy behind a spoiled page, which fits; and one that begins again there."""
    need(s.sizes.P > (2 if anew else 1))
    bucket = rich.buckets["second copy"]
    at = rng.randrange(1, s.sizes.P - 1) if anew else 0
    for page in range(at + 1, s.sizes.P):
        s.change(bucket, page, ordinal=page - at - 1)
    spoil(rng, s, bucket, at)


def only_spoiled(rng, rich, s):
    for page in range(rng.randint(1, s.sizes.P)):
        spoil(rng, s, rich.buckets["blank"], page)


def spoiled_after_blank(rng, rich, s):
    bucket = rich.buckets[rng.choice(["blank", "long log"])]
    first = len(s.used(bucket)) + 1
    need(first < s.sizes.P)
    spoil(rng, s, bucket, rng.randrange(first, s.sizes.P))


def spoiled_shared(field, rng, rich, s):
    """Well formed: a spoiled page looks as if it had the epoch of another bucket, or not the fields of its own."""
    value = s.first(rich.buckets[rng.choice(WRITTEN)])[field]
    spoil(rng, s, rich.buckets[rng.choice(["blank", "short logs"])], 0, **{field: value})


# The erase ledger

def entry(values, rng, _, s):
    """In an entry that is there, or in the next one."""
    place = rng.choice(s.entries() + [next_place(s)])
    s.put(*place, {**(s.spare(*place) or ledger_entry(rng.randrange(queued(s.sizes)), 0)), **values(s)})


def entry_bit(place, rng, _, s):
    at = next_place(s)
    spare = bytearray.fromhex(spare_text(ledger_entry(rng.randrange(queued(s.sizes)), 0)))
    spare[place] ^= 1 << rng.randrange(8)
    s.put(*at, spare.hex().upper())


def entry_elsewhere(rng, rich, s):
    """State 4 outside the ledger."""
    bucket = rng.choice([rich.buckets["blank"], rich.buckets["long log"], s.queue("free")[0]["bucket"]])
    s.put(bucket, min(len(s.used(bucket)), s.sizes.P - 1), ledger_entry(rng.randrange(queued(s.sizes)), unused_epoch(s)))


def log_in_ledger(rng, rich, s):
    spare, = any_log(rng, s.sizes, unused_epoch(s), rich.back_ends[0], 1)
    s.put(*next_place(s), spare)


def hole_in_ledger(rng, _, s):
    """Recovery takes it."""
    need(s.sizes.P > 1)
    bucket, page = rng.choice(s.ledger()), rng.randrange(1, s.sizes.P)
    s.put(bucket, page - 1, None)
    s.put(bucket, page, ledger_entry(rng.randrange(queued(s.sizes)), 0))


def spoiled_entry(rng, _, s):
    """Well formed, whatever entry it looks like."""
    back_end = rng.choice([*range(s.sizes.C), 65535])
    spoil(rng, s, *next_place(s), ordinal=0, pages=1, back_end=back_end, epoch=LAST_EPOCH)


def spoiled_after_hole(rng, _, s):
    """Recovery takes it."""
    need(s.sizes.P > 1)
    bucket, page = rng.choice(s.ledger()), rng.randrange(1, s.sizes.P)
    s.put(bucket, page - 1, None)
    spoil(rng, s, bucket, page)


def named_by_spoiled(_, rich, s):
    """A bucket with a hole, and only a spoiled page that looks like its entry."""
    need(s.sizes.P > 1)
    bucket = rich.buckets["short logs"]
    s.put(*next_place(s), {**ledger_entry(bucket, s.first(bucket)["epoch"]), "kind": SPOILED})
    s.put(bucket, 0, None)


def named_with_spoiled(rng, rich, s):
    """A bucket with a hole and its entry, and a spoiled page that looks like one of another epoch."""
    need(s.sizes.P > 1)
    bucket = rich.buckets["short logs"]
    (hole, page), own = rng.sample(range(s.sizes.P), 2), s.first(bucket)["epoch"]
    spoil(rng, s, bucket, page, epoch=own ^ 256)
    s.put(bucket, hole, None)
    s.put(*next_place(s), ledger_entry(bucket, own))


def named(clause, rng, rich, s):
    """The same in a bucket that an entry names: recovery takes holes and any ordinals, and nothing else."""
    clause(rng, rich, s)
    changed = {place[0] for place, page in s.pages.items() if page != rich.situation.pages[place]}
    for bucket in sorted(changed):
        pages = s.programmed(bucket) or s.used(bucket)
        epoch = s.spare(bucket, rng.choice(pages))["epoch"] if pages else 0
        s.put(*next_place(s), ledger_entry(bucket, epoch))


def named_by_others(rng, rich, s):
    """Entries for a bucket with a hole, of epochs that are not its own."""
    need(s.sizes.P > 1)
    bucket = rich.buckets["short logs"]
    own = s.spare(bucket, 0)["epoch"]
    s.put(bucket, 0, None)
    s.put(*next_place(s), ledger_entry(bucket, rng.choice([0, own - 1, own ^ 256])))


def whole(s):
    return s.sizes.P * s.sizes.S


BY_BUCKET = [
    partial(blank_before, True), partial(blank_before, False), page_after_blank, data_of_blank,
    *(partial(odd_byte, place) for place in range(16)),
    *(partial(every_page, lambda s, kind=kind: {"kind": kind}) for kind in (0, 4, 255)),
    partial(every_page, lambda s: {"epoch": 0}),
    partial(every_page, lambda s: {"back_end": s.sizes.B - 1}),
    partial(every_page, lambda s: {"back_end": s.sizes.B}),
    partial(every_page, lambda s: {"back_end": 65535}),
    *(partial(every_page, lambda s, name=name, value=value: {name: value})
      for name, value in (("zero", 1), ("zero", 128), ("zeros", 1), ("zeros", 256))),
    *(partial(one_bit, role, place) for role in ("short logs", "long log", "second copy") for place in range(16)),
    *(partial(later_page, lambda s, kind=kind: {"kind": kind}) for kind in (READ, DIRTY)),
    partial(later_page, lambda s: {"epoch": unused_epoch(s)}),
    partial(later_page, lambda s: {"back_end": s.sizes.B - 1}),
    kind_changes,
    # The page count fits the length
    *(partial(short_log, lambda s, length, pages=pages: {"pages": pages}) for pages in (0, 2, 255)),
    partial(short_log, lambda s, length: {"offset": 0, "length": s.sizes.S - 1, "pages": 2}),
    partial(short_log, lambda s, length: {"offset": 0, "length": s.sizes.S}),
    partial(short_log, lambda s, length: {"offset": 0, "length": s.sizes.S, "pages": 2}),
    # Offset + length
    partial(short_log, lambda s, length: {"offset": whole(s) - length}),
    partial(short_log, lambda s, length: {"offset": whole(s) - length + 1}),
    partial(short_log, lambda s, length: {"offset": 65535}),
    partial(short_log, lambda s, length: {"offset": 65536 - length}),
    partial(short_log, lambda s, length: {"ordinal": 1}),
    # A page that goes on with the one before
    partial(second_page, lambda s: {"offset": 1, "length": 2 * s.sizes.S - 2}),
    partial(second_page, lambda s: {"length": 2 * s.sizes.S - 2}),
    begins_late, skips, goes_on_too_long, repeats, changes_on_the_way, abandoned,
    # Copies
    partial(copied, lambda s: {"offset": 1, "length": whole(s) - 2}),
    partial(copied, lambda s: {"length": whole(s) - 2}),
    partial(page_of_copy, lambda s: {"offset": 1, "length": whole(s) - 2}),
    partial(page_of_copy, lambda s: {"length": whole(s) - 2}),
    begins_anew,
    shared_epoch, shared_epoch, last_epoch,
    # Spoiled pages
    spoiled_short_log, spoiled_short_log, only_spoiled, spoiled_after_blank,
    *(partial(spoiled_page, role) for role in ("long log", "second copy", "part of copy")),
    *(partial(behind_spoiled, ordinals) for ordinals in (
        [None, 0], [None, 1], [0, None], [0, None, 0], [0, None, 1], [0, None, 2], [None, None, 0], [0, 1, None],
        [0, 0, None], [None, 0, 1])),
    *(partial(copy_behind, anew) for anew in (False, True)),
    *(partial(spoiled_shared, field) for field in ("epoch", "back_end")),
]
LEDGER = [
    *(partial(entry_bit, place) for place in range(16)),
    *(partial(entry, lambda s, value=value: {"back_end": queued(s.sizes) + value}) for value in (-1, 0, 1, 2)),
    partial(entry, lambda s: {"back_end": 65535}),
    partial(entry, lambda s: {"epoch": LAST_EPOCH}),
    *(partial(entry, lambda s, kind=kind: {"kind": kind}) for kind in (0, READ, WRITE, DIRTY, 5, 255)),
    entry_elsewhere, log_in_ledger, hole_in_ledger, hole_in_ledger, named_by_others,
    spoiled_entry, spoiled_after_hole, named_by_spoiled, named_with_spoiled, named_with_spoiled,
]
CLAUSES = BY_BUCKET + LEDGER + [partial(named, clause) for clause in BY_BUCKET]
