"""The clauses of number 5: changes of a rich situation that make exactly one of them false, or just not.

Each takes the generator, the rich situation and the copy of it that is changed.
"""

from functools import partial

from inputs.calls import queued
from inputs.images import EPOCH_END, LAST_EPOCH, any_log, entry_for, ledger_entry, mark_some, spoiled
from inputs.rich import ROLES


class Impossible(Exception):
    """There is no such change at these sizes."""


def need(holds):
    if not holds:
        raise Impossible


def entry_of(rich, s, role):
    """The entry of a role's bucket."""
    queue = ROLES[role][0]
    return next(entry for entry in s.queue(queue) if entry["bucket"] == rich.buckets[role])


def moved(role, to, rng, rich, s):
    """A role's bucket in another queue, where there is room for it: no length depends on R and W."""
    s.queue(ROLES[role][0]).remove(entry_of(rich, s, role))
    s.queue(to).append(entry_for(to, rich.buckets[role], rich.back_end(role), rng.randint(0, s.sizes.P)))
    s.recount()
    values = s.state.values
    values["R"] = max(values["R"], len(s.queue("reads")))
    values["W"] = max(values["W"], len(s.queue("writes")))


def unused_epoch(s):
    """The highest below the highest that no bucket has."""
    epoch = next(epoch for epoch in range(max(s.epochs()), -1, -1) if epoch not in s.epochs())
    need(epoch > 0)
    return epoch


# Each cache bucket once

def missing(queue, rng, _, s):
    s.queue(queue).pop(rng.randrange(len(s.queue(queue))))


def read_twice(_, rich, s):
    """In the read queue and in GC, in place of another copy of the same back-end bucket."""
    entry_of(rich, s, "copy")["bucket"] = rich.buckets["second copy"]


def written_twice(_, rich, s):
    entry_of(rich, s, "over disk")["bucket"] = rich.buckets["second write"]
    s.recount()


def collected_twice(rng, rich, s):
    """In GC and in any queue, in place of the blank one."""
    others = [entry["bucket"] for entry in s.state.entries() if entry["bucket"] != rich.buckets["blank"]]
    entry_of(rich, s, "blank")["bucket"] = rng.choice(others)


def free_twice(rng, _, s):
    one, two = rng.sample(s.queue("free"), 2)
    one["bucket"] = two["bucket"]


def one_too_many(queue, rng, rich, s):
    """All there, and one more that is there already."""
    bucket = rng.choice(s.queue("free"))["bucket"] if queue == "free" else rng.choice(list(rich.buckets.values()))
    s.queue(queue).append({"bucket": bucket})


def beyond(rng, s):
    """A bucket of the ledger, or one that is not there: none that a queue may hold."""
    return rng.choice([*s.ledger(), *s.ledger(), s.sizes.C, 255])


def too_high(queue, rng, rich, s):
    """In place of one that must be there."""
    entry = rng.choice(s.queue("free")) if queue == "free" else entry_of(rich, s, "blank")
    entry["bucket"] = beyond(rng, s)


def one_more_too_high(queue, rng, _, s):
    s.queue(queue).append({"bucket": beyond(rng, s)})


def queued_too_high(queue, rng, _, s):
    rng.choice(s.queue(queue))["bucket"] = beyond(rng, s)


# A queue too long, a back-end bucket mapped twice

def limit(name, queue, less, _, __, s):
    """R or W is as many as there are, or less."""
    s.state.values[name] = len(s.queue(queue)) - less


def moved_too_many(role, to, name, rng, rich, s):
    moved(role, to, rng, rich, s)
    limit(name, to, 1, rng, rich, s)


# Entries and the spare fields

def other_back_end(queue, beyond, rng, _, s):
    mapped = [entry["back_end"] for entry in s.queue(queue)]
    others = [b for b in range(s.sizes.B) if b not in mapped]
    rng.choice(s.queue(queue))["back_end"] = rng.choice([s.sizes.B, 65535] if beyond else others)


def blank_queued(queue, rng, rich, s):
    mapped = [entry["back_end"] for entry in s.queue(queue)]
    moved("blank", queue, rng, rich, s)
    if 0 not in mapped:
        s.queue(queue)[-1]["back_end"] = 0


def incomplete(rng, rich, s):
    need(s.sizes.P > 1)
    moved("part of copy", "reads", rng, rich, s)


def last_page_blank(rng, rich, s):
    need(s.sizes.P > 1)
    s.put(rich.buckets[rng.choice(["copy", "dirty"])], s.sizes.P - 1, None)


def spoil(rng, s, bucket, page, **values):
    """A page is spoiled, like what it was or with any bytes; these are sure."""
    s.put(bucket, page, {**spoiled(rng, s.spare(bucket, page)), **values})


def spoiled_in_copy(rng, rich, s):
    """The last page of a queued copy, so that number 4 has nothing against it."""
    spoil(rng, s, rich.buckets[rng.choice(["copy", "dirty"])], s.sizes.P - 1)


def copy_behind_spoiled(rng, rich, s):
    """A queued copy begins behind a spoiled page; all pages are used, and its last one is not there."""
    bucket = rich.buckets[rng.choice(["copy", "dirty"])]
    for page in range(s.sizes.P - 1, 0, -1):
        s.pages[bucket, page] = s.pages[bucket, page - 1]
    spoil(rng, s, bucket, 0)


def spoiled_in_free(rng, _, s):
    spoil(rng, s, rng.choice(s.queue("free"))["bucket"], 0)


def spoiled_next(counted, rng, _, s):
    """The next page of a queued Write bucket is spoiled, which its count of blank pages tells or not."""
    roomy = [entry for entry in s.queue("writes") if entry["blank"]]
    need(roomy)
    bucket = rng.choice(roomy)["bucket"]
    spoil(rng, s, bucket, len(s.used(bucket)))
    if counted:
        s.recount()


def spoiled_epoch(rng, rich, s):
    """Spoiled pages have no epoch, whatever they look like."""
    spoil(rng, s, rich.buckets["blank"], 0, epoch=LAST_EPOCH)
    spoil(rng, s, *next_place(s), epoch=LAST_EPOCH)


def page_in_free(rng, rich, s):
    spare, = any_log(rng, s.sizes, unused_epoch(s), rich.back_ends[0], 1)
    s.put(rng.choice(s.queue("free"))["bucket"], 0, spare)


# Marks

def marked(role, _, rich, s):
    entry_of(rich, s, role)["mark"] = 1


def copy_not_queued(mark, rng, rich, s):
    """A copy is on the chip and not in the read queue."""
    entry_of(rich, s, "over copy")["mark"] = mark
    moved("copy", "gc", rng, rich, s)


# Kept blank pages

def kept(value, rng, _, s):
    """Another count in one record, marked or not, by P and the right one."""
    mark_some(rng, s)
    entry = rng.choice(s.queue("writes"))
    entry["blank"] = value(s.sizes.P, entry["blank"]) % 256


def kept_of_another(rng, _, s):
    one, two = rng.sample(s.queue("writes"), 2)
    one["blank"], two["blank"] = two["blank"], one["blank"]


def halved(names, _, __, s):
    """Half of the blank pages, as after a halving: in the priorities alone, which fits, or in the counts too."""
    for entry in s.queue("writes"):
        entry.update(dict.fromkeys(names, entry["blank"] // 2))


# Numbers

def priority(above, rng, _, s):
    rng.choice(s.queue("writes"))["priority"] = min(s.sizes.P + above, 255)


def count(value, _, __, s):
    s.state.values["count"] = value


def epoch(value, _, __, s):
    s.state.values["epoch"] = value


def epoch_above_highest(more, _, __, s):
    s.state.values["epoch"] = max(s.epochs()) + more


def next_epoch_present(rng, _, s):
    """A bucket of GC has the next epoch already."""
    need(s.state.values["epoch"] < EPOCH_END)
    bucket = rng.choice([entry["bucket"] for entry in s.queue("gc") if s.programmed(entry["bucket"])])
    for page in s.used(bucket):
        s.change(bucket, page, epoch=s.state.values["epoch"])


# The erase ledger

def next_place(s):
    """The ledger bucket in use and its first blank page; if it is full, its last one."""
    lower, upper = s.ledger()
    in_use = upper if s.used(upper) else lower
    return in_use, min(len(s.used(in_use)), s.sizes.P - 1)


def entry_epoch(less, rng, _, s):
    """An entry of an epoch that is the next one, or less."""
    epoch = s.state.values["epoch"] - less
    need(0 < epoch < EPOCH_END)
    s.put(*next_place(s), ledger_entry(rng.randrange(queued(s.sizes)), epoch))


def two_in_use(stopped, rng, _, s):
    """By entries, or by programs of entries that stopped halfway."""
    for bucket in s.ledger():
        s.put(bucket, 0, ledger_entry(rng.randrange(queued(s.sizes)), 0))
        if stopped:
            spoil(rng, s, bucket, 0)


def other_in_use(_, __, s):
    """The two have each other's pages."""
    lower, upper = s.ledger()
    for page in range(s.sizes.P):
        s.pages[lower, page], s.pages[upper, page] = s.pages[upper, page], s.pages[lower, page]


def unchanged(*_):
    pass


CLAUSES = [
    *(partial(missing, queue) for queue in ("reads", "writes", "gc", "free")),
    read_twice, written_twice, collected_twice, free_twice,
    *(partial(change, queue) for change in (one_too_many, too_high, one_more_too_high) for queue in ("gc", "free")),
    *(partial(queued_too_high, queue) for queue in ("reads", "writes")),
    *(partial(limit, name, queue, less) for name, queue in (("R", "reads"), ("W", "writes")) for less in (0, 1)),
    partial(moved_too_many, "third copy", "reads", "R"), partial(moved_too_many, "long log", "writes", "W"),
    # These fit, so that a fault is not in the move itself.
    partial(moved, "third copy", "reads"), partial(moved, "long log", "writes"), partial(moved, "blank", "free"),
    # Mapped twice
    partial(moved, "second copy", "reads"), partial(moved, "second write", "writes"),
    # Of another kind
    partial(moved, "short logs", "reads"), partial(moved, "third copy", "writes"),
    partial(moved, "part of copy", "writes"),
    *(partial(other_back_end, queue, beyond) for queue in ("reads", "writes") for beyond in (False, True)),
    *(partial(blank_queued, queue) for queue in ("reads", "writes")),
    *(partial(moved, "spent", queue) for queue in ("reads", "writes", "free")),
    incomplete, last_page_blank, page_in_free,
    spoiled_in_copy, copy_behind_spoiled, spoiled_in_free, spoiled_epoch,
    *(partial(spoiled_next, counted) for counted in (False, True)),
    *(partial(moved, role, "free") for role in ("third copy", "short logs", "part of copy")),
    *(partial(marked, role) for role in ("over copy", "over disk")),
    *(partial(copy_not_queued, mark) for mark in (0, 1)),
    *(partial(kept, value) for value in (
        lambda pages, blank: blank - 1, lambda pages, blank: blank + 1, lambda pages, blank: pages - blank,
        lambda pages, _: 0, lambda pages, _: pages, lambda pages, _: 255)),
    kept_of_another, partial(halved, ["priority"]), partial(halved, ["priority", "blank"]),
    *(partial(priority, value) for value in (0, 1, 255)),
    *(partial(count, value) for value in (15, 16, 255)),
    *(partial(epoch, value) for value in (0, EPOCH_END, EPOCH_END + 1, 2 ** 63, 2 ** 64 - 1)),
    *(partial(epoch_above_highest, more) for more in (0, 1, EPOCH_END + 1)),
    next_epoch_present, *(partial(entry_epoch, less) for less in (0, 1)),
    *(partial(two_in_use, stopped) for stopped in (False, True)), other_in_use, unchanged,
]
