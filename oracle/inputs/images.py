"""Images made up by the page rules, and states that fit them."""

from inputs.calls import queued
from inputs.form import BLANK, QUEUES, SPARE, SPOILED, spare_text
from inputs.situation import formatted

READ, WRITE, DIRTY, ENTRY = 1, 2, 3, 4
LAST_EPOCH = 2 ** 32 - 1
EPOCH_END = LAST_EPOCH + 1


def log(kind, epoch, back_end, offset, length, pages):
    """The spare areas of a whole log."""
    return [{"kind": kind, "ordinal": ordinal, "pages": pages, "zero": 0, "epoch": epoch,
             "back_end": back_end, "zeros": 0, "offset": offset, "length": length - 1}
            for ordinal in range(pages)]


def copy_of(z, kind, epoch, back_end):
    return log(kind, epoch, back_end, 0, z.P * z.S, z.P)


def ledger_entry(bucket, epoch):
    """The spare area of an entry for a bucket."""
    spare, = log(ENTRY, epoch, bucket, 0, 1, 1)
    return spare


def spoiled(rng, like):
    """The spare area of a page whose program stopped halfway: like the page that it should be, or with any bytes."""
    other = {name: rng.randrange(2 ** (8 * width)) for name, width in SPARE}
    return {**rng.choice([like or other, other]), "kind": SPOILED}


def with_spoiled(rng, z, spares):
    """Pages of a bucket where a program stopped halfway: its log ends, and only another one goes on behind it."""
    at = rng.randint(0, len(spares))
    like = spares[min(at, len(spares) - 1)] if spares else None
    pages = [spoiled(rng, like) for _ in range(rng.choice([1, 1, 2, z.P]))]
    starts = [page for page in range(at, len(spares)) if spares[page]["ordinal"] == 0]
    return (spares[:at] + pages + spares[min(starts, default=len(spares)):])[:z.P]


def any_log(rng, z, epoch, back_end, pages):
    """A log of so many pages, anywhere in its back-end bucket."""
    length = rng.randint((pages - 1) * z.S + 1, pages * z.S)
    offset = rng.choice([0, z.P * z.S - length, rng.randint(0, z.P * z.S - length)])
    return log(WRITE, epoch, back_end, offset, length, pages)


def any_logs(rng, z, epoch, back_end):
    """Logs one after the other; some are abandoned, and the last one may lack pages."""
    spares, most = [], rng.randint(1, z.P)
    while len(spares) < most:
        pages = any_log(rng, z, epoch, back_end, rng.randint(1, z.P))
        spares += pages if rng.random() < 0.8 else pages[:rng.randint(1, len(pages))]
    return spares[:most]


def any_bucket(rng, z, epoch, back_end, writes):
    """The spare areas of a bucket's first pages; the others are blank."""
    if rng.random() < 0.25:
        return []
    if rng.random() < writes:
        return any_logs(rng, z, epoch, back_end)
    pages = copy_of(z, rng.choice([READ, DIRTY]), epoch, back_end)
    return pages if rng.random() < 0.75 else pages[:rng.randint(1, z.P)]


def fill(rng, situation, bucket, spares):
    """Puts pages with any data into a blank bucket."""
    for page, spare in enumerate(spares):
        situation.pages[bucket, page] = (spare_text(spare), rng.randbytes(situation.sizes.S).hex().upper())


def some_epochs(rng, count):
    """Different epochs, sometimes the last ones there are."""
    low = rng.choice([1, 1, 1, 250, EPOCH_END - 2 * count])
    return rng.sample(range(low, low + 2 * count), count)


def made_up(rng, z):
    """An image by the page rules with a state to it; of few back-end buckets, which meet often, or of many."""
    situation = formatted(z)
    back_ends = [rng.randrange(z.B) for _ in range(rng.choice([rng.randint(1, 4), z.C // 2, 2 * z.B]))]
    writes, stopped = rng.choice([0.3, 0.5, 0.8]), rng.choice([0, 0.1, 0.4])
    for bucket, epoch in enumerate(some_epochs(rng, queued(z))):
        spares = any_bucket(rng, z, epoch, rng.choice(back_ends), writes)
        fill(rng, situation, bucket, with_spoiled(rng, z, spares) if rng.random() < stopped else spares)
    any_ledger(rng, situation, rng.choice([0, 0, 0.3, 1]), stopped)
    if rng.random() < 0.5:
        odd_blanks(rng, situation)
    queue_up(rng, situation)
    situation.state.values.update(count=rng.choice([0, 14, 15, rng.randrange(16)]),
                                  epoch=next_epoch(rng, situation))
    return situation


def any_ledger(rng, situation, named, stopped):
    """Entries on the first pages of one ledger bucket; so many of them name a bucket by its epoch, and so many were
    programs that stopped halfway."""
    z, spares = situation.sizes, []
    for _ in range(rng.choice([0, z.P, rng.randint(0, z.P)])):
        bucket = rng.randrange(queued(z))
        first = situation.first(bucket)
        epoch = first["epoch"] if first else 0
        others = [other for other in (0, *situation.epochs()) if other != epoch]
        entry = ledger_entry(bucket, epoch if rng.random() < named else rng.choice(others or [0]))
        spares.append(spoiled(rng, entry) if rng.random() < stopped else entry)
    fill(rng, situation, rng.choice(situation.ledger()), spares)


def tear(rng, situation, bucket):
    """An erase of the bucket that stopped halfway: some of its pages are blank."""
    for page in situation.used(bucket):
        if rng.random() < 0.5:
            situation.pages[bucket, page] = (BLANK, "FF" * situation.sizes.S)


def tear_named(rng, situation):
    """Erases of the buckets that entries are for, and of the ledger, that stopped halfway."""
    buckets = {situation.spare(*place)["back_end"] for place in situation.entries()}
    for bucket in sorted(buckets) + rng.choice([[], [], list(situation.ledger())]):
        tear(rng, situation, bucket)


def odd_blanks(rng, situation):
    """Blank pages whose data bytes are not FF: only the spare area makes a page blank."""
    for place, (spare, _) in situation.pages.items():
        if spare == BLANK:
            situation.pages[place] = (BLANK, rng.randbytes(situation.sizes.S).hex().upper())


def next_epoch(rng, situation):
    lowest = max(situation.epochs(), default=0) + 1
    return rng.choice([lowest, min(lowest + rng.randint(0, 9), EPOCH_END),
                       max(lowest, EPOCH_END - rng.randint(0, 4))])


def queue_up(rng, situation):
    """Puts each bucket into a queue that it fits, in any order."""
    z, queues = situation.sizes, {name: [] for name in QUEUES}
    for bucket in rng.sample(range(queued(z)), queued(z)):
        queue, back_end = wanted_queue(situation, bucket)
        full = {"reads": z.R, "writes": z.W}.get(queue, z.C) == len(queues[queue])
        twice = any(entry.get("back_end", -1) == back_end for entry in queues[queue])
        if full or twice or rng.random() < 0.1:
            queue = "gc"
        queues[queue].append(entry_for(queue, bucket, back_end, rng.choice([0, 0, 1, rng.randint(0, z.P)])))
    situation.state.queues = queues
    situation.recount()
    mark_some(rng, situation)


def mark_some(rng, situation):
    """Marks some of the records that have a read bucket, whatever bytes there are in it."""
    copies = [entry["back_end"] for entry in situation.queue("reads")]
    for entry in situation.queue("writes"):
        entry["mark"] = int(entry["back_end"] in copies and rng.random() < 0.5)


def wanted_queue(situation, bucket):
    """The queue that a bucket belongs to by its pages, and its back-end bucket."""
    first = situation.first(bucket)
    if not first:
        return ("gc" if situation.used(bucket) else "free"), None
    if first["kind"] == WRITE:
        return "writes", first["back_end"]
    return ("reads" if len(situation.programmed(bucket)) == situation.sizes.P else "gc"), first["back_end"]


def entry_for(queue, bucket, back_end, priority, mark=0, blank=0):
    """An entry; a recount of its situation puts the blank pages right."""
    values = {"bucket": bucket, "back_end": back_end, "priority": priority, "mark": mark, "blank": blank}
    return {name: values[name] for name, _ in QUEUES[queue][2]}
