"""Random changes of a state or of pages, most of them small."""

from inputs.calls import queued
from inputs.form import BLANK, QUEUES, SPARE
from inputs.images import EPOCH_END, LAST_EPOCH, entry_for, ledger_entry, spoiled, tear


def forge_state(rng, situation):
    """Changes one field of the state, or two."""
    for _ in range(rng.choice([1, 1, 2])):
        rng.choice(STATE_CHANGES)(rng, situation)


def forge_pages(rng, situation):
    """Changes one page or bucket, or several."""
    for _ in range(rng.choice([1, 1, 1, 2, 4])):
        rng.choice(PAGE_CHANGES)(rng, situation)
    recounted(rng, situation)


def recounted(rng, situation):
    """The kept counts follow the chip, most often: a wrong one is all that calls would tell of."""
    if rng.random() < 0.8:
        situation.recount()


# Changes of a state

def a_size(rng, situation):
    values = situation.state.values
    name, most = rng.choice([("S", 1024), ("P", 64), ("C", 256), ("B", 65535), ("R", 64), ("W", 64)])
    now = values[name]
    value = rng.choice([0, 1, max(now - 1, 0), now + 1, now + 1, max(now - 1, 0), most, most + 1])
    values[name] = min(value, 65535 if name in "SCB" else 255)


def a_limit(rng, situation):
    """R and W count for no length, so calls go on by them."""
    values = situation.state.values
    name = rng.choice("RW")
    values[name] = rng.choice([max(values[name] - 1, 0), values[name] + 1])


def running_mark(_, situation):
    situation.state.values["running"] ^= 1


def the_count(rng, situation):
    situation.state.values["count"] = rng.choice([0, 13, 14, 15, 15, 16, 255])


def the_epoch(rng, situation):
    highest = max(situation.epochs(), default=0)
    situation.state.values["epoch"] = rng.choice([
        0, 1, max(highest - 1, 0), highest, highest + 1, highest + 2, EPOCH_END + highest,
        EPOCH_END - 3, EPOCH_END - 2, EPOCH_END - 1, EPOCH_END, EPOCH_END + 1, 2 ** 64 - 1])


def an_entry(rng, situation):
    """One field of one entry."""
    z, entries = situation.sizes, situation.state.entries()
    if not entries:
        return
    entry = rng.choice(entries)
    name = rng.choice(list(entry))
    others = [other[name] for other in entries if name in other]
    values = {
        "back_end": [rng.randrange(z.B), z.B, 65535, min(entry[name] + 1, 65535)],
        "bucket": [rng.randrange(z.C), rng.choice(situation.ledger()), min(z.C, 255), 255, min(entry[name] + 1, 255)],
        "mark": [0, 1, 2, 255],
    }.get(name, [0, z.P - 1, z.P, z.P + 1, 255])
    entry[name] = rng.choice(others + values)


def a_record_mark(rng, situation):
    """Set or cleared, with a read bucket or without; now and then a byte that is no mark."""
    if situation.queue("writes"):
        entry = rng.choice(situation.queue("writes"))
        entry["mark"] = rng.choice([entry["mark"] ^ 1] * 6 + [2, 255])


def a_kept_count(rng, situation):
    """One too low or too high, the priority, the pages in use, a bound."""
    if situation.queue("writes"):
        entry, pages = rng.choice(situation.queue("writes")), situation.sizes.P
        now = entry["blank"]
        entry["blank"] = rng.choice([now - 1, now + 1, entry["priority"], pages - now, 0, pages, 255]) % 256


def swapped(rng, situation):
    queue = some_queue(rng, situation, 2)
    if queue:
        one, two = rng.sample(range(len(queue)), 2)
        queue[one], queue[two] = queue[two], queue[one]


def tied(rng, situation):
    """All priorities alike, so that epochs decide, in any order of arrival."""
    writes, same = situation.queue("writes"), rng.randint(0, situation.sizes.P)
    rng.shuffle(writes)
    for entry in writes:
        entry["priority"] = same


def doubled(rng, situation):
    queue = some_queue(rng, situation, 1)
    if queue:
        queue.insert(rng.randint(0, len(queue)), dict(rng.choice(queue)))


def removed(rng, situation):
    queue = some_queue(rng, situation, 1)
    if queue:
        queue.pop(rng.randrange(len(queue)))


def moved(rng, situation):
    """From one queue to another, by the chip's back-end bucket if it has one."""
    queue = some_queue(rng, situation, 1)
    if not queue:
        return
    entry = queue.pop(rng.randrange(len(queue)))
    to = rng.choice(list(QUEUES))
    on_chip = entry["bucket"] < situation.sizes.C and situation.first(entry["bucket"])
    back_end = on_chip["back_end"] if on_chip else rng.randrange(situation.sizes.B)
    new = entry_for(to, entry["bucket"], back_end, rng.randint(0, situation.sizes.P), rng.choice([0, 0, 1]))
    situation.queue(to).insert(rng.randint(0, len(situation.queue(to))), new)
    recounted(rng, situation)


def traded(rng, situation):
    """Two entries of any queues have each other's bucket."""
    entries = situation.state.entries()
    if len(entries) > 1:
        one, two = rng.sample(entries, 2)
        one["bucket"], two["bucket"] = two["bucket"], one["bucket"]
        recounted(rng, situation)


def some_queue(rng, situation, least):
    """A queue of at least so many entries that has room for one more."""
    queues = [entries for name, entries in situation.state.queues.items()
              if least <= len(entries) < QUEUES[name][1]]
    return rng.choice(queues) if queues else None


STATE_CHANGES = [a_size, a_limit, running_mark, the_count, the_epoch, the_epoch, an_entry, an_entry, an_entry,
                 a_record_mark, a_record_mark, a_kept_count, a_kept_count, swapped, swapped, tied, doubled, removed,
                 moved, moved, traded]


# Changes of pages

def a_field(rng, situation):
    """One field of one page."""
    place = some_page(rng, situation)
    if place:
        name, width = rng.choice(SPARE)
        situation.change(*place, **{name: near(rng, situation, place, name, width)})


def some_fields(rng, situation):
    for _ in range(rng.randint(2, 3)):
        a_field(rng, situation)


def a_bucket_field(rng, situation):
    """One field, alike in all pages of a bucket."""
    place = some_page(rng, situation)
    if place:
        name, width = rng.choice(SPARE)
        value = near(rng, situation, place, name, width)
        for page in situation.used(place[0]):
            situation.change(place[0], page, **{name: value})


def a_bucket_epoch(rng, situation):
    place = some_page(rng, situation)
    if place:
        epoch = rng.choice([0, 1, *situation.epochs(), LAST_EPOCH - 2, LAST_EPOCH - 1, LAST_EPOCH, LAST_EPOCH])
        for page in situation.used(place[0]):
            situation.change(place[0], page, epoch=epoch)


def a_byte(rng, situation):
    """Any byte of any page, blank ones too."""
    place = rng.choice(list(situation.pages))
    at = 2 * rng.randrange(16)
    spare = situation.pages[place][0]
    situation.put(*place, spare[:at] + f"{rng.randrange(256):02X}" + spare[at + 2:])


def some_data(rng, situation):
    """Data bytes that make no page less blank."""
    for place in rng.sample(list(situation.pages), min(4, len(situation.pages))):
        situation.pages[place] = (situation.pages[place][0], rng.randbytes(situation.sizes.S).hex().upper())


def blanked(rng, situation):
    place = some_page(rng, situation)
    if place:
        situation.put(*place, None)


def cut_short(rng, situation):
    """A bucket's last pages are blank."""
    place = some_page(rng, situation)
    if place:
        for page in range(place[1], situation.sizes.P):
            situation.put(place[0], page, None)


def copied(rng, situation):
    one, two = rng.choice(list(situation.pages)), rng.choice(list(situation.pages))
    situation.pages[one] = situation.pages[two]


def noted(rng, situation):
    """A page of the ledger, most often the one that comes next, has an entry for some bucket, most often of its epoch."""
    z, bucket = situation.sizes, rng.randrange(queued(situation.sizes))
    first = situation.first(bucket)
    epoch = first["epoch"] if first and rng.random() < 0.8 else rng.choice([0, 1, LAST_EPOCH])
    in_use = max(situation.ledger(), key=lambda c: len(situation.used(c)))
    page = min(len(situation.used(in_use)), z.P - 1)
    if rng.random() < 0.3:
        in_use, page = rng.choice(situation.ledger()), rng.randrange(z.P)
    situation.put(in_use, page, ledger_entry(bucket, epoch))
    return bucket


def torn(rng, situation):
    """A bucket whose erase was begun, and stopped halfway."""
    tear(rng, situation, noted(rng, situation))


def ledger_torn(rng, situation):
    tear(rng, situation, rng.choice(situation.ledger()))


def ledger_field(rng, situation):
    """One field of one entry."""
    if situation.entries():
        name, width = rng.choice(SPARE)
        place = rng.choice(situation.entries())
        situation.change(*place, **{name: near(rng, situation, place, name, width)})


def stopped(rng, situation):
    """A page whose program stopped halfway: any one, or the next of its bucket; like another page of it."""
    bucket, page = rng.choice(list(situation.pages))
    used = situation.used(bucket)
    if rng.random() < 0.5:
        page = min(len(used), situation.sizes.P - 1)
    like = situation.spare(bucket, rng.choice(used)) if used else None
    situation.put(bucket, page, spoiled(rng, like))


def spent(rng, situation):
    """Some buckets of which nothing but spoiled pages is left."""
    for bucket in rng.sample(range(situation.sizes.C), rng.randint(1, 3)):
        for page in situation.used(bucket) or [0]:
            situation.put(bucket, page, spoiled(rng, situation.spare(bucket, page)))


def some_page(rng, situation):
    """A page whose spare area has fields to change."""
    places = [place for place, (spare, _) in situation.pages.items() if spare != BLANK]
    return rng.choice(places) if places else None


def near(rng, situation, place, name, width):
    """A value for a field that is often near what it is or what it may be."""
    z, now = situation.sizes, situation.spare(*place)[name]
    other = situation.spare(*some_page(rng, situation))[name]
    value = rng.choice([now + 1, now - 1, 0, 1, other, other, rng.randrange(2 ** (8 * width)),
                        {"kind": 4, "back_end": rng.choice([z.B, queued(z)]), "pages": z.P, "ordinal": z.P}.get(name, z.P * z.S)])
    return value % 2 ** (8 * width)


PAGE_CHANGES = [a_field, a_field, some_fields, a_bucket_field, a_bucket_field, a_bucket_epoch, a_byte,
                some_data, blanked, cut_short, copied, noted, torn, torn, ledger_torn, ledger_field,
                stopped, stopped, stopped, spent]
