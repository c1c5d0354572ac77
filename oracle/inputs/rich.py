"""A made-up situation with something in every queue and every kind of bucket."""

from inputs.calls import Sizes, queued
from inputs.images import (DIRTY, EPOCH_END, READ, WRITE, any_ledger, any_log, any_logs, copy_of, entry_for, fill, log,
                           some_epochs, spoiled, with_spoiled)
from inputs.situation import formatted


def any_copy(rng, z, epoch, back_end):
    return copy_of(z, rng.choice([READ, DIRTY]), epoch, back_end)


def dirty_copy(_, z, epoch, back_end):
    return copy_of(z, DIRTY, epoch, back_end)


def part_of_copy(rng, z, epoch, back_end):
    return any_copy(rng, z, epoch, back_end)[:rng.randint(1, max(1, z.P - 1))]


def short_logs(rng, z, epoch, back_end):
    """A log in every page."""
    return [page for _ in range(z.P) for page in any_log(rng, z, epoch, back_end, 1)]


def long_log(_, z, epoch, back_end):
    """A log of two pages, if there are two."""
    pages = min(z.P, 2)
    return log(WRITE, epoch, back_end, 0, pages * z.S, pages)


def logs_and_spoiled(rng, z, epoch, back_end):
    """Logs behind a spoiled page, or with such pages between them, if there is room."""
    pages = any_logs(rng, z, epoch, back_end)
    stopped = with_spoiled(rng, z, pages)
    return stopped if any(page["kind"] == WRITE for page in stopped) else pages


def spoiled_pages(rng, z, epoch, back_end):
    """Like pages of a copy, and no programmed one."""
    return [spoiled(rng, page) for page in part_of_copy(rng, z, epoch, back_end)]


def no_pages(*_):
    return []


# The part that a bucket plays: its queue, which of four back-end buckets, its pages. Other buckets are free.
ROLES = {
    "copy": ("reads", 0, any_copy),
    "dirty": ("reads", 1, dirty_copy),
    "over copy": ("writes", 0, any_logs),
    "over disk": ("writes", 2, logs_and_spoiled),
    "second copy": ("gc", 0, any_copy),
    "second write": ("gc", 2, any_logs),
    "third copy": ("gc", 3, any_copy),
    "part of copy": ("gc", 3, part_of_copy),
    "short logs": ("gc", 3, short_logs),
    "long log": ("gc", 3, long_log),
    "spent": ("gc", 3, spoiled_pages),
    "blank": ("gc", 3, no_pages),
}


def rich_sizes(rng):
    return Sizes(rng.choice([4, 5, 8]), rng.choice([1, 2, 3, 3, 4, 4, 5, 6, 9, 10, 17]),
                 len(ROLES) + 2 + rng.randint(2, 5), rng.randint(6, 9), rng.randint(2, 4), rng.randint(2, 4))


class Rich:
    """The situation, and which bucket plays which part in it."""

    def __init__(self, rng, z):
        self.situation = formatted(z)
        self.buckets = dict(zip(ROLES, rng.sample(range(queued(z)), queued(z))))
        # Back-end bucket 0 stays out now and then: it is what a blank bucket may be taken for.
        self.back_ends = rng.sample(range(rng.choice([0, 1]), z.B), 4)
        for (role, (_, _, pages)), epoch in zip(ROLES.items(), some_epochs(rng, z.C)):
            fill(rng, self.situation, self.buckets[role], pages(rng, z, epoch, self.back_end(role)))
        any_ledger(rng, self.situation, 0, 0.2)
        self.queue_up(rng)

    def back_end(self, role):
        return self.back_ends[ROLES[role][1]]

    def queue_up(self, rng):
        z, state = self.situation.sizes, self.situation.state
        state.queues["free"] = [entry for entry in state.queues["free"]
                                if entry["bucket"] not in self.buckets.values()]
        for role, bucket in rng.sample(list(self.buckets.items()), len(self.buckets)):
            queue = ROLES[role][0]
            state.queues[queue].append(entry_for(queue, bucket, self.back_end(role), rng.randint(0, z.P)))
        self.situation.recount()
        lowest = max(self.situation.epochs()) + 1
        state.values.update(count=rng.randrange(16), epoch=min(lowest + rng.randint(0, 3), EPOCH_END))
