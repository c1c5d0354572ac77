"""Lines of the calls 01 to 06, which the driving program and the workbench share."""

import collections

FLASH_BYTES = 32768
DISK_BYTES = 16384
SPARE_BYTES = 16
PLENTY = 0xFFFF

Sizes = collections.namedtuple("Sizes", "S P C B R W")

# Sizes that fill the flash or the disk buffer to the last byte, or nearly.
FULL = [
    Sizes(16, 4, 256, 256, 64, 64), Sizes(48, 8, 64, 42, 20, 20), Sizes(48, 64, 8, 5, 2, 3),
    Sizes(240, 16, 8, 4, 3, 2), Sizes(496, 8, 8, 4, 1, 4), Sizes(1008, 4, 8, 4, 2, 3),
    Sizes(1024, 1, 31, 16, 10, 10), Sizes(4, 1, 256, 4096, 64, 64), Sizes(4, 6, 256, 682, 64, 64),
    Sizes(64, 64, 6, 4, 1, 2), Sizes(86, 64, 5, 2, 1, 1), Sizes(4, 64, 25, 64, 8, 8),
]


def queued(z):
    """How many cache buckets the queues hold: all but the last two, which are the erase ledger."""
    return z.C - 2


def within_limits(z):
    return (4 <= z.S <= 1024 and 1 <= z.P <= 64 and 3 <= z.C <= 256 and 1 <= z.B <= 65535
            and 1 <= z.R <= 64 and 1 <= z.W <= 64 and z.R + z.W + 3 <= z.C)


def fits(z):
    """Whether the sizes keep every limit and the program's buffers."""
    return (within_limits(z) and z.C * z.P * (z.S + SPARE_BYTES) <= FLASH_BYTES
            and z.B * z.P * z.S <= DISK_BYTES)


def fitting(sizes, rng, fit=fits):
    """Sizes that fit, from a maker of any."""
    z = sizes(rng)
    while not fit(z):
        z = sizes(rng)
    return z


class Kind:
    """What a kind of input is made of."""

    def __init__(self, sizes, weights, short, bad=0.0, reformat=0.01, brief=False, refresh=0.06):
        self.sizes = sizes        # rng -> Sizes
        self.weights = weights    # read, write, erase step, drain, recover
        self.short = short        # share of lines with a short allowance
        self.bad = bad            # share of bad lines
        self.reformat = reformat  # share of formats
        self.brief = brief        # whether logs are of a page or two
        self.refresh = refresh    # share of lines at which some hot buckets begin to be read in turn


def small_sizes(rng):
    r, w = rng.randint(1, 4), rng.randint(1, 4)
    return Sizes(rng.choice([4, 5, 7, 8, 16, 33]), rng.randint(1, 6), r + w + 2 + rng.randint(1, 6),
                 rng.randint(1, 12), r, w)


def tiny_sizes(rng):
    return Sizes(rng.choice([4, 4, 5]), rng.choice([1, 1, 2, 3]), rng.choice([5, 5, 6]),
                 rng.randint(1, 4), 1, rng.choice([1, 1, 2]))


def wide_sizes(rng):
    if rng.random() < 0.4:
        return rng.choice(FULL)
    s, p = rng.choice([4, 8, 32, 100, 255, 256, 512, 1000, 1024]), rng.choice([1, 2, 5, 16, 33, 63, 64])
    most_c = min(256, FLASH_BYTES // (p * (s + SPARE_BYTES)))
    most_b = min(65535, DISK_BYTES // (p * s))
    c = rng.randint(5, max(5, most_c))
    r = rng.randint(1, max(1, min(64, c - 4)))
    return Sizes(s, p, c, rng.randint(1, max(1, most_b)), r, rng.randint(1, max(1, min(64, c - r - 3))))


def queue_sizes(rng):
    w = rng.randint(3, 10)
    return Sizes(rng.choice([4, 8]), rng.randint(4, 16), w + 5 + rng.randint(1, 4),
                 rng.randint(w + 1, w + 8), rng.randint(1, 3), w)


def any_sizes(rng):
    return rng.choice([small_sizes, tiny_sizes, wide_sizes])(rng)


LISTS = {
    "cut": Kind(small_sizes, [6, 8, 2, 1, 1], 0.4),
    "calm": Kind(small_sizes, [8, 9, 2, 1, 0.3], 0.0),
    "tiny": Kind(tiny_sizes, [6, 8, 1, 1, 1], 0.25),
    "wide": Kind(wide_sizes, [6, 8, 1, 0.5, 0.5], 0.1, reformat=0.02),
    "recovery": Kind(small_sizes, [5, 9, 1, 0.5, 8], 0.35),
    # Many short logs, so that victims are chosen by priority after halvings.
    "queue": Kind(queue_sizes, [2, 16, 0.5, 0.05, 0.3], 0.01, reformat=0.005, brief=True),
}


class Calls:
    """Lists of calls, line by line."""

    def __init__(self, rng, kind, most_digits):
        self.rng = rng
        self.kind = kind
        self.most_data = most_digits // 2 - 7
        self.sizes = None     # of the last format that should be Done
        self.hot = []         # back-end buckets asked for often
        self.screen = []      # hot ones that are read next, as on a screen
        self.short = False    # whether the last allowance was short
        self.stopped = False  # whether the last short allowance may have cut

    def frame(self, op, allowance, fields):
        text = f"{op:02X}{allowance:04X}{fields}"
        return (text.lower() if self.rng.random() < 0.1 else text).encode()

    def format(self):
        rng = self.rng
        sizes = fitting(self.kind.sizes, rng)
        if self.sizes is not None and rng.random() < 0.3 * self.kind.short:
            # A cut format of other sizes leaves strange images to recover from.
            self.stopped = True
            return self.format_line(rng.randint(0, sizes.C - 1), sizes)
        self.sizes = sizes
        self.stopped = False
        self.screen = []
        self.hot = [rng.randrange(sizes.B) for _ in range(rng.choice([2, 3, sizes.R + sizes.W]))]
        return self.format_line(rng.choice([PLENTY, PLENTY, sizes.C]), sizes)

    def format_line(self, allowance, z):
        fields = f"{z.S:04X}{z.P:02X}{z.C:04X}{z.B:04X}{z.R:02X}{z.W:02X}"
        return self.frame(1, allowance, fields)

    def operation(self):
        rng = self.rng
        if self.kind.refresh and rng.random() < self.kind.refresh:
            self.screen = rng.choices(self.hot, k=rng.randint(2, 8)) if self.hot else []
        if self.stopped and rng.random() < 0.6:
            op = 6
        elif self.screen:
            op = 2
        else:
            op = rng.choices([2, 3, 4, 5, 6], self.kind.weights)[0]
        allowance = self.allowance(op)
        return self.frame(op, allowance, self.fields(op))

    def allowance(self, op):
        rng = self.rng
        pages = self.sizes.P if self.sizes else 2
        self.short = rng.random() < self.kind.short
        if self.short:
            self.stopped = True
            most = 2 * pages + 5 if op in (2, 3) else 2 if op == 4 else 3 * pages + 3
            return rng.randint(0, most)
        if op == 6:
            self.stopped = False
        return PLENTY if rng.random() < 0.9 else rng.randint(4 * pages + 4, PLENTY)

    def fields(self, op):
        if op not in (2, 3):
            return ""
        bucket, offset, length = self.part()
        if op == 2:
            return f"{bucket:04X}{offset:04X}{length:04X}"
        data = self.rng.randbytes(min(length, self.most_data))
        return f"{bucket:04X}{offset:04X}{data.hex().upper()}"

    def bucket(self, z):
        """The next of the screen; else a hot one or any."""
        rng = self.rng
        if self.screen:
            return self.screen.pop()
        hot = self.hot and not self.kind.brief and rng.random() < 0.7
        return rng.choice(self.hot) if hot else rng.randrange(z.B)

    def part(self):
        rng = self.rng
        z = self.sizes or Sizes(4, 2, 4, 2, 1, 1)
        bucket = self.bucket(z)
        whole = z.P * z.S
        offset = rng.choice([0, rng.randrange(whole), rng.randrange(z.P) * z.S])
        room = whole - offset
        lengths = [rng.randint(1, min(room, 2 * z.S)), min(room, z.S)]
        if not self.kind.brief:
            lengths += [rng.randint(1, room), room]
        length = rng.choice(lengths)
        if rng.random() < 0.03:
            bucket = rng.choice([z.B, z.B - 1, 0xFFFF, 0])
        if rng.random() < 0.04:
            offset, length = rng.choice([
                (offset, 0), (offset, room + 1), (whole, 1), (whole - 1, 1), (whole - 1, 2), (whole, 0),
                (0xFFFF, 1), (0, 0xFFFF), (0xFFFF, 0xFFFF), (0, whole), (1, whole)])
        return min(bucket, 0xFFFF), min(offset, 0xFFFF), min(length, 0xFFFF)
