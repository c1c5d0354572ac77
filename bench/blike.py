"""B_like, the baseline of source document 003, as a model that counts stores.

003, section V: data is managed in buckets and cached in them as logs, whatever
back-end bucket they are of; an index in memory finds the logs; garbage
collection removes invalid logs; buckets are evicted by LRU. Section III: the
updates of the index are journaled on the chip, and below all this a firmware
maps pages and collects garbage of its own, with over-provisioned space.
"""

import collections


class Firmware:
    """A page-mapped chip: logical pages in, programs and erases out."""

    def __init__(self, blocks, pages):
        self.pages = pages
        self.block_of = {}                           # logical page -> block
        self.valid = [set() for _ in range(blocks)]  # logical pages that a block holds
        self.free = collections.deque(range(1, blocks))
        self.open = 0
        self.used = 0                                # pages programmed in the open block
        self.programs = self.erases = 0

    def program(self, page):
        while self.used == self.pages:
            self.advance()
        self.place(page)

    def place(self, page):
        if page in self.block_of:
            self.valid[self.block_of[page]].discard(page)
        self.block_of[page] = self.open
        self.valid[self.open].add(page)
        self.used += 1
        self.programs += 1

    def advance(self):
        """Opens an erased block. The last one is kept to collect garbage into."""
        full = [block for block in range(len(self.valid)) if block not in self.free]
        self.open, self.used = self.free.popleft(), 0
        if not self.free:
            victim = min(full, key=lambda block: len(self.valid[block]))
            for page in sorted(self.valid[victim]):
                self.place(page)
            self.free.append(victim)
            self.erases += 1


class BLike:
    """The cache: logs of one page, in buckets of logical pages."""

    JOURNAL = 2  # buckets written round and round

    def __init__(self, blocks, pages, spare_blocks, requests_per_journal_page):
        self.pages = pages
        self.firmware = Firmware(blocks, pages)
        self.batch = requests_per_journal_page
        self.pending = 0                             # requests not in the journal yet
        self.journal_page = 0
        self.bucket_of = {}                          # disk unit -> bucket: the index
        self.logs = {}                               # bucket -> {disk unit: whether dirty}
        self.free = collections.deque(range(self.JOURNAL, blocks - spare_blocks))
        self.recent = collections.OrderedDict()      # full buckets, least recently used first
        self.open_bucket(self.free.popleft())
        self.units = self.runs = 0                   # disk units written, and runs of them

    def write(self, units):
        for unit in units:
            self.append(unit, True)
        self.log_keys()

    def read(self, units):
        missing = [unit for unit in units if unit not in self.bucket_of]
        for unit in units:
            if self.bucket_of.get(unit) in self.recent:
                self.recent.move_to_end(self.bucket_of[unit])
        for unit in missing:
            self.append(unit, False)
        if missing:
            self.log_keys()

    def log_keys(self):
        """A request is confirmed once its keys are in the journal, or, in a batch, before."""
        self.pending += 1
        if self.pending == self.batch:
            self.pending = 0
            self.firmware.program(self.journal_page)
            self.journal_page = (self.journal_page + 1) % (self.JOURNAL * self.pages)

    def append(self, unit, dirty):
        if self.used == self.pages:
            self.recent[self.open] = True
            self.make_room()
        if unit in self.bucket_of:
            self.logs[self.bucket_of[unit]].pop(unit)
        self.bucket_of[unit] = self.open
        self.logs[self.open][unit] = dirty
        self.firmware.program(self.open * self.pages + self.used)
        self.used += 1

    def open_bucket(self, bucket):
        self.open, self.used = bucket, 0
        self.logs[bucket] = {}

    def make_room(self):
        """A free bucket, or one that is mostly invalid, or the least recently used."""
        if self.free:
            self.open_bucket(self.free.popleft())
            return
        emptiest = min(self.recent, key=lambda bucket: len(self.logs[bucket]))
        if 4 * len(self.logs[emptiest]) <= self.pages:
            self.collect(emptiest)
        else:
            self.evict(next(iter(self.recent)))

    def take_out(self, bucket):
        """The valid logs of a bucket, which is opened again."""
        logs = self.logs[bucket]
        for unit in logs:
            del self.bucket_of[unit]
        del self.recent[bucket]
        self.open_bucket(bucket)
        return logs

    def collect(self, bucket):
        """Garbage collection: the few valid logs move on."""
        for unit, dirty in self.take_out(bucket).items():
            self.append(unit, dirty)

    def evict(self, bucket):
        """Dirty logs go to the disk in rising order."""
        dirty = sorted(unit for unit, is_dirty in self.take_out(bucket).items() if is_dirty)
        self.units += len(dirty)
        self.runs += sum(1 for i, unit in enumerate(dirty) if i == 0 or dirty[i - 1] + 1 != unit)

    def counts(self):
        """Erases, programs, disk units and disk runs so far."""
        return self.firmware.erases, self.firmware.programs, self.units, self.runs
