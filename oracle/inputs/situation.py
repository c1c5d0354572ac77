"""What a state and a chip hold together, and the lines that put it there."""

from inputs.calls import PLENTY, queued
from inputs.form import BLANK, SIZES, SPARE_DIGITS, SPOILED, State, fields, parse_spare, spare_text


def format_line(z, allowance=PLENTY):
    return f"01{allowance:04X}" + fields(z._asdict(), SIZES)


def show_page(bucket, page):
    return f"13{bucket:04X}{page:02X}"


class Situation:
    """A state, and for each page of the chip its spare and data bytes as digits."""

    def __init__(self, sizes, state, pages):
        self.sizes = sizes  # of the format, whatever the state says
        self.state = state
        self.pages = pages  # (bucket, page) -> (spare, data)

    def copy(self):
        return Situation(self.sizes, self.state.copy(), dict(self.pages))

    def queue(self, name):
        return self.state.queues[name]

    def spare(self, bucket, page):
        return parse_spare(self.pages[bucket, page][0])

    def put(self, bucket, page, spare):
        """Changes a page's spare bytes, given as fields or as digits."""
        text = spare if isinstance(spare, str) else spare_text(spare)
        self.pages[bucket, page] = (text, self.pages[bucket, page][1])

    def change(self, bucket, page, **values):
        self.put(bucket, page, {**self.spare(bucket, page), **values})

    def used(self, bucket):
        """The pages of a bucket that are not blank."""
        return [page for page in range(self.sizes.P) if self.pages[bucket, page][0] != BLANK]

    def programmed(self, bucket):
        """The pages of a bucket that are neither blank nor spoiled."""
        return [page for page in self.used(bucket) if self.spare(bucket, page)["kind"] != SPOILED]

    def first(self, bucket):
        """The fields of the first programmed page, if there is one."""
        return next((self.spare(bucket, page) for page in self.programmed(bucket)), None)

    def recount(self):
        """Each record of the write queue keeps the count of blank pages that its bucket has, if that is there."""
        for entry in self.queue("writes"):
            if entry["bucket"] < self.sizes.C:
                entry["blank"] = self.sizes.P - len(self.used(entry["bucket"]))

    def epochs(self):
        """The epochs on the chip, those of the ledger's entries too."""
        firsts = [self.first(bucket) for bucket in range(queued(self.sizes))]
        entries = [self.spare(*place) for place in self.entries()]
        return [spare["epoch"] for spare in firsts + entries if spare]

    def entries(self):
        """The programmed pages of the erase ledger."""
        return [(bucket, page) for bucket in self.ledger() for page in self.programmed(bucket)]

    def ledger(self):
        return range(queued(self.sizes), self.sizes.C)

    def written(self):
        """The back-end buckets in the write queue that are there."""
        return [entry["back_end"] for entry in self.queue("writes") if entry["back_end"] < self.sizes.B]

    def lines_to(self, other):
        """The lines that turn this situation, or what refused calls left of it, into another."""
        pages = [f"12{bucket:04X}{page:02X}{spare}{data}"
                 for (bucket, page), (spare, data) in other.pages.items()
                 if self.pages[bucket, page] != (spare, data)]
        return pages + ["10" + other.state.text()]


def blank_pages(z):
    return {(bucket, page): (BLANK, "FF" * z.S) for bucket in range(z.C) for page in range(z.P)}


def formatted(z):
    """What a Done format leaves."""
    state = State({**z._asdict(), "running": 1, "count": 0, "epoch": 1},
                  {"reads": [], "writes": [], "gc": [], "free": [{"bucket": c} for c in range(queued(z))]})
    return Situation(z, state, blank_pages(z))


class BadAnswer(Exception):
    """A program was asked these lines and did not answer in the form of what it should show."""

    def __init__(self, lines):
        super().__init__()
        self.lines = lines


def shown(ask, z, lines):
    """What lines of calls leave, as a program shows it."""
    places = [(bucket, page) for bucket in range(z.C) for page in range(z.P)]
    asked = lines + ["11"] + [show_page(*place) for place in places]
    answers = ask(asked)[len(lines):]
    try:
        if [len(page) for page in answers[1:]] != [6 + SPARE_DIGITS + 2 * z.S] * len(places):
            raise ValueError("no pages")
        state = State.parse(answers[0][6:])
    except ValueError:
        raise BadAnswer(asked) from None
    pages = (page[6:] for page in answers[1:])
    return Situation(z, state, {
        place: (page[:SPARE_DIGITS], page[SPARE_DIGITS:]) for place, page in zip(places, pages)})
