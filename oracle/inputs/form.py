"""The forms of states and spare areas: tables of fields, each with its width in bytes."""

SIZES = [("S", 2), ("P", 1), ("C", 2), ("B", 2), ("R", 1), ("W", 1)]
STATE = SIZES + [("running", 1), ("count", 1), ("epoch", 8)]
# For each queue: the width of its count, the most entries, the fields of an entry.
QUEUES = {
    "reads": (1, 64, [("back_end", 2), ("bucket", 1)]),
    "writes": (1, 64, [("back_end", 2), ("bucket", 1), ("priority", 1), ("mark", 1), ("blank", 1)]),
    "gc": (2, 256, [("bucket", 1)]),
    "free": (2, 256, [("bucket", 1)]),
}
SPARE = [("kind", 1), ("ordinal", 1), ("pages", 1), ("zero", 1), ("epoch", 4), ("back_end", 2),
         ("zeros", 2), ("offset", 2), ("length", 2)]
SPARE_DIGITS = 32
BLANK = "FF" * 16
OTHERS = " gG/:@`xX\r\t\0\x7f\x80\xff-+"  # characters that are no digits
SPOILED = 0  # the state of a page whose program stopped halfway: its other bytes mean nothing


class Reader:
    """Fields of a text, one after the other; a ValueError if they are not there."""

    def __init__(self, text):
        self.text = text
        self.at = 0

    def number(self, width):
        digits = self.text[self.at:self.at + 2 * width]
        self.at += 2 * width
        if len(digits) < 2 * width:
            raise ValueError(f"too short: {self.text}")
        return int(digits, 16)

    def fields(self, table):
        return {name: self.number(width) for name, width in table}


def number(value, width):
    return f"{value:0{2 * width}X}"


def fields(values, table):
    return "".join(number(values[name], width) for name, width in table)


class State:
    """The fields of a state, and its queues as lists of entries; any numbers may stand there."""

    def __init__(self, values, queues):
        self.values = values
        self.queues = queues

    @classmethod
    def parse(cls, text):
        reader = Reader(text)
        values = reader.fields(STATE)
        queues = {name: [reader.fields(table) for _ in range(reader.number(width))]
                  for name, (width, _, table) in QUEUES.items()}
        if reader.at != len(text):
            raise ValueError(f"too long: {text}")
        return cls(values, queues)

    def text(self):
        queues = (number(len(self.queues[name]), width)
                  + "".join(fields(entry, table) for entry in self.queues[name])
                  for name, (width, _, table) in QUEUES.items())
        return fields(self.values, STATE) + "".join(queues)

    def copy(self):
        return State(dict(self.values), {
            queue: [dict(entry) for entry in entries] for queue, entries in self.queues.items()})

    def entries(self):
        return [entry for entries in self.queues.values() for entry in entries]


def parse_spare(text):
    """The fields of a spare area; None for a blank page."""
    return None if text == BLANK else Reader(text).fields(SPARE)


def spare_text(spare):
    return BLANK if spare is None else fields(spare, SPARE)
