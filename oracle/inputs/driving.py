"""Random inputs for the driving program: lists of calls, and bad lines."""

import random

from inputs.calls import FULL, LISTS, PLENTY, Calls, Kind, any_sizes, fits

MOST_DIGITS = 512

KINDS = {"bad": Kind(any_sizes, [4, 4, 1, 1, 1], 0.15, bad=0.5, reformat=0.05), **LISTS}


class Script(Calls):
    """One input, line by line."""

    def __init__(self, rng, kind, most_digits=MOST_DIGITS):
        super().__init__(rng, kind, most_digits)

    def text(self, count):
        rng = self.rng
        lines = []
        if rng.random() < 0.1:
            lines += [self.operation(), self.operation()]
        while len(lines) < count:
            lines.append(self.line())
        end = b"" if lines and lines[-1] and rng.random() < 0.3 else b"\n"
        return b"\n".join(lines) + end if lines else b""

    def line(self):
        rng = self.rng
        if rng.random() < self.kind.bad:
            return self.bad_line()
        if self.sizes is None or rng.random() < self.kind.reformat:
            return self.format()
        return self.operation()

    def bad_line(self):
        rng = self.rng
        return rng.choice([
            self.bad_digits, self.bad_digits, self.bad_operation, self.bad_length, self.long_line,
            self.bad_sizes, self.bad_sizes, self.beyond_buffers, self.garbage])()

    def good_line(self):
        return self.operation() if self.rng.random() < 0.8 else self.format()

    def bad_digits(self):
        rng = self.rng
        line = bytearray(self.good_line())
        place = rng.randrange(len(line))
        what = rng.randrange(4)
        if what == 0:
            del line[place]
        elif what == 1:
            line[place] = rng.choice(b" gG/:@`xX\r\t\0\x7f\xff-+")
        elif what == 2:
            line.insert(rng.choice([0, place, len(line)]), rng.choice(b" \r0F"))
        else:
            line += rng.choice([b"\r", b" ", b"\0", b"0", b"\r\r"])
        return bytes(line)

    def bad_operation(self):
        op = self.rng.choice([0, 7, 8, 0x10, 0x11, 0x20, 0xF0, 0xFF])
        return self.frame(op, PLENTY, self.fields(self.rng.choice([2, 3, 4])))

    def bad_length(self):
        rng = self.rng
        line = self.good_line()
        if rng.random() < 0.5:
            return line[:rng.randrange(len(line) // 2 + 1) * 2]
        return line + rng.randbytes(rng.randint(1, 3)).hex().encode()

    def long_line(self):
        """Writes about the most digits a line may have, and lines far beyond."""
        rng = self.rng
        most = self.most_data
        count = rng.choice([most - 1, most, most, most + 1, 1000, 30000])
        bucket, offset, _ = self.part()
        line = self.frame(3, PLENTY, f"{bucket:04X}{offset:04X}{rng.randbytes(count).hex()}")
        return line + rng.choice([b"", b"", b"0", b"!"])

    def bad_sizes(self):
        rng = self.rng
        z = self.kind.sizes(rng)
        edge = rng.choice([
            {"S": 3}, {"S": 0}, {"S": 1025}, {"S": 0xFFFF}, {"P": 0}, {"P": 65}, {"P": 255}, {"C": 0},
            {"C": 2}, {"C": 257}, {"C": 0xFFFF}, {"B": 0}, {"B": 0xFFFF}, {"R": 0}, {"R": 65}, {"W": 0},
            {"W": 65}, {"R": 255, "W": 255}, {"C": z.R + z.W + 2}, {"C": z.R + z.W + 3}])
        return self.odd_format(z._replace(**edge))

    def beyond_buffers(self):
        rng = self.rng
        z = rng.choice(FULL)
        more = rng.choice([{"C": min(z.C + 1, 256)}, {"B": z.B + 1}, {"S": min(z.S + 1, 1024)},
                           {"P": min(z.P + 1, 64)}, {"S": 1024, "P": 64, "C": 256}, {"B": 65535}])
        return self.odd_format(z._replace(**more))

    def odd_format(self, z):
        if fits(z):
            self.sizes, self.hot, self.screen, self.stopped = z, [], [], False
        return self.format_line(PLENTY, z)

    def garbage(self):
        rng = self.rng
        count = rng.choice([0, 0, 1, 2, 5, 40, 600])
        if rng.random() < 0.5:
            return bytes(rng.choice(b"0123456789ABCDEFabcdef") for _ in range(count))
        return rng.randbytes(count).replace(b"\n", b"\r")


def make_input(seed, kind, index, lines):
    rng = random.Random(f"{seed} {kind} {index}")
    if kind == "bad" and rng.random() < 0.05:
        return rng.choice([b"", b"\n", b"\n\n", b"0", b"06FFFF", b"06FFFF\n\n"])
    return Script(rng, KINDS[kind]).text(lines)
