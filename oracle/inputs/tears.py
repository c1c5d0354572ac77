"""Stores that stop halfway: after a Cut call, what the store that came next may leave of its pages."""

from inputs.form import BLANK, spare_text
from inputs.images import spoiled
from inputs.situation import shown


def torn(rng, ask, z, lines):
    """Lines behind these, whose last one may be a Cut call: if its next store was an erase, some pages blank; if it
    was a program, that page spoiled, most often."""
    before = shown(ask, z, lines)
    after = shown(ask, z, lines[:-1] + [one_more(lines[-1])])
    erased = [bucket for bucket in range(z.C) if before.used(bucket) and not after.used(bucket)]
    blank = [f"12{bucket:04X}{page:02X}{BLANK}" + "FF" * z.S
             for bucket in erased for page in before.used(bucket) if rng.random() < 0.5]
    programmed = [place for place, (spare, _) in after.pages.items()
                  if spare != BLANK and before.pages[place][0] == BLANK]
    return blank + [f"12{bucket:04X}{page:02X}" + spare_text(spoiled(rng, after.spare(bucket, page)))
                    + rng.randbytes(z.S).hex().upper()
                    for bucket, page in programmed if rng.random() < 0.7]


def one_more(line):
    """The call with one store more allowed."""
    return line[:2] + f"{int(line[2:6], 16) + 1:04X}" + line[6:]
