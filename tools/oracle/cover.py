"""CR 1, notes that stand on the cover: which of two sheets has a key, the first value under it, and what the program `note` prints."""

from collections import namedtuple

import sheet

# The two sheets that are asked, in the order in which they are asked; each is the value that names it.
RECORD, COVER = 0, 1
NAMES = ("record", "cover")

# A part of one of the two sheets: which, from which byte on, and what it holds.
Part = namedtuple("Part", "sheet start content")


def annotations(given):
    """Each annotation of an accepted sheet: its key, the place of its value, and the value. A key has no equals sign in it."""
    lines = sheet.read(given).annotations
    place = len(given) - sum(len(line) + 1 for line in lines)
    for line in lines:
        equals = line.index(b"=")
        yield line[:equals], place + equals + 1, line[equals + 1:]
        place += len(line) + 1


def first(given, key):
    """The place of the first value under a key and the value, or None where no annotation has the key."""
    for name, place, value in annotations(given):
        if name == key:
            return place, value
    return None


def broken(record, cover):
    """Which sheet is refused first, with its place, or None."""
    for which, given in ((RECORD, record), (COVER, cover)):
        found = sheet.read(given)
        if found.number != 0:
            return which, found.place
    return None


def holder(record, cover, key):
    """Which sheet has the key: number, place, value."""
    refused = broken(record, cover)
    if refused is not None:
        return 11, refused[1], 0
    if first(record, key) is not None:
        return 0, 0, RECORD
    if first(cover, key) is not None:
        return 0, 0, COVER
    return 12, 0, 0


def value(record, cover, key):
    """The first value under the key, as a part of the sheet that has it; where `holder` refuses, an empty part of the record's."""
    number, _, which = holder(record, cover, key)
    if number != 0:
        return Part(RECORD, 0, b"")
    return Part(which, *first((record, cover)[which], key))


def lines(record, cover, key):
    """What the program prints of two sheets and a key, line by line."""
    number, place, which = holder(record, cover, key)
    if number == 0:
        return [b"status=0", b"sheet=" + NAMES[which].encode(), b"value=" + value(record, cover, key).content]
    said = [b"status=%d" % number]
    if number == 11:
        said.append(b"sheet=" + NAMES[broken(record, cover)[0]].encode())
    return said + [b"place=%d" % place]


def text(record, cover, key):
    """The whole output of the program."""
    return b"".join(line + b"\n" for line in lines(record, cover, key))
