"""The sheet: its grammar, the place of a refused one, its fields and its annotation lines."""

from collections import namedtuple

# What reading a sheet yields. `annotations` holds the lines without their byte 10.
Sheet = namedtuple("Sheet", "number place deed pins rule writes annotations")

LINE_END = 10
EQUALS = ord("=")

# Stands among the bytes that may follow where the sheet may be over.
END = -1

DEED = frozenset(b"ABCDEFGHIJKLMNOPQRSTUVWXYZ0123456789-")
HEX = frozenset(b"0123456789ABCDEF")
KEY = frozenset(b"abcdefghijklmnopqrstuvwxyz-")
VALUE = frozenset(range(256)) - {LINE_END}
RULES = frozenset(b"12")
NOTHING = frozenset()

NUMERALS = [b"%d" % n for n in range(65)]
RESERVED = (b"deed", b"pins", b"writes", b"at")
MOST_ANNOTATIONS = 200
LONGEST_KEY = 16
LONGEST_VALUE = 120

# The grammar is written as generators. Each yields the set of all bytes with which some accepted sheet goes on, and is
# sent the byte that came. So a sheet's place is that of its first byte outside such a set, or its whole length.


def words(text):
    """Exactly these bytes."""
    for byte in text:
        yield {byte}


def closed(allowed, least, most):
    """From `least` to `most` allowed bytes, and the line's end. Returns them without it."""
    found = bytearray()
    while True:
        may = allowed if len(found) < most else NOTHING
        if least <= len(found):
            may = may | {LINE_END}
        byte = yield may
        if byte == LINE_END:
            return bytes(found)
        found.append(byte)


def numeral():
    """0 to 64 in decimal without leading zero, and the line's end. Returns the number."""
    found = b""
    while True:
        longer = [n for n in NUMERALS if n.startswith(found) and n != found]
        may = {n[len(found)] for n in longer}
        if found in NUMERALS:
            may.add(LINE_END)
        byte = yield may
        if byte == LINE_END:
            return int(found)
        found += bytes([byte])


def key(first):
    """The rest of an annotation's key and the equals sign. A reserved key can only go on to a longer one."""
    found = bytes([first])
    while True:
        may = KEY if len(found) < LONGEST_KEY else NOTHING
        if found not in RESERVED:
            may = may | {EQUALS}
        byte = yield may
        if byte == EQUALS:
            return found
        found += bytes([byte])


def rule_and_writes():
    """`rule=1` or `rule=2` (CR 6), where it is given, and `writes=`. Returns the rule; without the line it is 1."""
    first = yield {ord("r"), ord("w")}
    if first == ord("w"):
        yield from words(b"rites=")
        return 1
    yield from words(b"ule=")
    rule = yield from closed(RULES, 1, 1)
    yield from words(b"writes=")
    return int(rule)


def write():
    """One `at=` line. Returns its address."""
    yield from words(b"at=")
    digits = yield from closed(HEX, 4, 4)
    return int(digits, 16)


def annotations():
    """Annotations to the sheet's end. Returns their lines."""
    found = []
    while True:
        may = KEY if len(found) < MOST_ANNOTATIONS else NOTHING
        first = yield may | {END}
        if first == END:
            return found
        name = yield from key(first)
        value = yield from closed(VALUE, 0, LONGEST_VALUE)
        found.append(name + b"=" + value)


def whole():
    """A whole sheet. Returns what it yields."""
    yield from words(b"deed=")
    deed = yield from closed(DEED, 1, 16)
    yield from words(b"pins=")
    pins = yield from closed(HEX, 2, 2)
    rule = yield from rule_and_writes()
    count = yield from numeral()
    writes = []
    for _ in range(count):
        writes.append((yield from write()))
    lines = yield from annotations()
    return Sheet(0, 0, deed, int(pins, 16), rule, writes, lines)


def refused(place):
    """What a refused sheet yields."""
    return Sheet(11, place, b"", 0, 1, [], [])


def read(sheet):
    """Reads a sheet. Its number is 0, or 11 with the length of its longest beginning that some accepted sheet also has."""
    reader = whole()
    may = next(reader)
    for place, byte in enumerate(sheet):
        if byte not in may:
            return refused(place)
        may = reader.send(byte)
    if END not in may:
        return refused(len(sheet))
    return finish(reader)


def finish(reader):
    """Tells a reader that the sheet is over. Returns what it yields."""
    try:
        reader.send(END)
    except StopIteration as over:
        return over.value


def annotation(sheet, n):
    """Annotation line n of a sheet's bytes, from 0. A number past the last gives an empty line."""
    lines = read(sheet).annotations
    return lines[n] if n < len(lines) else b""
