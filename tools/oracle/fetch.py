"""Which bytes are fetched: the counter with its two dividers, its addresses under either fetch rule, the banks of an image, the strip, and how many image bytes it touches."""

from functools import lru_cache

from pins import bit as pin
from pins import is_graphics, width
from word import bit, sam_mode

LINES = 192

# By V2-V0: X, Y, and the bits that are cleared at the end of each line.
SAM_MODES = (
    (1, 12, (1, 2, 3, 4)),
    (3, 1, (1, 2, 3)),
    (1, 3, (1, 2, 3, 4)),
    (2, 1, (1, 2, 3)),
    (1, 2, (1, 2, 3, 4)),
    (1, 1, (1, 2, 3)),
    (1, 1, (1, 2, 3, 4)),
    (1, 1, ()),
)

# Document 003's table of modes in its order: G/A, GM2, GM1, GM0 or EXT/INT, CSS, then V2, V1, V0. X is either.
MODE_TABLE = (
    "0XX0X000",  # Internal Alphanumerics
    "0XX1X000",  # External Alphanumerics
    "0XX0X000",  # Semigraphics 4
    "0XX1X000",  # Semigraphics 6
    "0XX0X010",  # Semigraphics 8
    "0XX0X100",  # Semigraphics 12
    "0XX0X110",  # Semigraphics 24
    "1000X001",  # Full Graphics 1C
    "1001X001",  # Full Graphics 1R
    "1010X010",  # Full Graphics 2C
    "1011X011",  # Full Graphics 2R
    "1100X100",  # Full Graphics 3C
    "1101X101",  # Full Graphics 3R
    "1110X110",  # Full Graphics 6C
    "1111X110",  # Full Graphics 6R
    "XXXXX111",  # Direct Memory Access
)


def paired(word, pins):
    """Whether a row of document 003's table pairs the pins with the SAM mode. In its fourth column text has INT/EXT, and graphics GM0."""
    fourth = "GM0" if is_graphics(pins) else "INT/EXT"
    found = [pin(pins, name) for name in ("A/G", "GM2", "GM1", fourth, "CSS")] + [bit(word, name) for name in ("V2", "V1", "V0")]
    return any(all(said in ("X", str(value)) for said, value in zip(row, found)) for row in MODE_TABLE)


class Counter:
    """B0 to B15 and the X and Y dividers, under a fetch rule, 1 or 2."""

    def __init__(self, word, rule):
        """At the start B9-B15 are F0-F6, and all else is 0."""
        self.rule = rule
        self.x, self.y, self.cleared = SAM_MODES[sam_mode(word)]
        self.b = [0] * 9 + [bit(word, "F%d" % i) for i in range(7)]
        self.x_divider = 0
        self.y_divider = 0

    def address(self):
        """The sixteen bits as a number."""
        return sum(value << i for i, value in enumerate(self.b))

    def count_up(self, low, high):
        """Bits `low` to `high` count up. Tells whether they passed their greatest number and came round to 0."""
        for i in range(low, high + 1):
            self.b[i] ^= 1
            if self.b[i] == 1:
                return False
        return True

    def after_byte(self):
        """After each byte B0-B3 count up. When they pass 15 the X divider counts."""
        if self.count_up(0, 3):
            self.count_x()

    def count_x(self):
        """On its Xth count the X divider returns to 0 and B4 flips. When B4 goes from 1 to 0 the Y divider counts."""
        self.x_divider += 1
        if self.x_divider == self.x:
            self.x_divider = 0
            self.b[4] ^= 1
            if self.b[4] == 0:
                self.count_y()

    def count_y(self):
        """On its Yth count the Y divider returns to 0 and B5-B15 count up. After the greatest they come round to 0."""
        self.y_divider += 1
        if self.y_divider == self.y:
            self.y_divider = 0
            self.count_up(5, 15)

    def end_line(self):
        """At the end of each line bits are cleared. Under rule 1 this counts on no divider.

        Under rule 2 (CR 6) clearing a set B4 counts on the Y divider as B4's falling does.
        """
        was_set = self.b[4] == 1
        for i in self.cleared:
            self.b[i] = 0
        if self.rule == 2 and was_set and self.b[4] == 0:
            self.count_y()


@lru_cache(maxsize=1)
def addresses(word, pins, rule=1):
    """The address of every byte of the strip: 192 lines of W bytes, in order. Those that were told last are kept, as they are often asked for again."""
    counter = Counter(word, rule)
    found = []
    for _ in range(LINES):
        for _ in range(width(pins)):
            found.append(counter.address())
            counter.after_byte()
        counter.end_line()
    return tuple(found)


# CR 7, by M1, M0: the lengths of an image with one bank and with two, and which bit is the bank. In the last two all bits are the place.
MEMORIES = (
    ((4096, 8192), 12),
    ((16384, 32768), 14),
    ((65536,), None),
    ((65536,), None),
)


def memory(word):
    """The row of that table that M1, M0 name."""
    return MEMORIES[2 * bit(word, "M1") + bit(word, "M0")]


def image_lengths(word):
    """The lengths of an image that are suited to M1, M0."""
    return memory(word)[0]


def bank(word, address):
    """The bank of an address."""
    number = memory(word)[1]
    return 0 if number is None else address >> number & 1


def in_bank(word, address):
    """The place of an address within its bank: the bits below the bank's, or all."""
    number = memory(word)[1]
    return address if number is None else address & (1 << number) - 1


def image_place(word, address):
    """The place in the image, where two banks lie one after the other."""
    return bank(word, address) * image_lengths(word)[0] + in_bank(word, address)


def is_fitted(word, image, number):
    """Whether an image, whose length is suited, has a bank."""
    return number < len(image) // image_lengths(word)[0]


def first_missing(word, pins, image, rule=1):
    """The strip index of the first fetch from a bank not fitted, or None."""
    for place, address in enumerate(addresses(word, pins, rule)):
        if not is_fitted(word, image, bank(word, address)):
            return place
    return None


def strip(word, pins, image, rule=1):
    """The bytes in fetched order, repeats included."""
    return bytes(image[image_place(word, address)] for address in addresses(word, pins, rule))


def line_places(word, pins, rule=1):
    """The places in the image of each line's bytes, line by line."""
    places = [image_place(word, address) for address in addresses(word, pins, rule)]
    return [places[width(pins) * line:width(pins) * (line + 1)] for line in range(LINES)]


def touched(word, pins, rule=1):
    """CR 8: W times the number of lines that are first or whose places differ somewhere from the line before."""
    lines = line_places(word, pins, rule)
    counted = [line for line in range(LINES) if line == 0 or lines[line] != lines[line - 1]]
    return width(pins) * len(counted)
