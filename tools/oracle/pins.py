"""The pin byte: its bits, the table of modes, the bytes a line W, the dots of an element, and the border."""

# Bit 0 first.
BITS = ("CSS", "GM0", "GM1", "GM2", "INT/EXT", "A/G")

# By GM2-0, with A/G = 1: mode, bytes a line W, dots per element.
GRAPHICS = (
    ("CG1", 16, 4),
    ("RG1", 16, 2),
    ("CG2", 32, 2),
    ("RG2", 16, 2),
    ("CG3", 32, 2),
    ("RG3", 16, 2),
    ("CG6", 32, 2),
    ("RG6", 32, 1),
)

# By GM1, GM0, with A/G = 0; with external characters one name for all (CR 5).
TEXT = ("A1", "A2", "A3", "A4")
EXTERNAL = "EXT"
TEXT_WIDTH = 32

GREEN, BUFF, ORANGE, BLACK = 0, 4, 7, 8


def bit(pins, name):
    """One bit of a pin byte, by its name."""
    return pins >> BITS.index(name) & 1


def gm(pins):
    """GM2-0 as a number."""
    return bit(pins, "GM0") + 2 * bit(pins, "GM1") + 4 * bit(pins, "GM2")


def is_graphics(pins):
    """A/G = 1."""
    return bit(pins, "A/G") == 1


def is_external(pins):
    """External characters: INT/EXT = 1, which has no effect while A/G is 1."""
    return not is_graphics(pins) and bit(pins, "INT/EXT") == 1


def mode(pins):
    """The name of the mode, as a report says it."""
    if is_graphics(pins):
        return GRAPHICS[gm(pins)][0]
    if is_external(pins):
        return EXTERNAL
    return TEXT[bit(pins, "GM0") + 2 * bit(pins, "GM1")]


def width(pins):
    """W, the bytes a line."""
    if is_graphics(pins):
        return GRAPHICS[gm(pins)][1]
    return TEXT_WIDTH


def dots(pins):
    """Dots per element. Only graphics has elements."""
    return GRAPHICS[gm(pins)][2]


def element_bits(pins):
    """Bits an element: two in the CG modes, one in the RG modes."""
    return 2 if mode(pins).startswith("CG") else 1


def border(pins):
    """The border's colour, which drawing returns."""
    css = bit(pins, "CSS")
    if is_graphics(pins):
        return BUFF if css else GREEN
    if bit(pins, "GM2") == 0 or bit(pins, "GM1") == 1:
        return BLACK
    return ORANGE if css else GREEN
