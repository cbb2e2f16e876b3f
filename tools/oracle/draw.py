"""From strip to frame: the colour of each pixel in graphics, in text, internal and external, and in Semigraphics 4."""

from pins import BLACK, BUFF, GREEN, ORANGE
from pins import bit, dots, element_bits, is_external, is_graphics, width

# The border, which drawing returns, is told by the pins alone.
from pins import border

LINES = 192
COLUMNS = 256
FRAME_LENGTH = COLUMNS * LINES
ROWS = 12
INTERNAL_FONT = 96 * ROWS
EXTERNAL_FONT = 256 * ROWS


def font_length(pins):
    """How long the font is that text asks for: the external character ROM has 256 patterns (CR 5)."""
    return EXTERNAL_FONT if is_external(pins) else INTERNAL_FONT


def first_not_valid(pins, strip):
    """The strip index of the first byte that external text calls not valid, of 128 or more (CR 5), or None."""
    if not is_external(pins):
        return None
    for index, byte in enumerate(strip[:LINES * width(pins)]):
        if byte >= 128:
            return index
    return None


def element_colour(pins, value):
    """The colour of an element by its value: of one bit in RG modes, of two in CG modes."""
    css = bit(pins, "CSS")
    if element_bits(pins) == 1:
        lit = BUFF if css else GREEN
        return lit if value else BLACK
    return 4 + value if css else value


def graphics_dot(pins, byte, dot):
    """A dot of a byte in graphics. High bits stand left."""
    size = element_bits(pins)
    element = dot // dots(pins)
    value = byte >> (8 - size * (element + 1)) & (2 ** size - 1)
    return element_colour(pins, value)


def lower_case(pins, byte):
    """Whether a character is lower case (CR 2): with GM0 = 1 bytes 0 to 31 are. External text is as with GM0 = 0 (CR 5)."""
    return not is_external(pins) and bit(pins, "GM0") == 1 and byte < 32


def pattern(pins, byte):
    """The number of a character's pattern: external, the whole byte; of lower case 64 plus the byte, else the low six bits."""
    if is_external(pins):
        return byte
    return 64 + byte if lower_case(pins, byte) else byte % 64


def inverted(pins, byte):
    """Whether a character is dark on colour: lower case is, and others with DD6 = 1."""
    return lower_case(pins, byte) or byte & 0x40 != 0


def text_dot(pins, font, byte, row, dot):
    """A dot of a byte below 128. Inverting exchanges the two colours, and GM1 = 1 does once more."""
    lit = font[ROWS * pattern(pins, byte) + row] >> (7 - dot) & 1 == 1
    if inverted(pins, byte):
        lit = not lit
    if bit(pins, "GM1") == 1:
        lit = not lit
    ink = ORANGE if bit(pins, "CSS") else GREEN
    return ink if lit else BLACK


def semigraphics_dot(byte, row, dot):
    """A dot of a byte of 128 or more: four parts of 4 dots by 6 lines, lit by bits 3, 2, 1, 0."""
    right = dot // 4
    bottom = row // 6
    lit = byte >> (3 - right - 2 * bottom) & 1
    colour = byte >> 4 & 7
    return colour if lit else BLACK


def dot_colour(pins, font, byte, row, dot):
    """A dot of a byte, on a line whose number mod 12 is the row."""
    if is_graphics(pins):
        return graphics_dot(pins, byte, dot)
    if byte >= 128:
        return semigraphics_dot(byte, row, dot)
    return text_dot(pins, font, byte, row, dot)


def byte_dots(pins, font, byte, row):
    """All dots of a byte on a line: a line's 256 pixels are shared by its W bytes."""
    return bytes(dot_colour(pins, font, byte, row, dot) for dot in range(COLUMNS // width(pins)))


def frame(pins, font, strip):
    """The 256 × 192 pixels, line by line. Equal bytes on equal rows are looked at once."""
    known = {}
    pixels = bytearray()
    for line in range(LINES):
        row = line % ROWS
        for byte in strip[line * width(pins):(line + 1) * width(pins)]:
            if (byte, row) not in known:
                known[byte, row] = byte_dots(pins, font, byte, row)
            pixels += known[byte, row]
    return bytes(pixels)
