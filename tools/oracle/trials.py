"""What each trial program prints: its questions are read off crates/NAME/src/main.rt, the answers come from the chapters."""

from dataclasses import replace

import batch
import canvas
import chips
import cover
import draw
import fetch
import numbers
import pins
import plan
import png
import report
import sheet
import tally
import word

# == Buffers: made, and held against what they were.


def tell(length, per=1):
    """An image that tells its addresses: each byte is the low byte of its place divided by `per`."""
    return bytes(i // per % 256 for i in range(length))


def vary(length):
    """Varied bytes that tell their places: no two rows or columns of a bank are alike."""
    return bytes((i + i // 61) % 256 for i in range(length))


def vary9(length):
    """Varied colour numbers that tell their places."""
    return bytes((i + i // 61) % 9 for i in range(length))


def mark(length):
    """A marked buffer: a byte of its own at each of 256 places."""
    return bytearray((131 + 5 * i) % 256 for i in range(length))


def room(buffer, length):
    """The first bytes of a buffer, to be written."""
    return memoryview(buffer)[:length]


def kept_from(buffer):
    """The place from which on a buffer is as it was marked: 0 where it was kept whole."""
    marked = mark(len(buffer))
    for i in range(len(buffer), 0, -1):
        if buffer[i - 1] != marked[i - 1]:
            return i
    return 0


def total(content):
    """A sum that each byte and its place counts in."""
    found = 0
    for byte in content:
        found = (found * 31 + byte) % 65521
    return found


# == What is printed of an answer, and of bytes.


def number_and_place(answer):
    """An answer's number and place."""
    return ": number %d place %d" % answer[:2]


def told(answer):
    """An answer's number, place and value."""
    return ": number %d place %d value %d" % answer


def figure_name(figure):
    """The number of the figure that a line is, if it is one."""
    return "P%d " % figure if figure else ""


def rule_name(rule):
    """The rule that a line is under, if it is not the first."""
    return "rule 2 " if rule == 2 else ""


def escape(byte):
    """A byte so that it can be read."""
    if byte == 10:
        return "\\n"
    if byte < 32 or byte > 126:
        return "\\x%02X" % byte
    return chr(byte)


def quoted(content):
    """Bytes in brackets."""
    return "[" + "".join(escape(byte) for byte in content) + "]"


# == try_control


def play_line(figure, start, *writes):
    """Control writes, with the word that is told."""
    answer = word.play(start, writes)
    listed = "".join(" %04X" % address for address in writes)
    line = "%splay from %04X writes%s" % (figure_name(figure), start, listed)
    return line + number_and_place(answer) + " word %04X" % answer[2]


def try_control():
    """P1 to P4, each bit set and cleared, and corners."""
    yield play_line(1, 0x0000, 0xFFC1, 0xFFC9, 0xFFD6)
    yield play_line(2, 0x0000, 0xFFDF)
    yield play_line(3, 0xFFFF, 0xFFC0)
    yield play_line(4, 0x0000, 0xFFC1, 0xFFBF)
    for i in range(16):
        yield play_line(0, 0x0000, 0xFFC1 + 2 * i)
        yield play_line(0, 0xFFFF, 0xFFC0 + 2 * i)
    yield play_line(0, 0x1234)
    yield play_line(0, 0x1234, 0xFFBF)
    yield play_line(0, 0x1234, 0xFFE0)
    yield play_line(0, 0x1234, 0xFFC1, 0xFFDF, 0x0000, 0xFFC3, 0xFFE0)
    yield play_line(0, 0x0000, 0xFFC1, 0xFFC0, 0xFFC1)


# == try_fetch


def fetched(control, pin_byte, image, place, rule):
    """The byte at a place of the strip that is fetched from an image."""
    strip = bytearray(6144)
    numbers.fetch(control, pin_byte, image, strip, rule)
    return strip[place]


def address_line(figure, control, pin_byte, line, byte, rule=1):
    """The address of a line's byte by the counter, and by what is fetched, with M1 set, from two images that tell their addresses."""
    place = line * pins.width(pin_byte) + byte
    address = fetch.addresses(control, pin_byte, rule)[place]
    low = fetched(control | 0x4000, pin_byte, tell(65536), place, rule)
    high = fetched(control | 0x4000, pin_byte, tell(65536, 256), place, rule)
    asked = rule_name(rule) + "word %04X pins %02X line %d byte %d" % (control, pin_byte, line, byte)
    return "%s%s: address %04X, fetched %02X%02X" % (figure_name(figure), asked, address, high, low)


def addresses_lines():
    """P5 to P9."""
    yield address_line(5, 0x0011, 0x20, 2, 15)
    yield address_line(5, 0x0011, 0x20, 3, 0)
    yield address_line(5, 0x0011, 0x20, 191, 15)
    yield address_line(6, 0x0000, 0x00, 12, 0)
    yield address_line(6, 0x0000, 0x00, 191, 31)
    yield address_line(7, 0x03FE, 0x2E, 15, 31)
    yield address_line(7, 0x03FE, 0x2E, 16, 0)
    yield address_line(8, 0x0000, 0x20, 100, 0)
    yield address_line(9, 0x0001, 0x00, 0, 16)
    yield address_line(9, 0x0001, 0x00, 1, 16)


def rule_2_lines():
    """P8 and its neighbours under rule 2, each other Y, a window that comes round, B4 kept and B4 not set; then a refusal, and strips one byte short and just right."""
    yield address_line(8, 0x0000, 0x20, 100, 0, rule=2)
    yield address_line(0, 0x0000, 0x20, 11, 15, rule=2)
    yield address_line(0, 0x0000, 0x20, 12, 0, rule=2)
    yield address_line(0, 0x0002, 0x22, 191, 15, rule=2)
    yield address_line(0, 0x0004, 0x26, 191, 15, rule=2)
    yield address_line(0, 0x0006, 0x2A, 191, 0, rule=2)
    yield address_line(0, 0x03FE, 0x20, 16, 0, rule=2)
    yield address_line(0, 0x0001, 0x20, 191, 15, rule=2)
    yield address_line(0, 0x0000, 0x00, 191, 31, rule=2)
    yield address_line(0, 0x0001, 0x00, 1, 16, rule=2)
    yield fetch_line(0x5000, 0x20, 65536, 8192, rule=2)
    yield fetch_line(0x4000, 0x20, 65536, 3071, rule=2)
    yield fetch_line(0x4000, 0x20, 65536, 3072, rule=2)


def fetch_line(control, pin_byte, image_length, strip_length, rule=1):
    """Fetches to a marked strip, of buffers as long as told."""
    image, strip = tell(65536)[:image_length], mark(8192)
    answer = numbers.fetch(control, pin_byte, image, room(strip, strip_length), rule)
    count = numbers.fetch_count(control, pin_byte, image, room(strip, strip_length), rule)
    asked = rule_name(rule) + "fetch word %04X pins %02X image %d strip %d" % (control, pin_byte, image_length, strip_length)
    return asked + told(answer) + ", touched %d, strip kept from %d" % (count, kept_from(strip))


def fetches_lines():
    """The refusals of fetching in their order, but for 16 and 17."""
    yield fetch_line(0x1000, 0x40, 65535, 0)
    yield fetch_line(0x5000, 0x40, 65536, 8192)
    yield fetch_line(0x5000, 0x64, 65536, 8192)
    yield fetch_line(0x1000, 0x10, 65535, 0)
    yield fetch_line(0x5000, 0x1F, 65536, 8192)
    yield fetch_line(0x1000, 0x20, 65535, 0)
    yield fetch_line(0x5000, 0x00, 65536, 8192)
    yield fetch_line(0x0000, 0x20, 65535, 0)
    yield fetch_line(0x0000, 0x00, 0, 8192)
    yield fetch_line(0x4000, 0x20, 65536, 0)


def lengths_lines():
    """Image lengths, those of the five with M1, M0 that they are suited to, then strip lengths, of external text too with bytes of 128 or more, and bits that alter nothing."""
    for length in (4095, 4097, 12288, 65535, 4096, 8192):
        yield fetch_line(0x0000, 0x20, length, 8192)
    for length in (16384, 32768):
        yield fetch_line(0x2000, 0x20, length, 8192)
    yield fetch_line(0x4000, 0x20, 65536, 3071)
    yield fetch_line(0x4000, 0x20, 65536, 3072)
    yield fetch_line(0x4000, 0x00, 65536, 6143)
    yield fetch_line(0x4000, 0x00, 65536, 6144)
    yield fetch_line(0x4000, 0x10, 65536, 6143)
    yield fetch_line(0x4000, 0x10, 65536, 6144)
    yield fetch_line(0x4000, 0x2E, 65536, 6143)
    yield fetch_line(0x4000, 0x30, 65536, 8192)
    yield fetch_line(0xEC00, 0x2E, 65536, 8192)


def strip_sum_line(control, pin_byte, image_length, rule=1):
    """How many bytes are touched in an image as long as told, and the sum of the whole strip."""
    image, strip = vary(image_length), bytearray(6144)
    answer = numbers.fetch(control, pin_byte, image, strip, rule)
    count = numbers.fetch_count(control, pin_byte, image, strip, rule)
    asked = rule_name(rule) + "strip word %04X pins %02X image %d" % (control, pin_byte, image_length)
    return asked + told(answer) + ", touched %d, sum %d" % (count, total(strip[:answer[2]]))


def strip_sum_lines(control, pin_byte, image_length, rule):
    """Every SAM mode from a word on."""
    for mode in range(8):
        yield strip_sum_line(control + mode, pin_byte, image_length, rule)


# Text, internal and external, and each graphics mode.
PIN_MODES = (0x00, 0x10, 0x20, 0x22, 0x24, 0x26, 0x28, 0x2A, 0x2C, 0x2E)


def strips_lines(rule):
    """Text, internal and external, and each graphics mode, then starts 512 bytes before FFFF is passed, before a bank that is not fitted, before the end of two banks and before the second."""
    for pin_byte in PIN_MODES:
        yield from strip_sum_lines(0x4000, pin_byte, 65536, rule)
    yield from strip_sum_lines(0x43F8, 0x20, 65536, rule)
    yield from strip_sum_lines(0x43F8, 0x2E, 65536, rule)
    yield from strip_sum_lines(0x03F8, 0x2E, 8192, rule)
    yield from strip_sum_lines(0x0038, 0x2E, 4096, rule)
    yield from strip_sum_lines(0x0078, 0x20, 8192, rule)
    yield from strip_sum_lines(0x20F8, 0x2E, 32768, rule)
    yield from strip_sum_lines(0x21F8, 0x00, 32768, rule)


def suited_lines():
    """Each M1, M0 with the lengths that are not suited to it, and 11 with the one that is; then what comes before 16, 16 before 7, and 7 before 17."""
    for control, lengths in (
        (0x0000, (16384, 32768, 65536)),
        (0x2000, (4096, 8192, 65536)),
        (0x4000, (4096, 8192, 16384, 32768)),
        (0x6000, (4096, 8192, 16384, 32768, 65536)),
    ):
        for length in lengths:
            yield fetch_line(control, 0x20, length, 8192)
    yield fetch_line(0x0000, 0x40, 65536, 8192)
    yield fetch_line(0x1000, 0x20, 65536, 8192)
    yield fetch_line(0x2000, 0x20, 65535, 8192)
    yield fetch_line(0x6000, 0x20, 12288, 8192)
    yield fetch_line(0x0000, 0x20, 65536, 0)
    yield fetch_line(0x2000, 0x00, 8192, 6143)
    yield fetch_line(0x0040, 0x20, 4096, 3071)
    yield fetch_line(0x2100, 0x00, 16384, 6143)


def one_bank_lines():
    """Windows that begin in a bank that is not fitted, that come to one on a later line, and that do so under rule 2 only; then whole strips of windows that have the fitted bank alone."""
    yield fetch_line(0x0040, 0x20, 4096, 3072)
    yield fetch_line(0x03FE, 0x2E, 4096, 8192)
    yield fetch_line(0x2100, 0x00, 16384, 6144)
    yield fetch_line(0x23FE, 0x2E, 16384, 8192)
    yield fetch_line(0x0006, 0x2E, 4096, 8192)
    yield fetch_line(0x0039, 0x20, 4096, 8192)
    yield fetch_line(0x20AE, 0x2E, 16384, 8192)
    yield fetch_line(0x22FD, 0x2A, 16384, 8192)
    yield fetch_line(0x20AE, 0x2E, 16384, 8192, rule=2)
    yield fetch_line(0x003A, 0x20, 4096, 8192)
    yield fetch_line(0x003A, 0x20, 4096, 8192, rule=2)
    yield fetch_line(0x20FE, 0x20, 16384, 8192)
    yield fetch_line(0x20FE, 0x20, 16384, 8192, rule=2)
    yield strip_sum_line(0x00A1, 0x20, 4096)
    yield strip_sum_line(0x20A6, 0x2E, 16384)
    yield strip_sum_line(0x220E, 0x2E, 16384)


def two_banks_lines():
    """The same windows with both banks fitted; past FFFF, M1, M0 = 11 as 10, and the sums and refusals again with P, R0 and TY set."""
    yield strip_sum_line(0x0040, 0x20, 8192)
    yield strip_sum_line(0x2100, 0x00, 32768)
    yield strip_sum_line(0x0006, 0x2E, 8192)
    yield strip_sum_line(0x0039, 0x20, 8192)
    yield strip_sum_line(0x20AE, 0x2E, 32768)
    yield strip_sum_line(0x22FD, 0x2A, 32768)
    yield strip_sum_line(0x003A, 0x20, 8192, rule=2)
    yield strip_sum_line(0x20FE, 0x20, 32768, rule=2)
    yield strip_sum_line(0x23FE, 0x2E, 32768)
    yield strip_sum_line(0x23F9, 0x20, 32768)
    yield strip_sum_line(0x63FE, 0x2E, 65536)
    yield strip_sum_line(0x63F9, 0x20, 65536)
    yield strip_sum_line(0x8C06, 0x2E, 8192)
    yield strip_sum_line(0xAFFE, 0x2E, 32768)
    yield strip_sum_line(0xCFFE, 0x2E, 65536)
    yield strip_sum_line(0x8C39, 0x20, 4096)
    yield strip_sum_line(0x8C00, 0x20, 65536)


def counts_line(control, pin_byte, image_length, rule=1):
    """How many bytes are touched by every SAM mode from a word on, in an image as long as told; none where the window is refused."""
    image, strip = vary(image_length), bytearray(6144)
    counts = [numbers.fetch_count(control + mode, pin_byte, image, strip, rule) for mode in range(8)]
    asked = rule_name(rule) + "touched word %04X pins %02X image %d:" % (control, pin_byte, image_length)
    return asked + "".join(" %d" % count for count in counts)


def windows_lines(pin_byte, rule):
    """Each M1, M0 but 10 with each length that is suited to it: boards with one bank from a bank that is fitted on, and others from 512 bytes before FFFF is passed."""
    for control, length in ((0x0080, 4096), (0x03F8, 8192), (0x2200, 16384), (0x23F8, 32768), (0x63F8, 65536)):
        yield counts_line(control, pin_byte, length, rule)


def counts_lines():
    """Text, internal and external, and each graphics mode, then rule 2, and starts from which some SAM modes come to a bank that is not fitted."""
    for pin_byte in PIN_MODES:
        yield from windows_lines(pin_byte, 1)
    yield from windows_lines(0x20, 2)
    yield counts_line(0x0038, 0x20, 4096)
    yield counts_line(0x0038, 0x20, 4096, rule=2)
    yield counts_line(0x20D0, 0x20, 16384, rule=2)
    yield counts_line(0x20D0, 0x2E, 16384)
    yield counts_line(0x20D0, 0x2E, 16384, rule=2)


def try_fetch():
    """Addresses, refusals and lengths, and whole strips; then rule 2: addresses, and the same strips; then lengths by M1, M0, boards with one bank and with two, and how many bytes are touched."""
    yield from addresses_lines()
    yield from fetches_lines()
    yield from lengths_lines()
    yield from strips_lines(1)
    yield from rule_2_lines()
    yield from strips_lines(2)
    yield from suited_lines()
    yield from one_bank_lines()
    yield from two_banks_lines()
    yield from counts_lines()


# == try_valid


def check_line(before, pin_byte, byte, first, second, length):
    """The first bytes of a strip of letters with another byte at two places, checked after an answer."""
    strip = bytearray(b"A") * 6145
    strip[first] = strip[second] = byte
    index = draw.first_not_valid(pin_byte, strip[:length])
    answer = before if before[0] != 0 or index is None else (15, index, 0)
    return "pins %02X byte %02X at %d and %d of %d" % (pin_byte, byte, first, second, length) + told(answer)


def try_valid():
    """The first byte that is not valid, at the strip's ends too, none past its end or where the strip is cut short; none but in external text, nor where something was refused."""
    done = (0, 0, 8)
    yield check_line(done, 0x10, 0x80, 0, 0, 6145)
    yield check_line(done, 0x10, 0xFF, 0, 6143, 6145)
    yield check_line(done, 0x10, 0x80, 6143, 17, 6145)
    yield check_line(done, 0x1F, 0x80, 3072, 3071, 6144)
    yield check_line(done, 0x10, 0xB9, 6143, 6143, 6144)
    yield check_line(done, 0x10, 0x80, 6144, 6143, 6145)
    yield check_line(done, 0x10, 0xFF, 6144, 6144, 6145)
    yield check_line(done, 0x10, 0x7F, 0, 6143, 6145)
    yield check_line(done, 0x10, 0x80, 6143, 6143, 6143)
    yield check_line(done, 0x10, 0x80, 6143, 16, 17)
    yield check_line(done, 0x10, 0x80, 16, 17, 16)
    yield check_line(done, 0x10, 0x80, 0, 1, 0)
    yield check_line(done, 0x0F, 0x80, 0, 6143, 6145)
    yield check_line(done, 0x30, 0x80, 0, 3071, 6145)
    yield check_line((8, 0, 0), 0x10, 0x80, 0, 6143, 6145)


# == try_draw


def draw_font(length):
    """A font that is marked, by one more from each 64th pattern on, so that no two patterns are alike, with a row of its own for pattern 1."""
    font = bytearray((131 + 5 * i + i // 768) % 256 for i in range(length))
    font[12] = 0x18
    return font


def right_font(pin_byte):
    """The font that a look asks for."""
    return draw_font(draw.font_length(pin_byte))


def dots_line(figure, pin_byte, byte, line):
    """A strip that has one byte throughout is drawn: the answer, and the dots of the line's first byte."""
    frame = bytearray(49152)
    answer = numbers.draw(pin_byte, right_font(pin_byte), bytes([byte]) * 6144, frame)
    wide = 256 // pins.width(pin_byte)
    shown = "".join(" %d" % pixel for pixel in frame[line * 256:line * 256 + wide])
    asked = "%spins %02X byte %02X line %d" % (figure_name(figure), pin_byte, byte, line)
    return asked + told(answer) + ", dots" + shown


def blocks_lines():
    """Semigraphics 4."""
    yield dots_line(12, 0x00, 0xB9, 5)
    yield dots_line(12, 0x00, 0xB9, 6)
    yield dots_line(0, 0x00, 0xB9, 11)
    yield dots_line(0, 0x00, 0xB9, 12)
    yield dots_line(0, 0x04, 0xB9, 5)
    yield dots_line(0, 0x0F, 0xB9, 5)
    yield dots_line(0, 0x00, 0x80, 0)
    yield dots_line(0, 0x00, 0x90, 0)
    yield dots_line(0, 0x01, 0xFF, 0)


def letters_lines():
    """Text: inverting, exchanging, rows and patterns; then lower case, exchanged by GM1, in orange, its first and last byte, and the byte after."""
    yield dots_line(0, 0x00, 0x41, 0)
    yield dots_line(0, 0x00, 0x01, 0)
    yield dots_line(0, 0x01, 0x41, 0)
    yield dots_line(0, 0x04, 0x41, 0)
    yield dots_line(0, 0x00, 0x41, 12)
    yield dots_line(0, 0x00, 0x41, 11)
    yield dots_line(0, 0x02, 0x61, 0)
    yield dots_line(0, 0x02, 0x41, 0)
    yield dots_line(0, 0x02, 0x21, 0)
    yield dots_line(0, 0x00, 0x21, 0)
    yield dots_line(0, 0x06, 0x61, 0)
    yield dots_line(0, 0x02, 0x01, 0)
    yield dots_line(0, 0x06, 0x01, 0)
    yield dots_line(0, 0x03, 0x01, 0)
    yield dots_line(0, 0x02, 0x00, 0)
    yield dots_line(0, 0x02, 0x1F, 0)
    yield dots_line(0, 0x02, 0x20, 0)


def external_lines():
    """External text: the first and last byte, on each side of DD6, GM0 without effect, exchanged by GM1, in orange; and a byte of 128."""
    yield dots_line(0, 0x10, 0x01, 0)
    yield dots_line(0, 0x10, 0x00, 0)
    yield dots_line(0, 0x10, 0x3F, 11)
    yield dots_line(0, 0x10, 0x40, 12)
    yield dots_line(0, 0x10, 0x41, 0)
    yield dots_line(0, 0x10, 0x7F, 191)
    yield dots_line(0, 0x12, 0x01, 0)
    yield dots_line(0, 0x12, 0x61, 0)
    yield dots_line(0, 0x14, 0x41, 0)
    yield dots_line(0, 0x11, 0x41, 0)
    yield dots_line(0, 0x10, 0x80, 0)


def letters_sum(pin_byte, first):
    """The sum of a frame of sixteen letters, one below the other, each on all its twelve rows."""
    frame = bytearray(49152)
    numbers.draw(pin_byte, right_font(pin_byte), bytes(first + i // 384 for i in range(6144)), frame)
    return total(frame)


def all_letters_line(pin_byte):
    """All 128 letters under one look, a sum for each sixteen."""
    sums = "".join(" %d" % letters_sum(pin_byte, first) for first in range(0, 128, 16))
    return "letters pins %02X, sums" % pin_byte + sums


def look_lines(pin_byte, byte, strip):
    """One look: the dots of one byte, and the sum of a whole frame."""
    yield dots_line(0, pin_byte, byte, 191)
    frame = bytearray(49152)
    answer = numbers.draw(pin_byte, right_font(pin_byte), strip, frame)
    yield "frame pins %02X" % pin_byte + told(answer) + ", sum %d" % total(frame)


def draw_line(pin_byte, font_length, strip_length, frame_length):
    """Draws on a marked frame, of buffers as long as told."""
    font = draw_font(3073)[:font_length]
    frame = mark(50000)
    answer = numbers.draw(pin_byte, font, vary(8192)[:strip_length], room(frame, frame_length))
    asked = "draw pins %02X font %d strip %d frame %d" % (pin_byte, font_length, strip_length, frame_length)
    return asked + told(answer) + ", frame kept from %d" % kept_from(frame)


def draws_lines():
    """The refusals of drawing in their order, of external text last."""
    yield draw_line(0x40, 0, 0, 0)
    yield draw_line(0x00, 1151, 0, 0)
    yield draw_line(0x00, 1153, 8192, 50000)
    yield draw_line(0x00, 1152, 6143, 0)
    yield draw_line(0x20, 1151, 3071, 0)
    yield draw_line(0x00, 1152, 6144, 49151)
    yield draw_line(0x20, 0, 3072, 49151)
    yield draw_line(0x00, 1152, 6144, 49152)
    yield draw_line(0x20, 0, 3072, 49152)
    yield draw_line(0x30, 1151, 8192, 50000)
    yield draw_line(0x00, 3072, 8192, 50000)
    yield draw_line(0x50, 0, 0, 0)
    yield draw_line(0x10, 0, 0, 0)
    yield draw_line(0x10, 1152, 8192, 50000)
    yield draw_line(0x10, 3071, 8192, 50000)
    yield draw_line(0x10, 3073, 8192, 50000)
    yield draw_line(0x10, 3072, 6143, 0)
    yield draw_line(0x10, 3072, 6144, 49151)
    yield draw_line(0x10, 3072, 6144, 49152)
    yield draw_line(0x1F, 3072, 8192, 50000)


def try_draw():
    """P10 to P12, blocks, letters and external text, every graphics mode and every text look with either CSS, all letters under each text look, and refusals.

    Of the strip that external looks are drawn from, 6,144 bytes are letters: the bytes past them are not.
    """
    low = bytes(i // 61 for i in range(8192))
    yield dots_line(10, 0x20, 0x1B, 0)
    yield dots_line(11, 0x2F, 0xA5, 0)
    yield from blocks_lines()
    yield from letters_lines()
    for i in range(16):
        yield from look_lines(0x20 + i, 0x1B, vary(8192))
    for i in range(16):
        yield from look_lines(0x00 + i, 0x41, vary(8192))
    for i in range(16):
        yield all_letters_line(0x00 + i)
    yield from external_lines()
    for i in range(16):
        yield from look_lines(0x10 + i, 0x41, low)
    for i in range(16):
        yield all_letters_line(0x10 + i)
    yield from draws_lines()


# == try_show


def show_line(control, pin_byte, *lengths, given=vary(65536)):
    """Both at once on marked buffers. The lengths are those of image, font, strip and frame."""
    image = given[:lengths[0]]
    font = mark(3072)[:lengths[1]]
    strip = mark(8192)
    frame = mark(50000)
    answer = numbers.show(control, pin_byte, image, font, room(strip, lengths[2]), room(frame, lengths[3]))
    asked = "show word %04X pins %02X image %d font %d strip %d frame %d" % (control, pin_byte, *lengths)
    kept = ", strip kept from %d, frame kept from %d" % (kept_from(strip), kept_from(frame))
    return asked + told(answer) + kept


def shows_lines():
    """The refusals of both at once in their order, of external text after that, and 16 and 17 last: 16 before 6 and alone, 7 and 8 before 17, 17 before 15 and alone, and both banks fitted."""
    yield show_line(0x1000, 0x40, 65535, 0, 0, 0)
    yield show_line(0x5000, 0x40, 65536, 1152, 8192, 50000)
    yield show_line(0x5000, 0x64, 65536, 1152, 8192, 50000)
    yield show_line(0x1000, 0x10, 65535, 0, 0, 0)
    yield show_line(0x1000, 0x00, 65535, 0, 0, 0)
    yield show_line(0x0000, 0x00, 65535, 0, 0, 0)
    yield show_line(0x4000, 0x00, 65536, 1151, 0, 0)
    yield show_line(0x4000, 0x00, 65536, 1152, 6143, 0)
    yield show_line(0x4000, 0x20, 65536, 1151, 3071, 0)
    yield show_line(0x4000, 0x00, 65536, 1152, 6144, 49151)
    yield show_line(0x4000, 0x00, 65536, 1152, 6144, 49152)
    yield show_line(0x4000, 0x20, 65536, 0, 8192, 50000)
    yield show_line(0x1000, 0x50, 65535, 0, 0, 0)
    yield show_line(0x0000, 0x10, 65535, 0, 0, 0)
    yield show_line(0x4000, 0x10, 65536, 1152, 0, 0)
    yield show_line(0x4000, 0x10, 65536, 3072, 6143, 0)
    yield show_line(0x4000, 0x10, 65536, 3072, 6144, 49151)
    yield show_line(0x4000, 0x10, 65536, 3072, 6144, 49152)
    yield show_line(0x4000, 0x1F, 65536, 3072, 8192, 50000)
    yield show_line(0x0000, 0x00, 65536, 0, 0, 0)
    yield show_line(0x6000, 0x20, 32768, 0, 8192, 50000)
    yield show_line(0x0040, 0x10, 4096, 3072, 6143, 0)
    yield show_line(0x0006, 0x10, 4096, 3072, 6144, 49151)
    yield show_line(0x0006, 0x10, 4096, 3072, 6144, 49152)
    yield show_line(0x0040, 0x00, 4096, 1152, 8192, 50000)
    yield show_line(0x0006, 0x2E, 4096, 0, 8192, 50000)
    yield show_line(0x0006, 0x2E, 8192, 0, 8192, 50000)


def marred_screen_line(control, pin_byte, byte, first, second, length=4096):
    """Both at once of an image of letters with another byte at two places, by the font that the look asks for."""
    image = bytearray(b"A") * length
    image[first] = image[second] = byte
    marred = "byte %02X at %d and %d, " % (byte, first, second)
    return marred + show_line(control, pin_byte, length, draw.font_length(pin_byte), 6144, 49152, given=image)


def marred_screens_lines():
    """Bytes that external text does not show: in the window, where the first fetch is told, and beside it; with windows elsewhere and one that comes round; and before a bank that is not fitted and beside such a window."""
    yield marred_screen_line(0x0000, 0x10, 0x80, 0, 511)
    yield marred_screen_line(0x0000, 0x10, 0xFF, 511, 31)
    yield marred_screen_line(0x0000, 0x10, 0x80, 511, 511)
    yield marred_screen_line(0x0000, 0x10, 0x80, 512, 4095)
    yield marred_screen_line(0x0008, 0x10, 0x80, 511, 1024)
    yield marred_screen_line(0x0008, 0x10, 0x80, 512, 511)
    yield marred_screen_line(0x0004, 0x1F, 0x80, 2047, 2048)
    yield marred_screen_line(0x007E, 0x10, 0x80, 0, 7679, length=8192)
    yield marred_screen_line(0x0006, 0x1F, 0x80, 2047, 2048)
    yield marred_screen_line(0x003E, 0x10, 0x80, 0, 3583)
    yield marred_screen_line(0x0000, 0x10, 0x7F, 0, 511)
    yield marred_screen_line(0x0000, 0x00, 0x80, 0, 511)


def pair_line(control, pin_byte, image, rule=1):
    """An ordinary pair of modes: the sums of strip and frame."""
    strip, frame = bytearray(192 * pins.width(pin_byte)), bytearray(49152)
    answer = numbers.show(control, pin_byte, image, mark(draw.font_length(pin_byte)), strip, frame, rule)
    asked = rule_name(rule) + "show word %04X pins %02X" % (control, pin_byte)
    return asked + told(answer) + ", strip sum %d, frame sum %d" % (total(strip), total(frame))


# The SAM mode that goes with text, and with each graphics mode.
PAIRS = ((0, 0x00), (1, 0x20), (1, 0x22), (2, 0x24), (3, 0x26), (4, 0x28), (5, 0x2A), (6, 0x2C), (6, 0x2E))


def try_show():
    """Both at once: refusals, bytes that are not valid, the ordinary pairs of modes, external text, and pairs under rule 2, ordinary ones and others; in the last it comes to a bank that is not fitted.

    Of the image that external text is shown from, the window's 512 bytes are letters: bytes beside it are not.
    """
    yield from shows_lines()
    yield from marred_screens_lines()
    for mode, pin_byte in PAIRS:
        yield pair_line(0x4000 + mode, pin_byte, vary(65536))
    yield pair_line(0x4000, 0x10, tell(65536, 5))
    for control, pin_byte in ((0x4000, 0x00), (0x4001, 0x20), (0x4000, 0x20), (0x4006, 0x26)):
        yield pair_line(control, pin_byte, vary(65536), rule=2)
    yield pair_line(0x003A, 0x20, vary(4096), rule=2)


# == try_back


def back_line(pin_byte, strip_length, frame_length, colour, pixel, place):
    """Reads back a frame of one colour but for the pixel at a place, of buffers as long as told."""
    pixels = bytearray([colour]) * 50000
    pixels[place] = pixel
    strip = mark(8192)
    answer = numbers.read_back(pin_byte, pixels[:frame_length], room(strip, strip_length))
    asked = "back pins %02X strip %d frame %d" % (pin_byte, strip_length, frame_length)
    asked += " all %d but %d at %d" % (colour, pixel, place)
    return asked + told(answer) + ", strip kept from %d" % kept_from(strip)


def backs_lines():
    """The refusals of reading back in their order, and what is stray."""
    yield back_line(0x40, 0, 0, 9, 9, 0)
    yield back_line(0x00, 0, 0, 9, 9, 0)
    yield back_line(0x20, 3071, 0, 9, 9, 0)
    yield back_line(0x20, 3072, 49151, 9, 9, 0)
    yield back_line(0x20, 3072, 49152, 9, 9, 0)
    yield back_line(0x2E, 6144, 49152, 8, 1, 49151)
    yield back_line(0x20, 3072, 49152, 0, 1, 5)
    yield back_line(0x20, 3072, 49152, 0, 1, 4)
    yield back_line(0x20, 3072, 49152, 0, 4, 8)
    yield back_line(0x2E, 6144, 49152, 8, 0, 49151)
    yield back_line(0x30, 8192, 50000, 0, 9, 49152)


def drawn_line(pin_byte):
    """A strip of varied bytes is drawn, and its frame read back."""
    frame, read = bytearray(49152), bytearray(6144)
    numbers.draw(pin_byte, b"", vary(6144), frame)
    answer = numbers.read_back(pin_byte, frame, read)
    return "drawn and back pins %02X" % pin_byte + told(answer) + ", sum %d" % total(read[:answer[2]])


def try_back():
    """Reading back: refusals and what is stray, and every graphics mode with either CSS."""
    yield from backs_lines()
    for i in range(16):
        yield drawn_line(0x20 + i)


# == try_sheet


def read_line(given):
    """What a sheet yields: its fields, the first annotation, the last, and one past the last."""
    found = sheet.read(given)
    count = len(found.annotations)
    line = number_and_place(found[:2])
    line += " pins %02X rule %d writes %d annotations %d" % (found.pins, found.rule, len(found.writes), count)
    line += " deed " + quoted(found.deed)
    line += " first " + quoted(sheet.annotation(given, 0))
    if count > 0:
        line += " last " + quoted(sheet.annotation(given, count - 1))
    return line + " past " + quoted(sheet.annotation(given, count))


def corner_lines(head, *rests):
    """Each sheet that goes on from a head."""
    for rest in rests:
        yield quoted(head + rest) + read_line(head + rest)


def long_line(head, writes, keys, values, count, more):
    """A long sheet: a head, writes, `count` lines with keys and values as long as told, and some bytes more."""
    line = b"k" * keys + b"=" + b"v" * values + b"\n"
    given = head + b"at=FFC1\n" * writes + line * count + b"a" * more
    asked = "writes %d, %d lines with keys of %d and values of %d" % (writes, count, keys, values)
    return asked + ", %d more, %d bytes" % (more, len(given)) + read_line(given)


def heads_lines():
    """The fixed lines."""
    yield from corner_lines(b"", b"", b"deed=\n", b"dee", b"deed=K", b"deed=K\r\n", b"deed=" + b"A" * 17 + b"\n")
    yield from corner_lines(b"deed=K\n", b"pins=2a\nwrites=0\n", b"pins=2\n", b"pins=200\n")
    head = b"deed=K\npins=20\n"
    yield from corner_lines(head, b"writes=65\n", b"writes=00\n", b"writes=07\n", b"writes=7x\n")
    yield from corner_lines(head, b"writes=\n", b"writes=640\n")
    yield from corner_lines(head, b"rule=1\nwrites=0\n", b"rule=2\nwrites=0\n", b"rule=2\nwrites=0\nrule=3\n", b"rule=2\nrule=2\nwrites=0\n")
    yield from corner_lines(head, b"rule=0\nwrites=0\n", b"rule=3\n", b"rule=\n", b"rule=12\n", b"rules=1\n", b"rul", b"rule=2", b"rule=2\nwrites=65\n")
    head += b"writes=1\n"
    yield from corner_lines(head, b"colour=\n", b"a-=\n", b"at=FFc1\n", b"at=FFC1\n", b"")


def tails_lines():
    """Annotations refused, and accepted."""
    head = b"deed=K\npins=20\nwrites=0\n"
    yield from corner_lines(head, b"", b"deed=x\n", b"pins=20\n", b"writes=0\n", b"at=0000\n")
    yield from corner_lines(head, b"a" * 17 + b"=\n", b"=x\n", b"\n", b"a=x")
    yield from corner_lines(head, b"deeds=x\n", b"a" * 16 + b"=\n", b"a=x\r\n")
    yield from corner_lines(head, b"a==\x00\xff\x80=\n", b"a=1\na=2\nb=3\n")
    yield from corner_lines(b"deed=----------------\npins=FF\nwrites=0\n", b"")


def longs_lines():
    """Values, lines and sheets as long as may be, and longer by one."""
    head = b"deed=K\npins=20\nwrites=0\n"
    yield long_line(head, 0, 1, 121, 1, 0)
    yield long_line(head, 0, 1, 120, 1, 0)
    yield long_line(head, 0, 1, 0, 201, 0)
    yield long_line(head, 0, 1, 0, 200, 0)
    head = b"deed=----------------\npins=FF\nwrites=64\n"
    yield long_line(head, 64, 16, 120, 200, 0)
    yield long_line(head, 64, 16, 120, 200, 1)
    head = b"deed=----------------\npins=FF\nrule=2\nwrites=64\n"
    yield long_line(head, 64, 16, 120, 200, 0)
    yield long_line(head, 64, 16, 120, 200, 1)


def try_sheet():
    """Corners of the sheet."""
    yield from heads_lines()
    yield from tails_lines()
    yield from longs_lines()


# == try_report

REPORTED = (
    b"deed=K-104\npins=20\nwrites=3\nat=FFC1\nat=FFC9\nat=FFD6\nplan-note=north corner\ncolour=\n",
    b"deed=K-104\npins=10\nwrites=3\nat=FFC1\nat=FFC9\nat=FFD6\nplan-note=north corner\ncolour=\n",
    b"deed=K\npins=40\nwrites=0\n",
    b"deed=K\npins=20\nwrites=1\nat=FFD9\na=b\n",
    b"deed=K\npins=20\nwrites=2\nat=FFD9\nat=FFD8\n",
    b"deed=K\npins=20\nwrites=2\nat=FFC1\nat=FFBF\n",
    b"deed=K\npins=FF\nwrites=1\nat=0000\n",
    b"deed=K\npins=FF\nwrites=1\nat=FFD9\n",
    b"deed=K\npins=10\nwrites=1\nat=FFD9\n",
    b"deed=K\npins=30\nwrites=1\nat=FFD3\n",
    b"deed=K\npins=06\nwrites=0\n",
    b"deed=K\npins=1F\nwrites=0\n",
    b"deed=K\npins=2F\nwrites=0\n",
    b"deed=K\npins=20\nrule=1\nwrites=0\n",
    b"deed=K\npins=20\nrule=2\nwrites=1\nat=FFC9\nrule=1\n",
    b"deed=K\npins=20\nrule=2\nwrites=1\nat=FFD9\na=b\n",
    b"",
    b"deed=k\n",
    b"deed=K\npins=2a\n",
    b"deed=K\npins=20\nrule=3\n",
    b"deed=K\npins=20\nwrites=65\n",
    b"deed=K\npins=20\nwrites=1\nat=0\n",
    b"deed=K\npins=20\nwrites=0\nA=\n",
)


# Sheets with the number and place of an operation on their record.
REPORTED_AFTER = (
    (b"deed=K\npins=20\nwrites=0\na=b\n", 0, 0),
    (b"deed=K\npins=20\nwrites=0\na=b\nc=\n", 5, 0),
    (b"deed=K\npins=00\nwrites=0\n", 6, 0),
    (b"deed=K\npins=20\nwrites=0\na=b\n", 9, 49152),
    (b"deed=K\npins=20\nwrites=0\na=b\n", 11, 7),
    (b"deed=K\npins=10\nwrites=0\na=b\n", 15, 5791),
    (b"deed=K\npins=20\nwrites=0\na=b\n", 16, 0),
    (b"deed=K\npins=20\nwrites=0\na=b\n", 17, 1536),
    (b"deed=K\npins=20\nrule=2\nwrites=0\na=b\n", 0, 0),
    (b"deed=K\npins=40\nwrites=0\na=b\n", 5, 0),
    (b"deed=k\n", 5, 0),
)


def try_report():
    """Each sheet with its report, line by line; then those after an operation."""
    for given in REPORTED:
        yield "report of " + quoted(given)
        yield from report.text(given).decode("latin-1").split("\n")[:-1]
    for given, number, place in REPORTED_AFTER:
        yield "report after" + number_and_place((number, place)) + " of " + quoted(given)
        yield from report.text(given, (number, place)).decode("latin-1").split("\n")[:-1]


# == try_chip


def bank_line(way, k, lent, size):
    """One call, with the bytes and the sum of its buffer."""
    buffer = mark(65600)
    run = {"image": chips.to_image, "chip": chips.to_chip}[way]
    answer = run(k, vary(131072)[:lent], room(buffer, size))
    some = " ".join("%02X" % buffer[i] for i in (1, 64, 300, 4097))
    asked = "to %s k %d lent %d room %d" % (way, k, lent, size)
    return asked + told(answer) + ", bytes %s, sum %d, kept from %d" % (some, total(buffer), kept_from(buffer))


def banks_lines():
    """Each k, one bank and two, both ways."""
    yield bank_line("image", 6, 4096, 4096)
    yield bank_line("image", 6, 8192, 65600)
    yield bank_line("image", 7, 16384, 16384)
    yield bank_line("image", 7, 32768, 40000)
    yield bank_line("image", 8, 65536, 65536)
    yield bank_line("chip", 6, 4096, 4097)
    yield bank_line("chip", 6, 8192, 8192)
    yield bank_line("chip", 7, 16384, 65600)
    yield bank_line("chip", 7, 32768, 32768)
    yield bank_line("chip", 8, 65536, 65600)


def bank_refusals_lines():
    """13 and 14 in their order."""
    yield bank_line("image", 5, 1024, 65600)
    yield bank_line("image", 9, 65536, 65600)
    yield bank_line("image", 0, 0, 0)
    yield bank_line("image", 18446744073709551615, 4096, 65600)
    yield bank_line("image", 6, 4095, 65600)
    yield bank_line("image", 6, 12288, 65600)
    yield bank_line("image", 6, 16384, 65600)
    yield bank_line("image", 7, 4096, 65600)
    yield bank_line("image", 8, 131072, 65600)
    yield bank_line("image", 8, 32768, 65600)
    yield bank_line("image", 6, 4095, 0)
    yield bank_line("image", 6, 4096, 4095)
    yield bank_line("chip", 8, 131072, 65600)
    yield bank_line("chip", 7, 49152, 65600)
    yield bank_line("chip", 7, 32768, 32767)
    yield bank_line("chip", 8, 65536, 65535)


def twice_line():
    """Two banks, brought to an image and back to the chips."""
    given, image, again = vary(131072)[:8192], bytearray(8192), bytearray(8192)
    chips.to_image(6, given, image)
    chips.to_chip(6, image, again)
    sums = (total(given), total(image), total(again))
    return "8192 bytes sum %d, as an image %d, and back %d" % sums


def try_chip():
    """The chips of each k."""
    yield from banks_lines()
    yield from bank_refusals_lines()
    yield twice_line()


# == try_canvas

# The greatest number that the program's fields hold, and the length of its lists.
GREATEST = 18446744073709551615
LIST = 33


def at(left, top, across, down, x, y):
    """A placement with marks for its counts."""
    return canvas.Placement(left, top, across, down, x, y, 7001, 9001)


def entry(placement):
    """What is printed of an entry."""
    rectangle = "%d %d %d %d" % (placement.left, placement.top, placement.across, placement.down)
    return ", [%s at %d %d on %d cut %d]" % (rectangle, placement.x, placement.y, placement.on, placement.cut)


def lay_line(placements, width, height, size, frame=49152, count=1):
    """Lays the first `count` of a list on a marked canvas. Entries past the list's end are as they were."""
    before = (placements * LIST)[:LIST]
    after = [replace(placement) for placement in before]
    buffer, pixels = mark(65800), vary(49200)[:frame]
    answer = canvas.lay(pixels, after[:count], width, height, room(buffer, size))
    line = "lay %d on %d by %d canvas %d frame %d" % (count, width, height, size, frame) + told(answer)
    line += "".join(entry(placement) for placement in after[:count])
    kept = sum(1 for one, other in zip(before[count:], after[count:]) if one == other)
    return line + ", rest kept %d, sum %d, kept from %d" % (kept, total(buffer), kept_from(buffer))


def plan_line(width, height, size, x, y):
    """A rectangle of 9 by 7, from a corner on."""
    return lay_line([at(30, 40, 9, 7, x, y)], width, height, size)


def whole_line(width, height, size, x, y):
    """The whole frame, from a corner on."""
    return lay_line([at(0, 0, 256, 192, x, y)], width, height, size)


# Corners on a canvas of 20 by 12: cut at no edge, at each edge and at each corner, down to the pixel in it that is left; then wholly off: just past each edge, and as far as a position goes.
EDGES = (
    (5, 3), (0, 0), (11, 5),
    (-4, 3), (15, 3), (5, -2), (5, 9),
    (-4, -2), (-8, -6), (15, -2), (19, -6), (-4, 9), (-8, 11), (15, 9), (19, 11),
    (-9, 3), (20, 3), (5, -7), (5, 12),
    (-32768, 3), (32767, 3), (5, -32768), (5, 32767), (-32768, 32767), (32767, -32768),
)


def shapes_lines():
    """Canvases of one column, of one line and of one pixel, others that are narrower than what is laid, and the whole frame on some as large as it and larger."""
    yield plan_line(1, 65536, 65536, 0, 32767)
    yield plan_line(1, 65536, 65536, -8, -6)
    yield whole_line(1, 65536, 65536, -4, 32767)
    yield plan_line(65536, 1, 65536, 32767, 0)
    yield plan_line(65536, 1, 65536, -8, -6)
    yield whole_line(65536, 1, 65536, 32767, -4)
    yield plan_line(2, 32768, 65536, -3, 32767)
    yield plan_line(32768, 2, 65536, 32767, -3)
    yield plan_line(1, 1, 1, -8, -6)
    yield whole_line(1, 1, 1, -255, -191)
    yield whole_line(5, 65, 325, -20, 3)
    yield whole_line(256, 192, 49152, 0, 0)
    yield whole_line(256, 256, 65536, 0, 0)
    yield whole_line(256, 256, 65536, 0, 64)
    yield whole_line(256, 256, 65536, -1, 65)
    yield whole_line(256, 192, 49152, 255, -191)
    yield whole_line(256, 192, 49152, -256, 0)


# Canvases, as their sides and how many bytes are lent: a pixel less or more than the sides say, a side of 0, or more than 65,536 pixels, and right ones among them; then sides whose product is past 64 bits, where it would come round to what is lent.
CANVASES = (
    (20, 12, 239), (20, 12, 241), (20, 12, 0), (12, 20, 240),
    (0, 12, 0), (20, 0, 0), (0, 12, 12), (20, 0, 20),
    (65537, 1, 65537), (1, 65537, 65537), (256, 257, 65792), (256, 256, 65536),
    (2 ** 32, 2 ** 32, 0), (2 ** 63, 2, 0), (GREATEST, GREATEST, 1), (2 ** 56 + 256, 256, 65536),
    (GREATEST, 1, 240), (1, GREATEST, 240),
)

# Rectangles that are empty, one column or one line outside, and within the frame up to its last pixel; then some so large, or so far, that left and across, or top and down, would come round.
RECTANGLES = (
    (30, 40, 0, 7), (30, 40, 9, 0), (256, 192, 0, 0),
    (250, 40, 7, 7), (250, 40, 6, 7), (256, 40, 1, 1), (0, 0, 257, 192),
    (30, 190, 9, 3), (30, 190, 9, 2), (30, 192, 1, 1), (0, 0, 256, 193),
    (254, 190, 2, 2), (300, 200, 9, 7),
    (GREATEST, 0, 1, 1), (GREATEST, 0, 2, 1), (0, GREATEST, 1, 1), (0, GREATEST, 1, 2),
    (0, 0, GREATEST, 1), (1, 0, GREATEST, 1), (0, 0, 1, GREATEST), (0, 1, 1, GREATEST),
    (0, 0, 2 ** 32, 2 ** 32),
)


def list_line(placements, count):
    """The first `count` of a list, on a canvas of 64 by 48."""
    return lay_line(placements, 64, 48, 3072, count=count)


def layers_lines():
    """Later placements cover earlier ones: in part, either over the other, wholly, where both are cut, and not where they are off."""
    for first, second in (
        ((30, 40, 9, 7, 2, 2), (90, 80, 6, 8, 7, 1)),
        ((90, 80, 6, 8, 7, 1), (30, 40, 9, 7, 2, 2)),
        ((90, 80, 4, 4, 4, 3), (30, 40, 9, 7, 2, 2)),
        ((30, 40, 9, 7, 2, 2), (30, 40, 9, 7, 2, 2)),
        ((30, 40, 9, 7, -3, -2), (90, 80, 6, 8, -2, -4)),
        ((30, 40, 9, 7, 2, 2), (90, 80, 6, 8, 64, 1)),
    ):
        yield list_line([at(*first)] + [at(*second)] * 32, 2)


# Eight plans: the whole frame below, then one within, one cut at each edge, the last pixel on the last, one off and one over another.
MIXED = (
    (0, 0, 256, 192, -100, -60),
    (10, 20, 30, 12, 5, 6),
    (200, 100, 40, 20, 50, 40),
    (100, 100, 16, 16, -7, 30),
    (255, 191, 1, 1, 63, 47),
    (0, 0, 5, 5, 64, 0),
    (3, 4, 20, 10, 10, -4),
    (10, 20, 30, 12, 8, 9),
)


def mixes_lines():
    """The eight and the first five of them; then another in the place of the frame, and one that is outside."""
    placements = [at(*placement) for placement in MIXED] + [at(7, 7, 7, 7, 7, 7)] * 25
    yield list_line(placements, 8)
    yield list_line(placements, 5)
    placements[0] = at(250, 0, 6, 48, 40, 0)
    yield list_line(placements, 8)
    placements[6] = at(250, 0, 7, 48, 40, 0)
    yield list_line(placements, 8)
    yield list_line(placements, 6)


def lists_lines():
    """Lists of none, of one, of as many as may be and of one more; with marred ones, of which the first is told, and which are not looked at past the list's end.

    The list is one of stairs: each plan further to the right and down, so that some lie over the one before and the last are cut or off.
    """
    placements = [at(k * 7, k * 5, k % 5 + 4, k % 3 + 3, k * 3, k * 2) for k in range(LIST)]
    for count in (0, 1, 32, 33):
        yield list_line(placements, count)
    placements[32] = at(0, 0, 0, 1, 0, 0)
    yield list_line(placements, 32)
    placements[31] = at(0, 0, 256, 193, 0, 0)
    for count in (31, 32, 33):
        yield list_line(placements, count)
    placements[7] = at(0, 0, 1, 0, 0, 0)
    yield list_line(placements, 32)
    placements[0] = at(256, 0, 1, 1, -32768, -32768)
    yield list_line(placements, 3)


def orders_lines():
    """The refusals: each with all that come after it, with the next one, and alone; then a frame with bytes behind it.

    The placements from the third on are empty.
    """
    placements = [at(30, 40, 9, 7, 2, 2), at(90, 80, 6, 8, 7, 1)] + [at(30, 40, 0, 7, 2, 2)] * 31
    for frame, width, size, count in (
        (49151, 0, 239, 33),
        (49151, 20, 239, 2),
        (49151, 20, 240, 2),
        (49151, 20, 240, 0),
        (0, 20, 240, 2),
        (49152, 0, 239, 33),
        (49152, 20, 239, 3),
        (49152, 20, 239, 0),
        (49152, 20, 240, 33),
        (49152, 20, 240, 32),
        (49152, 20, 240, 2),
        (49152, 20, 240, 0),
        (49200, 20, 240, 2),
    ):
        yield lay_line(placements, width, 12, size, frame=frame, count=count)


def try_canvas():
    """One placement at all edges, and on canvases of all shapes; canvases and rectangles that are refused; lists, and the order of the refusals."""
    for corner in EDGES:
        yield plan_line(20, 12, 240, *corner)
    yield from shapes_lines()
    for sides_and_size in CANVASES:
        yield plan_line(*sides_and_size, -2, -1)
    for rectangle in RECTANGLES:
        yield lay_line([at(*rectangle, -1, -1)], 20, 12, 240)
    yield from layers_lines()
    yield from mixes_lines()
    yield from lists_lines()
    yield from orders_lines()


# == try_tally


def counts_of(counts):
    """What is printed of a tally: the counts that are not 0, each behind its status."""
    return "[" + "".join(" %d:%d" % (status, count) for status, count in enumerate(counts) if count) + " ]"


def entry_line(before, status):
    """One entry."""
    after = list(before)
    answer = tally.enter(after, status)
    return counts_of(before) + " enter %d" % status + told(answer) + " " + counts_of(after)


def with_counts(*pairs):
    """A tally that is empty but for some counts."""
    counts = tally.empty()
    for status, count in pairs:
        counts[status] = count
    return counts


def run_line(first, step, size, times):
    """A run of entries from an empty tally: the statuses are first, first + step and so on, each modulo size. What the last is told, and the tally."""
    history = [(first + k * step) % size for k in range(times)]
    answer = tally.refusal(tally.after(history[:-1]), history[-1])
    return "run %d %d %d %d" % (first, step, size, times) + told((answer, 0, 0)) + " " + counts_of(tally.after(history))


# Statuses that have no count.
NO_STATUS = (23, 24, 28, 255, 256, 65535, 65536, 4294967295, 4294967296, GREATEST)

# Tallies that are full or just not, with the status that is entered. 23 times 2,849 is 65,527, and 4,294,967,295 and 1 are nothing in 32 bits.
FULL_OR_NOT = (
    (((0, 65534),), 0),
    (((0, 65535),), 0),
    (((0, 65535),), 22),
    (((0, 65536),), 1),
    (((22, 65534),), 22),
    (((22, 65535),), 22),
    (((0, 65533), (22, 1)), 5),
    (((0, 65534), (22, 1)), 5),
    (((11, 32767), (12, 32767)), 12),
    (((11, 32768), (12, 32767)), 12),
    (((3, 4294967295),), 0),
    (((3, 4294967295), (4, 1)), 0),
    (((3, 4294967295), (4, 4294967295)), 5),
    (((0, 65535),), 23),
    (((3, 4294967295), (4, 1)), GREATEST),
)

# Every count the same, with the status that is entered.
EVEN = ((1, 0), (2849, 22), (2850, 22), (4294967295, 7), (4294967295, 23))

# Runs of entries, as first, step, size and times.
RUNS = ((0, 0, 1, 3), (3, 7, 29, 1000), (0, 1, 23, 65535), (0, 1, 23, 65536), (5, 3, 24, 68000), (5, 3, 24, 70000), (22, 0, 23, 65535), (22, 0, 23, 65536), (23, 0, 24, 70000))


def try_tally():
    """Each status from an empty tally; those that have no count; tallies that are full or just not; and runs of entries."""
    for status in range(tally.TOP_STATUS + 1):
        yield entry_line(tally.empty(), status)
    for status in NO_STATUS:
        yield entry_line(tally.empty(), status)
    for pairs, status in FULL_OR_NOT:
        yield entry_line(with_counts(*pairs), status)
    for count, status in EVEN:
        yield entry_line([count] * (tally.TOP_STATUS + 1), status)
    for run in RUNS:
        yield run_line(*run)


# == try_picture


def stained(colour, place):
    """A frame of varied pixels but for one of this colour at a place."""
    frame = bytearray(vary9(49152))
    frame[place] = colour
    return bytes(frame)


def encode_line(border, frame, size):
    """Makes a picture in a marked buffer. The sum is that of the whole file."""
    buffer = mark(size)
    answer = png.encode(border, frame, buffer)
    line = "encode border %d pixels %d room %d" % (border, len(frame), size)
    line += told(answer) + ", kept from %d" % kept_from(buffer)
    return line + ", sum %d" % total(buffer[:38747]) if answer[0] == 0 else line


def encodes_lines():
    """Pictures of varied frames and of one colour, in rooms as long as may be and longer."""
    for border in (0, 4, 8):
        yield encode_line(border, vary9(49152), 38747)
    yield encode_line(7, vary9(49152), 38750)
    yield encode_line(0, bytes([0]) * 49152, 38747)
    yield encode_line(8, bytes([8]) * 49152, 38747)
    yield encode_line(4, vary9(49152) + bytes([255]) * 3, 38747)


def encode_refusals_lines():
    """8, 9 and 14 in their order."""
    yield encode_line(4, vary9(49151), 38747)
    yield encode_line(9, vary9(49151), 0)
    yield encode_line(4, stained(9, 0), 38747)
    yield encode_line(4, stained(255, 49151), 38747)
    yield encode_line(9, vary9(49152), 38747)
    yield encode_line(255, stained(9, 49151), 38747)
    yield encode_line(4, vary9(49152), 38746)
    yield encode_line(9, vary9(49152), 38746)


def decode_line(name, given, size=49152):
    """Reads a picture into a marked buffer, whose length is told where it is not a frame's. The sum is that of the frame."""
    buffer = mark(size)
    answer = png.decode(given, buffer)
    line = "decode %s" % name + (", room %d" % size if size != 49152 else "")
    line += told(answer) + ", kept from %d" % kept_from(buffer)
    return line + ", sum %d" % total(buffer[:49152]) if answer[0] == 0 else line


def with_byte(given, place, byte):
    """Bytes with another one at a place."""
    return given[:place] + bytes([byte]) + given[place + 1:]


def changed(given, place):
    """Bytes with the lowest bit of one of them turned over."""
    return with_byte(given, place, given[place] ^ 1)


def decodes_lines(given):
    """A picture, a longer one, each part of it changed by a bit, and cut short."""
    yield decode_line("a picture", given)
    yield decode_line("a picture", given, 49155)
    yield decode_line("a picture and a byte more", given + b"\0")
    for place in (0, 20, 45, 83, 87, 88, 3968, 38727, 38731, 38746):
        yield decode_line("byte %d changed" % place, changed(given, place))
    yield decode_line("byte 3968 set to 144", with_byte(given, 3968, 144))
    for length in (0, 50, 88, 89, 20000, 38746):
        yield decode_line("a picture cut to %d bytes" % length, given[:length])
    yield decode_line("a picture", given, 49151)
    yield decode_line("byte 38731 changed", changed(given, 38731), 49151)


def try_picture():
    """Pictures made, and read again: refusals, and what is no picture."""
    yield from encodes_lines()
    yield from encode_refusals_lines()
    yield from decodes_lines(png.picture(4, vary9(49152)))


# == try_lookup

NOTED = (
    b"deed=K-104\npins=20\nwrites=1\nat=FFC1\n"
    b"plan-note=north corner\ncolour=\nplan-note=second\na=b=c\n"
)
COVERING = b"deed=B-7\npins=00\nwrites=0\nparish=Aldmere\ncolour=red\nparish=Thornby\nplan=whole batch\n"
BROKEN = b"deed=B-7\npins=00\nwrites=0\nat=red\n"
BARE = b"deed=B-7\npins=00\nwrites=0\n"

# Keys and values as long as may be, and values of any bytes but 10.
WIDE = BARE + b"a" * 15 + b"=first\n" + b"a" * 16 + b"=second\n" + b"v=" + b"v" * 120 + b"\nbytes=\x00\xff\r==\n"

# Asked of two sheets that have them or not, and what can be no key.
KEYS = (b"plan-note", b"colour", b"parish", b"plan", b"a", b"plan-not", b"plan-note-", b"note")
NO_KEYS = (b"", b"deed", b"pins", b"writes", b"at", b"a=", b"a=b", b"Parish", b"parish\n", b"\nparish", b"plan-note=north corner", b"a" * 17)


def ask_line(record, shared, key):
    """What is told of a key in a record's sheet and its cover, and the value given."""
    return quoted(key) + told(cover.holder(record, shared, key)) + " " + quoted(cover.value(record, shared, key).content)


def asks_lines(record, shared, *keys):
    """Both sheets, and a line for each key that is asked."""
    yield "record " + quoted(record) + " cover " + quoted(shared)
    for key in keys:
        yield ask_line(record, shared, key)


def brokens_lines():
    """Sheets that are refused: the record's, the cover, both, and an empty one."""
    yield from asks_lines(BROKEN, COVERING, b"parish", b"at")
    yield from asks_lines(NOTED, BROKEN, b"plan-note", b"parish")
    yield from asks_lines(b"deed=K-104\npins=2x\n", BROKEN, b"plan-note")
    yield from asks_lines(NOTED, BARE + b"par", b"a")
    yield from asks_lines(NOTED, b"", b"a", b"")
    yield from asks_lines(b"", COVERING, b"parish")


def many_lines():
    """200 annotations, of which the last alone has another key: in the record's sheet, in the cover, in both."""
    many = BARE + b"k=v\n" * 199 + b"last=200\n"
    for name, record, shared in (("record", many, BARE), ("cover", BARE, many), ("both", many, many)):
        for key in (b"k", b"last", b"las"):
            yield "200 lines, " + name + " " + ask_line(record, shared, key)


def try_lookup():
    """Keys asked of a record's sheet and a cover."""
    yield from asks_lines(NOTED, COVERING, *KEYS, *NO_KEYS)
    yield from asks_lines(COVERING, NOTED, *KEYS)
    yield from asks_lines(NOTED, NOTED, b"a", b"parish")
    yield from asks_lines(BARE, WIDE, b"a" * 15, b"a" * 16, b"a" * 17, b"v", b"bytes", b"rule")
    yield from asks_lines(BARE, BARE, b"a")
    yield from brokens_lines()
    yield from many_lines()


# == All programs: those that are given nothing print lines, and the tools answer their standard input.

TRIALS = {
    "try_control": try_control,
    "try_fetch": try_fetch,
    "try_valid": try_valid,
    "try_draw": try_draw,
    "try_show": try_show,
    "try_back": try_back,
    "try_sheet": try_sheet,
    "try_report": try_report,
    "try_chip": try_chip,
    "try_canvas": try_canvas,
    "try_tally": try_tally,
    "try_picture": try_picture,
    "try_lookup": try_lookup,
}


def report_tool(given, arguments):
    """The report program."""
    return report.text(given)


def chips_tool(given, arguments):
    """The chips program."""
    return chips.program(arguments, given)


EXAMPLE_SHEET = b"deed=K-104\npins=20\nwrites=3\nat=FFC1\nat=FFC9\nat=FFD6\n"


def record(given, image):
    """What both at once tell of an image by its sheet, which is in graphics, and the frame."""
    found = sheet.read(given)
    control = word.play(word.RESET, found.writes)[2]
    frame = bytearray(49152)
    return numbers.show(control, found.pins, image, b"", bytearray(6144), frame, found.rule), bytes(frame)


def example_tool(given, arguments):
    """The worked example: the frame of an image, as its sheet asks. A refusal prints nothing."""
    answer, frame = record(EXAMPLE_SHEET, given[:4096])
    return frame if answer[0] == 0 else b""


def copy_tool(given, arguments):
    """The clerk's copy of the example record: its report, once the copy is whole."""
    answer, _ = record(plan.SHEET, plan.image())
    return report.text(plan.SHEET, answer[:2])


def restore_tool(given, arguments):
    """The strip out of the copy of the example record: what is answered, in the report's manner."""
    frame = bytearray(49152)
    answer = png.decode(plan_copy(), frame)
    if answer[0] == 0:
        answer = numbers.read_back(int(arguments[0], 16), frame, bytearray(6144))
    lines = [b"status=%d\n" % answer[0], b"place=%d\n" % answer[1]]
    return b"".join(lines if answer[0] else lines[:1])


def note_tool(given, arguments):
    """The note under a key in the sheets that are named: the example record's, and the cover of its batch."""
    sheets = {b"plan.sheet": plan.SHEET, b"cover.sheet": plan.COVER}
    return cover.text(sheets[arguments[1]], sheets[arguments[2]], arguments[0])


# The batch of the program `batch`: a record of each status that a record can have, each word, and a last line without its end.
BATCH_SHEETS = {
    b"plan.sheet": plan.SHEET,
    b"letter.sheet": b"deed=K-105\npins=00\nwrites=0\nfrom=Aldmere\n",
    b"own-characters.sheet": b"deed=K-106\npins=10\nwrites=0\n",
    b"pins-above.sheet": b"deed=K-107\npins=40\nwrites=0\n",
    b"fast.sheet": b"deed=K-108\npins=20\nwrites=1\nat=FFD9\n",
    b"elsewhere.sheet": b"deed=K-109\npins=20\nwrites=2\nat=FFC1\nat=FFE0\n",
    b"broken.sheet": b"deed=K-110\npins=2x\n",
}
BATCH = (
    b"plan.sheet\tplan.image\t-\tK-104\n"
    b"letter.sheet\tbank.image\tterminal.font\tK-105\n"
    b"letter.sheet\tbank.image\t-\tK-105\n"
    b"own-characters.sheet\tbank.image\tcharacter.rom\tK-106\n"
    b"pins-above.sheet\tbank.image\t-\tK-107\n"
    b"fast.sheet\tbank.image\t-\tK-108\n"
    b"elsewhere.sheet\tbank.image\t-\tK-109\n"
    b"broken.sheet\tbank.image\t-\tK-110\n"
    b"plan.sheet\tbank.image\t-\tK-111\n"
    b"plan.sheet\tterminal.font\t-\tK-112\n"
    b"plan.sheet\tfour-banks.image\t-\tK-113\n"
    b"\n"
    b"plan.sheet\tplan.image\tK-114\n"
    b"plan.sheet\tmissing.image\t-\tK-115\n"
    b"plan.sheet\tplan.image\t-\tK-104\n"
    b"letter.sheet\tbank.image\tterminal.font\tK-104\n"
    b"letter.sheet\tbank.image\tterminal.font\tK-116"
)


def bank_image():
    """The first bank of the example record's image, with a byte in its first line that external text does not show."""
    content = bytearray(plan.image()[:4096])
    content[5] = 200
    return bytes(content)


BATCH_FILES = {
    b"plan.image": plan.image,
    b"bank.image": bank_image,
    b"four-banks.image": lambda: bytes(16384),
    b"terminal.font": lambda: vary(1152),
    b"character.rom": lambda: vary(3072),
}


def batch_tool(given, arguments):
    """The batch program, with the files of its folder."""
    return batch.program(given, {**BATCH_SHEETS, **{name: BATCH_FILES[name]() for name in BATCH_FILES}})


TOOLS = {
    "report": report_tool,
    "chips": chips_tool,
    "example": example_tool,
    "copy": copy_tool,
    "batch": batch_tool,
    "restore": restore_tool,
    "note": note_tool,
}


# == Other files: the example record, and its copy.


def plan_sheet():
    """The sheet of the example record."""
    return plan.SHEET


def plan_cover():
    """The cover sheet of the batch that the example record belongs to."""
    return plan.COVER


def plan_copy():
    """The copy of the example record: the picture of its frame, with the border that is told."""
    answer, frame = record(plan.SHEET, plan.image())
    return png.picture(answer[2], frame)


def batch_input():
    """The batch program's input."""
    return BATCH


FILES = {
    "crates/copy/data/plan.sheet": plan_sheet,
    "crates/copy/data/plan.image": plan.image,
    "crates/restore/data/plan.png": plan_copy,
    "docs/copy.png": plan_copy,
    "crates/note/data/plan.sheet": plan_sheet,
    "crates/note/data/cover.sheet": plan_cover,
    "crates/batch/stdin": batch_input,
    **{"crates/batch/data/" + name.decode(): lambda name=name: BATCH_SHEETS[name] for name in BATCH_SHEETS},
    **{"crates/batch/data/" + name.decode(): BATCH_FILES[name] for name in BATCH_FILES},
}


def printed(trial):
    """The whole output of a trial program."""
    return "".join(line + "\n" for line in TRIALS[trial]()).encode("latin-1")
