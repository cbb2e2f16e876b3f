"""Figures to check by: document 01's own, figures of CR 1 counted by hand, the case of CR 2 with what it says of the other letters, figures of CR 5 counted by hand, the case of CR 6 with sheets and addresses counted by hand, figures of CR 7, of CR 8, of CR 9 and of CR 10 counted by hand, and those of the standards that a picture file goes by, held against these modules."""

import zlib

import batch
import canvas
import cover
import draw
import fetch
import numbers
import pins
import png
import report
import sheet
import tally
import word

PIN_MODES = TEXT, EXTERNAL, CG1, RG1, CG2, RG2, CG3, RG3, CG6, RG6 = 0x00, 0x10, 0x20, 0x22, 0x24, 0x26, 0x28, 0x2A, 0x2C, 0x2E


def address(control, pin_byte, line, byte, rule=1):
    """The address of a line's byte."""
    return fetch.addresses(control, pin_byte, rule)[line * pins.width(pin_byte) + byte]


def drawn(pin_byte, byte, line, font=bytes(1152)):
    """The dots of one byte on a line."""
    return list(draw.byte_dots(pin_byte, font, byte, line % 12))


def font_with(pattern, row, length=1152):
    """A font that is empty but for row 0 of one pattern."""
    font = bytearray(length)
    font[12 * pattern] = row
    return bytes(font)


def read_back(pin_byte, colour, place):
    """What is told of a frame of one colour but for a 1 at a place."""
    frame = bytearray([colour]) * 49152
    frame[place] = 1
    return numbers.read_back(pin_byte, frame, bytearray(6144))


def control_writes():
    """P1 to P4."""
    yield "P1", word.play(0x0000, [0xFFC1, 0xFFC9, 0xFFD6]), (0, 0, 0x0011)
    yield "P2", word.play(0x0000, [0xFFDF]), (0, 0, 0x8000)
    yield "P3", word.play(0xFFFF, [0xFFC0]), (0, 0, 0xFFFE)
    yield "P4", word.play(0x0000, [0xFFC1, 0xFFBF]), (10, 1, 0x0000)


def fetched_addresses():
    """P5 to P9."""
    yield "P5", address(0x0011, CG1, 2, 15), 0x040F
    yield "P5", address(0x0011, CG1, 3, 0), 0x0410
    yield "P5", address(0x0011, CG1, 191, 15), 0x07FF
    yield "P6", address(0x0000, TEXT, 12, 0), 0x0020
    yield "P6", address(0x0000, TEXT, 191, 31), 0x01FF
    yield "P7", address(0x03FE, RG6, 15, 31), 0xFFFF
    yield "P7", address(0x03FE, RG6, 16, 0), 0x0000
    yield "P8", address(0x0000, CG1, 100, 0), 0x0000
    yield "P9", address(0x0001, TEXT, 0, 16), 0x0000
    yield "P9", address(0x0001, TEXT, 1, 16), 0x0010


def dots():
    """P10 to P12 and the text figure."""
    yield "P10", drawn(CG1, 0x1B, 0), [0] * 4 + [1] * 4 + [2] * 4 + [3] * 4
    yield "P11", drawn(RG6 + 1, 0xA5, 0), [4, 8, 4, 8, 8, 4, 8, 4]
    yield "P12", drawn(TEXT, 0xB9, 5), [3] * 4 + [8] * 4
    yield "P12", drawn(TEXT, 0xB9, 6), [8] * 4 + [3] * 4
    yield "text 41", drawn(TEXT, 0x41, 0, font_with(1, 0x18)), [0, 0, 0, 8, 8, 0, 0, 0]


def shown(pin_byte, byte):
    """Which pattern a letter shows, and whether inverted."""
    return draw.pattern(pin_byte, byte), draw.inverted(pin_byte, byte)


def lower_case():
    """CR 2: its case, where lower case begins and ends, dark on colour and exchanged, and that from 32 on all looks as with GM0 = 0."""
    for byte, said in (
        (0x01, (65, True)),
        (0x61, (33, True)),
        (0x00, (64, True)),
        (0x1F, (95, True)),
        (0x20, (32, False)),
        (0x41, (1, True)),
    ):
        yield "pins 02", (byte, shown(0x02, byte)), (byte, said)
    for pin_byte, said in ((0x02, [0, 0, 0, 8, 8, 0, 0, 0]), (0x06, [8, 8, 8, 0, 0, 8, 8, 8])):
        yield "lower case", (pin_byte, drawn(pin_byte, 0x01, 0, font_with(65, 0x18))), (pin_byte, said)
        yield "from 32 on", (pin_byte, drawn(pin_byte, 0x61, 0, font_with(33, 0x18))), (pin_byte, said)
    for byte in range(32, 128):
        yield "as with GM0 = 0", (byte, shown(0x02, byte)), (byte, shown(0x00, byte))


def external():
    """CR 5: the pattern is the whole byte, DD6 inverts, GM0 is not read, GM1 exchanges, and CSS 1 is orange; border, W and names."""
    for pin_byte, byte, said in (
        (0x10, 0x00, (0, False)),
        (0x10, 0x3F, (63, False)),
        (0x10, 0x40, (64, True)),
        (0x10, 0x7F, (127, True)),
        (0x12, 0x00, (0, False)),
        (0x12, 0x61, (97, True)),
    ):
        yield "external", (pin_byte, byte, shown(pin_byte, byte)), (pin_byte, byte, said)
    for pin_byte, lit, unlit in ((0x10, 0, 8), (0x11, 7, 8), (0x12, 0, 8), (0x14, 8, 0), (0x17, 8, 7)):
        for byte, one, other in ((0x01, lit, unlit), (0x41, unlit, lit)):
            found = drawn(pin_byte, byte, 0, font_with(byte, 0x18, 3072))
            yield "external dots", (pin_byte, byte, found), (pin_byte, byte, [other] * 3 + [one] * 2 + [other] * 3)
    for pin_byte, said in ((0x10, 8), (0x18, 0), (0x19, 7), (0x1D, 8)):
        yield "external border", (pin_byte, pins.border(pin_byte)), (pin_byte, said)
    for pin_byte, said in ((0x0F, ("A4", 32)), (0x10, ("EXT", 32)), (0x1F, ("EXT", 32)), (0x30, ("CG1", 16))):
        yield "external name", (pin_byte, (pins.mode(pin_byte), pins.width(pin_byte))), (pin_byte, said)


def with_byte(content, place, byte):
    """The content with another byte at a place."""
    found = bytearray(content)
    found[place] = byte
    return found


def draw_external(strip, font_length=3072, frame_length=49152):
    """What is told of an external strip, and whether the frame was kept."""
    frame = bytearray(b"?") * frame_length
    answer = numbers.draw(0x10, bytes(font_length), strip, frame)
    return answer, frame == bytearray(b"?") * frame_length


def show_external(image):
    """What both at once tell of an image of external text, and whether strip and frame were kept."""
    strip, frame = bytearray(b"?") * 6144, bytearray(b"?") * 49152
    answer = numbers.show(0x0000, 0x10, image, bytes(3072), strip, frame)
    return answer, strip == bytearray(b"?") * 6144, frame == bytearray(b"?") * 49152


def not_valid():
    """CR 5: 6 asks for 3,072; 15 is the first byte of 128 or more that is drawn, after 8; fetching alone never gives it.

    The window of word 0000 is the first 512 bytes of the image; byte 31 of its last row is fetched first on line 180.
    """
    plain, high = bytes(6145), bytes([0x80]) * 6144
    yield "3,072 bytes", draw_external(plain), ((0, 0, 8), False)
    yield "1,152 bytes", draw_external(plain, font_length=1152), ((6, 0, 0), True)
    yield "the last byte", draw_external(with_byte(plain, 6143, 0x80)), ((15, 6143, 0), True)
    yield "past the last", draw_external(with_byte(plain, 6144, 0xFF)), ((0, 0, 8), False)
    yield "byte 7F", draw_external(with_byte(plain, 0, 0x7F)), ((0, 0, 8), False)
    yield "the first of two", draw_external(with_byte(with_byte(plain, 5, 0x80), 3, 0xFF)), ((15, 3, 0), True)
    yield "8 before 15", draw_external(high, frame_length=49151), ((8, 0, 0), True)
    image = bytes(4096)
    yield "shown", show_external(image), ((0, 0, 8), False, False)
    yield "in the window", show_external(with_byte(image, 511, 0x80)), ((15, 5791, 0), True, True)
    yield "beside the window", show_external(with_byte(image, 512, 0x80)), ((0, 0, 8), False, False)
    yield "fetched", numbers.fetch(0x0000, 0x10, with_byte(image, 511, 0x80), bytearray(6144)), (0, 0, 6144)


def refusals():
    """Stray pixels, sheets, and pins 64 with R1 set."""
    head = b"deed=K\npins=20\nwrites=6"
    yield "RG6 stray", read_back(RG6, 8, 49151), (9, 49151, 0)
    yield "CG1 stray", read_back(CG1, 0, 5), (9, 5, 0)
    yield "empty sheet", sheet.read(b"")[:2], (11, 0)
    yield "empty deed", sheet.read(b"deed=\n")[:2], (11, 5)
    yield "writes=65", sheet.read(head + b"5\n")[:2], (11, len(head))
    yield "pins 64 with R1", numbers.fetch(0x1000, 64, bytes(65536), bytearray(6144)), (1, 0, 0)


def longest_sheet():
    """The length that document 01 gives the longest sheet, and CR 6 the longest with a rule; both are accepted."""
    fixed = b"deed=" + b"A" * 16 + b"\npins=FF\nwrites=64\n" + b"at=FFC0\n" * 64
    longest = fixed + (b"k" * 16 + b"=" + b"v" * 120 + b"\n") * 200
    yield "longest sheet without a rule", (len(longest), sheet.read(longest).number), (28152, 0)
    longest = longest.replace(b"\nwrites=", b"\nrule=2\nwrites=", 1)
    yield "longest sheet", (len(longest), sheet.read(longest).number), (28159, 0)


def reports():
    """The report's example, and with pins=10, which CR 5 makes status 0; CR 6 adds the rule after control."""
    example = (
        b"deed=K-104\npins=20\nwrites=3\nat=FFC1\nat=FFC9\nat=FFD6\n"
        b"plan-note=north corner\ncolour=\n"
    )
    yield "report", report.text(example), (
        b"status=0\ndeed=K-104\npins=20\ncontrol=0011\nrule=1\nmode=CG1\nstart=0400\n"
        b"annotations=2\nplan-note=north corner\ncolour=\n"
    )
    yield "report pins=10", report.text(example.replace(b"pins=20", b"pins=10")), (
        b"status=0\ndeed=K-104\npins=10\ncontrol=0011\nrule=1\nmode=EXT\nstart=0400\n"
        b"annotations=2\nplan-note=north corner\ncolour=\n"
    )


def rule_addresses():
    """CR 6: its case, and others counted by hand; where the rules agree, for all pins but CSS and all SAM modes.

    A line of 16 bytes leaves B4 set where X is 1, so with B4 cleared each line counts on the Y divider: a row of 32 places lasts Y lines.
    """
    yield "P8 under rule 2", address(0x0000, CG1, 100, 0, 2), 0x0100
    yield "rule 2, before the Yth line", address(0x0000, CG1, 11, 15, 2), 0x000F
    yield "rule 2, after the Yth line", address(0x0000, CG1, 12, 0, 2), 0x0020
    yield "rule 2, Y = 3", address(0x0002, CG1, 191, 15, 2), 0x07EF
    yield "rule 2, Y = 1", address(0x0006, CG1, 191, 0, 2), 0x17E0
    yield "rule 2, past FFFF", address(0x03FE, CG1, 16, 0, 2), 0x0000
    yield "rule 2, B4 kept", address(0x0001, CG1, 191, 15, 2), 0x03FF
    yield "rule 2, B4 not set", address(0x0000, TEXT, 191, 31, 2), 0x01FF
    for pin_byte in range(0, 64, 2):
        for control in range(8):
            alike = fetch.addresses(control, pin_byte, 1) == fetch.addresses(control, pin_byte, 2)
            said = pins.width(pin_byte) == 32 or control in (1, 3, 5, 7)
            yield "rules alike", (control, pin_byte, alike), (control, pin_byte, said)
            if fetch.paired(control, pin_byte):
                yield "rules alike where they are paired", (control, pin_byte, alike), (control, pin_byte, True)


def rule_sheets():
    """CR 6: sheets with a rule and without, the places of broken ones, and the report's line."""
    head, rest = b"deed=K\npins=20\n", b"writes=0\n"
    for line, said in ((b"", (0, 0, 1)), (b"rule=1\n", (0, 0, 1)), (b"rule=2\n", (0, 0, 2))):
        found = sheet.read(head + line + rest)
        yield "rule", (line, (found.number, found.place, found.rule)), (line, said)
    for line, place in (
        (b"rule=3\n", 5),
        (b"rule=0\n", 5),
        (b"rule=\n", 5),
        (b"rule=12\n", 6),
        (b"rule=2\nrule=2\n", 7),
        (b"rules=1\n", 4),
    ):
        yield "broken rule", (line, sheet.read(head + line + rest)[:2]), (line, (11, len(head) + place))
    for cut in (b"r", b"rul", b"rule=", b"rule=2", b"rule=2\n"):
        yield "cut rule", (cut, sheet.read(head + cut)[:2]), (cut, (11, len(head + cut)))
    yield "rule before pins", sheet.read(b"deed=K\nrule=1\npins=20\nwrites=0\n")[:2], (11, 7)
    noted = sheet.read(head + b"rule=2\n" + rest + b"rule=3\nrule=\n")
    yield "rule as a key", (noted.number, noted.rule, noted.annotations), (0, 2, [b"rule=3", b"rule="])
    broken = sheet.read(head + b"rule=2\n" + b"writes=65\n")
    yield "rule of a broken sheet", (broken.number, broken.rule), (11, 1)
    yield "report of rule 2", report.text(head + b"rule=2\n" + rest), (
        b"status=0\ndeed=K\npins=20\ncontrol=0000\nrule=2\nmode=CG1\nstart=0000\nannotations=0\n"
    )


def fetch_from(control, pin_byte, image, rule=1, room=6144):
    """What fetching tells of an image, and whether the strip was kept."""
    strip = bytearray(b"?") * room
    answer = numbers.fetch(control, pin_byte, image, strip, rule)
    return answer, strip == bytearray(b"?") * room


def show_from(control, pin_byte, image, font, room, frame_room):
    """What both at once tell of an image, and whether strip and frame were kept."""
    strip, frame = bytearray(b"?") * room, bytearray(b"?") * frame_room
    answer = numbers.show(control, pin_byte, image, bytes(font), strip, frame)
    return answer, strip == bytearray(b"?") * room, frame == bytearray(b"?") * frame_room


def suited_lengths():
    """CR 7: each M with each length, which is suited or 16, and with lengths that are none of the five: 5. The window is 16 bytes from 0000 on.

    16 comes after 1, 4 and 5, and before 7.
    """
    for control, suited in ((0x0000, (4096, 8192)), (0x2000, (16384, 32768)), (0x4000, (65536,)), (0x6000, (65536,))):
        for length in (4096, 8192, 16384, 32768, 65536):
            said = ((0, 0, 3072), False) if length in suited else ((16, 0, 0), True)
            yield "suited", (control, length, fetch_from(control, CG1, bytes(length))), (control, length, said)
        for length in (0, 4095, 4097, 12288, 65535, 65537):
            yield "none of the five", (control, length, fetch_from(control, CG1, bytes(length))), (control, length, ((5, 0, 0), True))
    yield "1 before 16", fetch_from(0x0000, 64, bytes(65536)), ((1, 0, 0), True)
    yield "4 before 16", fetch_from(0x1000, CG1, bytes(65536)), ((4, 0, 0), True)
    yield "5 before 16", fetch_from(0x0000, CG1, bytes(65535), room=0), ((5, 0, 0), True)
    yield "16 before 7", fetch_from(0x0000, CG1, bytes(65536), room=0), ((16, 0, 0), True)
    yield "7 alone", fetch_from(0x4000, CG1, bytes(65536), room=3071), ((7, 0, 0), True)


def image_places():
    """CR 7: the place by B12 and B0-B11, by B14 and B0-B13, and by all bits; and of the byte after 512 from a start on, past a bank's end and past FFFF.

    P, R0 and TY, which are set in the last five words, alter nothing.
    """
    for control, places in (
        (0x0000, ((0x0000, 0), (0x0FFF, 4095), (0x1000, 4096), (0x1FFF, 8191), (0x2000, 0), (0x3000, 4096), (0xE234, 564), (0xFFFF, 8191))),
        (0x2000, ((0x0000, 0), (0x2FFF, 12287), (0x3FFF, 16383), (0x4000, 16384), (0x8000, 0), (0xBFFF, 16383), (0xC001, 16385), (0xFFFF, 32767))),
        (0x4000, ((0x0000, 0), (0x1000, 4096), (0x4000, 16384), (0x8000, 32768), (0xFFFF, 65535))),
        (0x6000, ((0x0000, 0), (0x1000, 4096), (0x4000, 16384), (0x8000, 32768), (0xFFFF, 65535))),
    ):
        for place in places:
            yield "image place", (control, (place[0], fetch.image_place(control, place[0]))), (control, place)
    for control, length, last, after in (
        (0x003E, 8192, 4095, 4096),
        (0x007E, 8192, 8191, 0),
        (0x03FE, 8192, 8191, 0),
        (0x20FE, 32768, 16383, 16384),
        (0x21FE, 32768, 32767, 0),
        (0x23FE, 32768, 32767, 0),
        (0x43FE, 65536, 65535, 0),
        (0x63FE, 65536, 65535, 0),
        (0x8C3E, 8192, 4095, 4096),
        (0x8FFE, 8192, 8191, 0),
        (0xACFE, 32768, 16383, 16384),
        (0xAFFE, 32768, 32767, 0),
        (0xCFFE, 65536, 65535, 0),
    ):
        image = with_byte(with_byte(bytes(length), last, 1), after, 2)
        found = fetch.strip(control, RG6, image)
        yield "512 bytes on", (control, list(found[510:514]), sum(found)), (control, [0, 1, 2, 0], 3)


# CR 7: windows of boards with one bank, as word, pins, rule, and the strip index that 17 tells, or None where the window has only fitted places.
# B12 is first set at 1000, and B14 at 4000. In the ordinary pairs a row of W places lasts 12 lines in text, and 3, 3, 2, 2, 1, 1 from SAM mode 1 to 6.
ONE_BANK_4096 = (
    (0x0000, TEXT, 1, None),  # 0000 to 01FF
    (0x0038, TEXT, 1, None),  # 0E00 to 0FFF
    (0x0040, TEXT, 1, 0),  # from 1000
    (0x0078, TEXT, 1, 0),  # from 1E00
    (0x0080, TEXT, 1, None),  # 2000 to 21FF
    (0x03F8, TEXT, 1, 0),  # from FE00
    (0x03FE, RG6, 1, 0),  # from FE00 past FFFF
    (0x0031, CG1, 1, None),  # 0C00 to 0FFF
    (0x0039, CG1, 1, 1536),  # 512 bytes are 32 rows of 16, each on 3 lines: line 96
    (0x003A, CG2, 1, 1536),  # 16 rows of 32 on 3 lines: line 48
    (0x003B, RG2, 1, 1024),  # 32 rows of 16 on 2 lines: line 64
    (0x003C, CG3, 1, 1024),  # 16 rows of 32 on 2 lines: line 32
    (0x003D, RG3, 1, 512),  # line 32
    (0x003E, RG6, 1, 512),  # line 16
    (0x0036, RG6, 1, 1024),  # 1,024 bytes on from 0C00
    (0x0006, RG6, 1, 4096),  # 4,096 bytes on from 0000
    (0x0106, RG6, 1, 4096),  # and from 4000
    (0x0039, TEXT, 1, 1536),  # each 16 places are fetched 3 times: 32 times 48
    (0x003B, TEXT, 2, 1024),  # each twice: 32 times 32
    (0x003F, CG1, 2, 512),  # mode 7 clears nothing
    (0x003E, RG6, 2, 512),  # no line ends with B4 set
    (0x003A, CG1, 1, None),  # rule 1 stays on the first 16 places
    (0x003E, CG1, 1, None),
    (0x0038, CG1, 2, None),  # 16 rows of 32 from 0E00
    (0x003A, CG1, 2, 768),  # 16 rows on 3 lines of 16 bytes
    (0x003C, CG1, 2, 512),  # on 2
    (0x003E, CG1, 2, 256),  # on 1
)
ONE_BANK_16384 = (
    (0x2000, TEXT, 1, None),
    (0x2040, TEXT, 1, None),  # 1000 to 11FF
    (0x20F8, TEXT, 1, None),  # 3E00 to 3FFF
    (0x2100, TEXT, 1, 0),  # from 4000
    (0x2200, TEXT, 1, None),  # 8000 to 81FF
    (0x22F8, TEXT, 1, None),  # BE00 to BFFF
    (0x2300, TEXT, 1, 0),  # from C000
    (0x23FE, RG6, 1, 0),  # from FE00 past FFFF
    (0x20A6, RG6, 1, None),  # 2800 to 3FFF
    (0x20AE, RG6, 1, 5632),  # 4000 lies 5,632 bytes on from 2A00: line 176
    (0x22FE, RG6, 1, 512),  # C000 lies 512 bytes on from BE00
    (0x20D4, CG3, 1, None),  # 3400 to 3FFF
    (0x20DC, CG3, 1, 5120),  # 2,560 bytes on from 3600, 80 rows on 2 lines: line 160
    (0x20F9, CG1, 1, 1536),
    (0x20FE, CG1, 1, None),
    (0x20FE, CG1, 2, 256),
)


def not_fitted():
    """CR 7: the first fetch from a bank not fitted, which no byte of the image alters, nor P, R0 and TY; with two banks all is fetched. A refusal keeps the strip."""
    for length, windows in ((4096, ONE_BANK_4096), (16384, ONE_BANK_16384)):
        for control, pin_byte, rule, place in windows:
            asked = (control, pin_byte, rule)
            done = ((0, 0, 192 * pins.width(pin_byte)), False)
            said = done if place is None else ((17, place, 0), True)
            yield "one bank", (asked, fetch_from(control, pin_byte, bytes(length), rule)), (asked, said)
            yield "other bytes and bits", (asked, fetch_from(control | 0x8C00, pin_byte, b"\xFF" * length, rule)), (asked, said)
            yield "two banks", (asked, fetch_from(control, pin_byte, bytes(2 * length), rule)), (asked, done)
    yield "7 before 17", fetch_from(0x0040, TEXT, bytes(4096), room=6143), ((7, 0, 0), True)


def missing_shown():
    """CR 7: both at once checks 16 after 5 and before 6, and 17 after 8 and before 15. Strip and frame are kept."""
    kept, high = (True, True), b"\x80" * 4096
    for name, asked, said in (
        ("5 before 16", (0x0000, TEXT, bytes(65535), 0, 0, 0), 5),
        ("16 before 6", (0x0000, TEXT, bytes(65536), 0, 0, 0), 16),
        ("16 before 7", (0x0000, CG1, bytes(65536), 0, 0, 0), 16),
        ("16 alone", (0x2000, CG1, bytes(8192), 0, 6144, 49152), 16),
        ("6 before 17", (0x0040, EXTERNAL, high, 1152, 0, 0), 6),
        ("7 before 17", (0x0040, EXTERNAL, high, 3072, 6143, 0), 7),
        ("8 before 17", (0x0040, EXTERNAL, high, 3072, 6144, 49151), 8),
        ("17 at 0", (0x0040, EXTERNAL, high, 3072, 6144, 49152), 17),
    ):
        yield name, show_from(*asked), ((said, 0, 0), *kept)
    buffers = (3072, 6144, 49152)
    yield "17 before 15", show_from(0x0006, EXTERNAL, high, *buffers), ((17, 4096, 0), *kept)
    yield "17 without 15", show_from(0x0006, EXTERNAL, bytes(4096), *buffers), ((17, 4096, 0), *kept)
    yield "15 with the bank fitted", show_from(0x0006, EXTERNAL, high + bytes(4096), *buffers), ((15, 0, 0), *kept)
    yield "15 in the second bank", show_from(0x0006, EXTERNAL, bytes(4096) + high, *buffers), ((15, 4096, 0), *kept)
    yield "15 in a window that is fitted", show_from(0x0038, EXTERNAL, high, *buffers), ((15, 0, 0), *kept)
    yield "past the window", show_from(0x0000, EXTERNAL, bytes(4096) + high, *buffers), ((0, 0, 8), False, False)
    yield "never by fetching alone", fetch_from(0x0006, EXTERNAL, bytes(4096) + high), ((0, 0, 6144), False)


# CR 8: the count of SAM modes 0 to 7, by the bytes a line and the rule. Each X and Y divides 192, so what lasts X or Y lines is counted 192 / X or 192 / Y times.
TOUCHED = {
    # A line is one run of 16 places. Where B4 is kept a run lasts X lines, and where it is cleared the first run lasts for all 192.
    (16, 1): (16, 1024, 16, 1536, 16, 3072, 16, 3072),
    # Where B4 is cleared the first run of a row of 32 places lasts Y lines.
    (16, 2): (256, 1024, 1024, 1536, 1536, 3072, 3072, 3072),
    # A line is two runs. Where X is 1 they are a row, which lasts Y lines; where X is 3 three lines are aa, ab and bb, and where X is 2 two are aa and bb, so each is counted.
    (32, 1): (512, 6144, 2048, 6144, 3072, 6144, 6144, 6144),
    (32, 2): (512, 6144, 2048, 6144, 3072, 6144, 6144, 6144),
}

# CR 8: how many places lie from the start of these windows to their end.
REACHES = {
    # The runs that are counted lie one after the other.
    (16, 1): (16, 1024, 16, 1536, 16, 3072, 16, 3072),
    # Where B4 is cleared they lie 32 places apart, so the last ends 16 places before its row.
    (16, 2): (496, 1024, 2032, 1536, 3056, 3072, 6128, 3072),
    # 384 runs are 192 rows where X and Y are 1; where X is 3 or 2, each third or second of them is another run.
    (32, 1): (512, 2048, 2048, 3072, 3072, 6144, 6144, 6144),
    (32, 2): (512, 2048, 2048, 3072, 3072, 6144, 6144, 6144),
}

# CR 8: boards, as word, image length, and how many places from the start on are fitted.
BOARDS = (
    (0x0000, 4096, 4096),
    (0x00B0, 4096, 1024),  # 2C00 to 2FFF
    (0x0038, 4096, 512),  # 0E00 to 0FFF
    (0x0040, 4096, 0),  # from 1000
    (0x0078, 8192, 65536),  # from 1E00 past the image's end
    (0x03F8, 8192, 65536),  # from FE00 past FFFF
    (0x2200, 16384, 16384),  # 8000 to BFFF
    (0x20D0, 16384, 3072),  # 3400 to 3FFF
    (0x23F8, 16384, 0),  # from FE00
    (0x20F8, 32768, 65536),  # from 3E00 into the second bank
    (0x23F8, 32768, 65536),
    (0x43F8, 65536, 65536),
    (0x63F8, 65536, 65536),
)


def bytes_a_line(pin_byte):
    """W, by document 01's table."""
    return 16 if pin_byte in (CG1, RG1, RG2, RG3) else 32


def count(control, pin_byte, length, rule=1, room=6144):
    """The count that fetching reports of an image as long as told."""
    return numbers.fetch_count(control, pin_byte, bytes(length), bytearray(room), rule)


def touched_modes():
    """CR 8: every SAM mode with text, external text and each graphics mode, under both rules; P8, and that no count is above 6,144."""
    for pin_byte in PIN_MODES:
        for rule in (1, 2):
            for mode, said in enumerate(TOUCHED[bytes_a_line(pin_byte), rule]):
                asked = (mode, pin_byte, rule)
                yield "touched", (asked, fetch.touched(0x4000 + mode, pin_byte, rule)), (asked, said)
    yield "P8", [count(0x4000, CG1, 65536, rule) for rule in (1, 2)], [16, 256]
    counts = [count(0x4000 + mode, pin_byte, 65536) for pin_byte in PIN_MODES for mode in range(8)]
    yield "the greatest count", max(counts), 6144


def touched_boards():
    """CR 8: with each M and each length suited to it the count is the same, past FFFF and past the image's end too; where a place is not fitted it is 0."""
    for control, length, fitted in BOARDS:
        for pin_byte, rule in ((CG1, 1), (CG1, 2), (TEXT, 1), (RG6, 2)):
            key = (bytes_a_line(pin_byte), rule)
            for mode, (said, reach) in enumerate(zip(TOUCHED[key], REACHES[key])):
                asked = (control + mode, pin_byte, rule, length)
                yield "board", (asked, count(control + mode, pin_byte, length, rule)), (asked, said if reach <= fitted else 0)


def touched_lines():
    """CR 8: where the runs of a line lie, as word, pins, rule, line and the first place of each run.

    512 bytes on from a start are 32 runs, which last 96 lines in SAM mode 1: line 96 has come round, or is in the next bank.
    """
    for control, pin_byte, rule, line, runs in (
        (0x4000, CG1, 1, 191, (0,)),  # P8
        (0x4000, CG1, 2, 11, (0,)),
        (0x4000, CG1, 2, 12, (32,)),
        (0x4001, TEXT, 1, 0, (0, 0)),  # P9: line 1 has the first run of line 0, and only its second is another
        (0x4001, TEXT, 1, 1, (0, 16)),
        (0x4001, TEXT, 1, 2, (16, 16)),
        (0x4001, TEXT, 1, 3, (32, 32)),
        (0x4003, TEXT, 1, 1, (16, 16)),
        (0x4000, TEXT, 1, 11, (0, 16)),
        (0x4000, TEXT, 1, 12, (32, 48)),
        (0x43F9, CG1, 1, 95, (65520,)),
        (0x43F9, CG1, 1, 96, (0,)),
        (0x0079, CG1, 1, 95, (8176,)),
        (0x0079, CG1, 1, 96, (0,)),
        (0x21F9, CG1, 1, 95, (32752,)),
        (0x21F9, CG1, 1, 96, (0,)),
        (0x20F9, CG1, 2, 96, (16384,)),
    ):
        asked = (control, pin_byte, rule, line)
        said = [first + k for first in runs for k in range(16)]
        yield "places", (asked, fetch.line_places(control, pin_byte, rule)[line]), (asked, said)


def touched_starts():
    """CR 8: CG1 with SAM mode 1, M1 set and an image of 65,536 gives 1,024 from every start, the last of which passes FFFF; M0, P, R0 and TY alter nothing, nor CSS and INT/EXT."""
    for start in range(128):
        control = 0x4001 + 8 * start
        yield "CG1", (control, count(control, CG1, 65536)), (control, 1024)
    for control, pin_byte in ((0x43F9, CG1), (0x6001, 0x21), (0x63F9, 0x30), (0xCC01, 0x31), (0xEFF9, CG1)):
        yield "CG1 under rule 2", (control, count(control, pin_byte, 65536, 2)), (control, 1024)


def touched_refused():
    """CR 8: a refused call reports 0, of a window too that comes to a missing bank on a later line; with all right it reports the count."""
    for number, said, asked in (
        (0, 16, (0x4000, CG1, 65536, 1, 3072)),
        (1, 0, (0x4000, 64, 65536, 1, 6144)),
        (1, 0, (0x5000, 64, 0, 2, 0)),
        (4, 0, (0x5000, CG1, 65536, 1, 6144)),
        (5, 0, (0x4000, CG1, 65535, 1, 6144)),
        (16, 0, (0x4000, CG1, 32768, 1, 6144)),
        (7, 0, (0x4000, CG1, 65536, 1, 3071)),
        (7, 0, (0x4000, TEXT, 65536, 1, 6143)),
        (17, 0, (0x0040, CG1, 4096, 1, 6144)),
        (17, 0, (0x0039, CG1, 4096, 1, 6144)),  # on line 96
        (0, 16, (0x003A, CG1, 4096, 1, 6144)),  # rule 1 stays on the first run
        (17, 0, (0x003A, CG1, 4096, 2, 6144)),
    ):
        control, pin_byte, length, rule, room = asked
        told = fetch_from(control, pin_byte, bytes(length), rule, room)[0][0]
        yield "refused", (asked, told, count(*asked)), (asked, number, said)


# CR 9: rectangles of a frame of question marks, as left, top, across, down: ABC over DEF from column 7, line 5 on, and 12 over 34 in its last corner.
ABC = (7, 5, 3, 2)
LAST = (254, 190, 2, 2)
MARKS = (7001, 9001)


def plan_frame(length):
    """The frame, cut short or with more question marks behind it."""
    frame = bytearray(b"?") * 49152
    for place, row in ((1287, b"ABC"), (1543, b"DEF"), (48894, b"12"), (49150, b"34")):
        frame[place:place + len(row)] = row
    return (frame + b"?" * 8)[:length]


def lay_on(size, *placements, frame_length=49152, room=None):
    """Placements, as rectangle, x and y, laid on a canvas of dots: what is told, the counts of each entry, which has marks before, and the canvas."""
    dots = bytearray(b".") * (size[0] * size[1] if room is None else room)
    entries = [canvas.Placement(*rectangle, x, y, *MARKS) for rectangle, x, y in placements]
    answer = canvas.lay(plan_frame(frame_length), entries, *size, dots)
    return answer, [(entry.on, entry.cut) for entry in entries], dots


def picture_of(size, *placements):
    """The same with the canvas as it looks, line by line."""
    answer, counts, dots = lay_on(size, *placements)
    return answer, counts, " ".join(dots[at:at + size[0]].decode() for at in range(0, len(dots), size[0]))


def places_of(size, *placements):
    """The same with the places of the canvas that are no longer dots, for canvases that are too large to look at."""
    answer, counts, dots = lay_on(size, *placements)
    return answer, counts, [(place, chr(byte)) for place, byte in enumerate(dots) if byte != ord(".")]


# CR 9: where the corner of ABC over DEF goes on a canvas of 4 by 3, the pixels on it and cut, and the canvas.
CORNERS = (
    ((0, 0), (6, 0), "ABC. DEF. ...."),
    ((1, 1), (6, 0), ".... .ABC .DEF"),
    ((-1, 0), (4, 2), "BC.. EF.. ...."),  # the left edge
    ((-2, 1), (2, 4), ".... C... F..."),
    ((2, 0), (4, 2), "..AB ..DE ...."),  # the right edge
    ((3, 1), (2, 4), ".... ...A ...D"),
    ((0, -1), (3, 3), "DEF. .... ...."),  # the top edge
    ((1, 2), (3, 3), ".... .... .ABC"),  # the bottom edge
    ((-1, -1), (2, 4), "EF.. .... ...."),  # the four corners
    ((-2, -1), (1, 5), "F... .... ...."),
    ((2, -1), (2, 4), "..DE .... ...."),
    ((3, -1), (1, 5), "...D .... ...."),
    ((-1, 2), (2, 4), ".... .... BC.."),
    ((-2, 2), (1, 5), ".... .... C..."),
    ((2, 2), (2, 4), ".... .... ..AB"),
    ((3, 2), (1, 5), ".... .... ...A"),
)

# CR 9: corners from which all of it falls off: just past each edge, past two edges, and as far as a position goes.
OFF = (
    (-3, 0), (4, 0), (0, -2), (0, 3),
    (-3, -2), (4, -2), (-3, 3), (4, 3),
    (-32768, 0), (32767, 0), (0, -32768), (0, 32767),
    (-32768, -32768), (32767, -32768), (-32768, 32767), (32767, 32767),
)


def canvas_cuts():
    """CR 9: a rectangle cut at each edge and corner, at two edges that face each other, and wholly off; on it and cut are the area."""
    for corner, counts, said in CORNERS:
        yield "cut", (corner, picture_of((4, 3), (ABC, *corner))), (corner, ((0, 0, 0), [counts], said))
    for corner in OFF:
        yield "off", (corner, picture_of((4, 3), (ABC, *corner))), (corner, ((0, 0, 0), [(0, 6)], ".... .... ...."))
    for size, corner, counts, said in (
        ((1, 1), (-1, -1), (1, 5), "E"),
        ((1, 1), (-2, 0), (1, 5), "C"),
        ((1, 3), (-1, 1), (2, 4), ". B E"),
        ((4, 1), (1, -1), (3, 3), ".DEF"),
        ((2, 2), (-1, 0), (4, 2), "BC EF"),
    ):
        yield "edges that face", (size, corner, picture_of(size, (ABC, *corner))), (size, corner, ((0, 0, 0), [counts], said))
    yield "one line of it", picture_of((4, 3), ((7, 6, 2, 1), 3, 0)), ((0, 0, 0), [(1, 1)], "...D .... ....")
    yield "one column of it", picture_of((4, 3), ((9, 5, 1, 2), 0, -1)), ((0, 0, 0), [(1, 1)], "F... .... ....")


def canvas_layers():
    """CR 9: later placements cover earlier ones, whose covered pixels still count as on the canvas; the frame's last pixels; none at all."""
    yield "12 over ABC", picture_of((4, 3), (ABC, 0, 0), (LAST, 1, 1)), ((0, 0, 0), [(6, 0), (4, 0)], "ABC. D12. .34.")
    yield "ABC over 12", picture_of((4, 3), (LAST, 1, 1), (ABC, 0, 0)), ((0, 0, 0), [(4, 0), (6, 0)], "ABC. DEF. .34.")
    yield "covered wholly", picture_of((4, 3), (LAST, 1, 0), (ABC, 0, 0)), ((0, 0, 0), [(4, 0), (6, 0)], "ABC. DEF. ....")
    yield "twice the same", picture_of((4, 3), (ABC, 2, 2), (ABC, 2, 2)), ((0, 0, 0), [(2, 4), (2, 4)], ".... .... ..AB")
    yield "beside each other", picture_of((4, 3), (LAST, -1, 0), (ABC, 1, 0)), ((0, 0, 0), [(2, 2), (6, 0)], "2ABC 4DEF ....")
    yield "three", picture_of((4, 3), (ABC, 0, 1), (LAST, 2, 0), (ABC, -1, -1)), ((0, 0, 0), [(6, 0), (4, 0), (2, 4)], "EF12 AB34 DEF.")
    yield "one off between", picture_of((4, 3), (ABC, 0, 0), (ABC, 4, 0), (LAST, 0, 0)), ((0, 0, 0), [(6, 0), (0, 6), (4, 0)], "12C. 34F. ....")
    yield "the last pixel", picture_of((4, 3), ((255, 191, 1, 1), 3, 2)), ((0, 0, 0), [(1, 0)], ".... .... ...4")
    yield "none at all", picture_of((4, 3)), ((0, 0, 0), [], ".... .... ....")
    singles = [((7, 5, 1, 1), column, 0) for column in range(32)]
    yield "32 placements", picture_of((33, 1), *singles), ((0, 0, 0), [(1, 0)] * 32, "A" * 32 + ".")


def canvas_sizes():
    """CR 9: canvases of one column and of one line that are as large as may be, and the whole frame of 256 by 192 with its 49,152 pixels."""
    for corner, counts, places in (
        ((0, 32767), (2, 4), [(32767, "A"), (32768, "D")]),
        ((-2, 32767), (2, 4), [(32767, "C"), (32768, "F")]),
        ((-1, -1), (1, 5), [(0, "E")]),
        ((1, 32767), (0, 6), []),
        ((0, -32768), (0, 6), []),
    ):
        yield "1 by 65,536", (corner, places_of((1, 65536), (ABC, *corner))), (corner, ((0, 0, 0), [counts], places))
    for corner, counts, places in (
        ((32767, 0), (3, 3), [(32767, "A"), (32768, "B"), (32769, "C")]),
        ((32767, -1), (3, 3), [(32767, "D"), (32768, "E"), (32769, "F")]),
        ((-1, 0), (2, 4), [(0, "B"), (1, "C")]),
        ((32767, 1), (0, 6), []),
        ((-32768, 0), (0, 6), []),
    ):
        yield "65,536 by 1", (corner, places_of((65536, 1), (ABC, *corner))), (corner, ((0, 0, 0), [counts], places))
    for size, corner, counts in (
        ((256, 192), (0, 0), (49152, 0)),
        ((256, 256), (0, 64), (49152, 0)),
        ((256, 256), (0, 65), (48896, 256)),  # its last line is cut
        ((256, 256), (-1, 0), (48960, 192)),  # its first column
        ((256, 192), (255, 191), (1, 49151)),
        ((256, 192), (-255, -191), (1, 49151)),
        ((256, 192), (-256, 0), (0, 49152)),
        ((16, 16), (-100, -100), (256, 48896)),
    ):
        yield "the whole frame", (size, corner, lay_on(size, ((0, 0, 256, 192), *corner))[:2]), (size, corner, ((0, 0, 0), [counts]))
    canvas_as_frame = lay_on((256, 192), ((0, 0, 256, 192), 0, 0))[2]
    yield "the frame on a canvas of its size", canvas_as_frame == plan_frame(49152), True


def refusal_of(size, *placements, frame_length=49152, room=None):
    """What is told of placements, and whether every entry and the canvas were kept."""
    answer, counts, dots = lay_on(size, *placements, frame_length=frame_length, room=room)
    return answer, counts == [MARKS] * len(placements) and dots == bytearray(b".") * len(dots)


def canvas_unfit():
    """CR 9: 18 for a canvas that has a pixel less or more than its sides say, a side of 0, or more than 65,536; other shapes of as many pixels are right."""
    for size, room in (
        ((4, 3), 11), ((4, 3), 13), ((4, 3), 0),
        ((0, 3), 0), ((4, 0), 0), ((0, 0), 0), ((0, 3), 3), ((4, 0), 4),
        ((65537, 1), 65537), ((1, 65537), 65537), ((256, 257), 65792), ((65536, 2), 65536),
        ((2 ** 32, 2 ** 32), 0),  # 2^64 pixels
        ((2 ** 64 - 1, 2 ** 64 - 1), 1),  # 2^128 - 2^65 + 1
        ((2 ** 56 + 256, 256), 65536),  # 2^64 + 65,536
    ):
        yield "18", (size, room, refusal_of(size, (ABC, 0, 0), room=room)), (size, room, ((18, 0, 0), True))
    for size in ((4, 3), (3, 4), (12, 1), (1, 12), (256, 256), (65536, 1), (1, 65536), (2, 32768)):
        yield "a right canvas", (size, refusal_of(size)), (size, ((0, 0, 0), True))


def canvas_outside():
    """CR 9: 20 for a rectangle that is empty or reaches outside the frame, wherever it goes, with the index of the first such placement."""
    for rectangle in (
        (7, 5, 0, 2), (7, 5, 3, 0), (7, 5, 0, 0), (0, 0, 0, 192), (255, 191, 0, 1),
        (254, 5, 3, 2), (253, 5, 4, 2), (256, 5, 1, 1), (0, 0, 257, 1), (1, 0, 256, 1),
        (7, 191, 3, 2), (7, 190, 3, 3), (7, 192, 1, 1), (0, 0, 1, 193), (0, 1, 1, 192),
        (300, 200, 3, 2), (2 ** 64 - 1, 0, 1, 1), (2 ** 64 - 1, 0, 2, 1), (0, 2 ** 64 - 1, 1, 1), (0, 2 ** 64 - 1, 1, 2),
        (0, 0, 2 ** 64 - 1, 1), (0, 0, 1, 2 ** 64 - 1), (1, 0, 2 ** 64 - 1, 1), (0, 0, 2 ** 32, 2 ** 32),
    ):
        for corner in ((0, 0), (-32768, 32767)):
            yield "20", (rectangle, corner, refusal_of((4, 3), (rectangle, *corner))), (rectangle, corner, ((20, 0, 0), True))
    bad = ((254, 5, 3, 2), 0, 0)
    for count, places, said in ((2, (1,), 1), (4, (1, 3), 1), (4, (3, 2), 2), (32, (31,), 31), (32, (0, 31), 0)):
        placements = [bad if k in places else (ABC, 0, 0) for k in range(count)]
        yield "20 at its place", (count, places, refusal_of((4, 3), *placements)), (count, places, ((20, said, 0), True))
    for rectangle in ((254, 5, 2, 2), (7, 190, 3, 2), (255, 191, 1, 1), (0, 0, 256, 1), (0, 0, 1, 192), (0, 0, 256, 192)):
        yield "within the frame", (rectangle, lay_on((4, 3), (rectangle, 0, 0))[0]), (rectangle, (0, 0, 0))


def canvas_order():
    """CR 9: 8, 18, 19 and 20, each before those after it, and alone; a frame that is longer, and lists of 32 and of none."""
    good, bad = (ABC, 0, 0), ((7, 5, 0, 2), 0, 0)
    few, many, worse = [good], [good] * 33, [good] * 30 + [bad] * 3
    for said, size, placements, frame_length, room in (
        (8, (0, 3), worse, 49151, 12),
        (8, (4, 3), few, 49151, 12),
        (8, (4, 3), few, 0, 12),
        (8, (4, 3), [], 49151, 12),
        (18, (0, 3), worse, 49152, 12),
        (18, (4, 3), [bad], 49152, 11),
        (18, (4, 3), [], 49152, 11),
        (19, (4, 3), worse, 49152, 12),
        (19, (4, 3), many, 49152, 12),
    ):
        asked = (size, len(placements), frame_length, room)
        yield "order", (asked, refusal_of(size, *placements, frame_length=frame_length, room=room)), (asked, ((said, 0, 0), True))
    yield "20 last", refusal_of((4, 3), *worse[:31]), ((20, 30, 0), True)
    for frame_length in (49152, 49153, 49160):
        found = lay_on((4, 3), good, frame_length=frame_length)
        yield "a whole frame", (frame_length, found), (frame_length, ((0, 0, 0), [(6, 0)], bytearray(b"ABC.DEF.....")))
    yield "32 are laid", lay_on((4, 3), *many[:32]), ((0, 0, 0), [(6, 0)] * 32, bytearray(b"ABC.DEF....."))


# CR 10: a board that shows an empty sheet's screen: text from address 0, and CG1 of which 3,072 bytes are fetched.
TEXT_SHEET = b"deed=A\npins=00\nwrites=0\n"
PLAN_SHEET = b"deed=A\npins=20\nwrites=1\nat=FFC1\n"


def tally_of(**counts):
    """A tally with these counts, named c0 to c22; the others are 0."""
    return [counts.get("c%d" % status, 0) for status in range(23)]


def entered(before, status):
    """What is told of an entry, and the tally that it leaves."""
    counts = list(before)
    return tally.enter(counts, status), counts


def tally_entries():
    """CR 10: one more of a status from 0 to 22; 21 for every other; 22 from a sum of 65,535 on, whatever the counts, and 21 before it; refused, the tally stays."""
    for status in range(23):
        yield "one entered", entered(tally_of(c5=9), status), ((0, 0, 0), [9 * (k == 5) + (k == status) for k in range(23)])
    top, wide = 4294967295, 4294967296
    for before, status, said in (
        (tally_of(), 23, 21), (tally_of(), 28, 21), (tally_of(), 255, 21), (tally_of(), 256, 21), (tally_of(), wide, 21), (tally_of(), 2 ** 64 - 1, 21),
        (tally_of(c0=65535), 0, 22), (tally_of(c0=65534, c22=1), 1, 22), (tally_of(c22=65535), 22, 22), (tally_of(c7=65536), 0, 22),
        (tally_of(c1=top), 0, 22), (tally_of(c1=top, c2=1), 0, 22), (tally_of(c1=top, c2=top), 3, 22), ([top] * 23, 11, 22), ([2850] * 23, 4, 22),
        (tally_of(c0=65535), 23, 21), ([top] * 23, 2 ** 64 - 1, 21),
    ):
        yield "refused", (before, status, entered(before, status)), (before, status, ((said, 0, 0), before))
    for before, status, after in (
        (tally_of(c0=65534), 0, tally_of(c0=65535)),
        (tally_of(c22=65534), 22, tally_of(c22=65535)),
        (tally_of(c0=65533, c22=1), 4, tally_of(c0=65533, c4=1, c22=1)),
        ([2849] * 23, 22, [2849] * 22 + [2850]),  # 23 times 2,849 is 65,527
    ):
        yield "just not full", entered(before, status), ((0, 0, 0), after)


def tally_histories():
    """CR 10: after any history each count is the number of accepted entries with its status, and the sum is the number accepted; entry by entry it is the same."""
    for history, said in (
        ([], tally_of()),
        ([0, 11, 0, 22, 23, 0], tally_of(c0=3, c11=1, c22=1)),
        ([23, 2 ** 64 - 1], tally_of()),
        ([0] * 65536 + [4], tally_of(c0=65535)),
        ([23] * 3 + [1] * 65534 + [23, 2, 2], tally_of(c1=65534, c2=1)),
    ):
        counts, told = tally.empty(), []
        for status in history:
            told.append(tally.enter(counts, status)[0])
        yield "a history", (counts, tally.after(history), sum(counts)), (said, said, told.count(0))


def batch_text(given, **files):
    """What a batch prints, with files whose names end in `.f`, as text."""
    return batch.program(given, {name.encode() + b".f": content for name, content in files.items()}).decode()


def batches():
    """CR 10: a line for each record, done or refused, in order; a word where there is no number; the tally with each status that occurred and the sum."""
    good = {"s": PLAN_SHEET, "t": TEXT_SHEET, "i": bytes(4096), "n": bytes(1152)}
    tail = "tally\tsum\t"
    for given, said in (
        (b"", tail + "0\n"),
        (b"s.f\ti.f\t-\tx\n", "0\t0\tx\ntally\t0\t1\n" + tail + "1\n"),
        (b"s.f\ti.f\t-\tx", "0\t0\tx\ntally\t0\t1\n" + tail + "1\n"),
        (b"t.f\ti.f\t-\tx\nt.f\ti.f\tn.f\tx\n", "6\t0\tx\n0\t0\tx\ntally\t0\t1\ntally\t6\t1\n" + tail + "2\n"),
        (b"s.f\ti.f\t-\tx\ns.f\ti.f\t-\tx\nt.f\ti.f\tn.f\tx\n", "0\t0\tx\nwhole\t0\tx\ntaken\t0\tx\ntally\t0\t1\n" + tail + "1\n"),
        (b"\n\ns.f\ti.f\t-\t\ns.f\ti.f\t-\tx\ty\ns.f\ti.f\t-\tx\r\n", "".join("bad-line\t%d\t-\n" % n for n in range(1, 6)) + tail + "0\n"),
        (b"q.f\ti.f\t-\tx\ns.f\tq.f\t-\tx\ns.f\ti.f\tq.f\tx\n", "unread\t0\tx\n" * 3 + tail + "0\n"),
        (b"i.f\ti.f\t-\tx\ns.f\ts.f\t-\ty\n", "11\t0\tx\n5\t0\ty\ntally\t5\t1\ntally\t11\t1\n" + tail + "2\n"),
    ):
        yield "a batch", (given, batch_text(given, **good)), (given, said)
    paths = b"\t".join([b"p" * 4095] * 4)
    for line, said in ((paths, "unread\t0\t" + "p" * 4095), (paths + b"p", "bad-line\t1\t-"), (b"p" * 1000000, "bad-line\t1\t-")):
        yield "a long line", batch_text(line + b"\n"), said + "\n" + tail + "0\n"
    full = batch_text(b"i.f\ti.f\t-\tx\n" * 65536, **good).split("\n")
    yield "a full tally", full[65534:], ["11\t0\tx", "tally\t11\t65535", tail + "65535", "11\t0\tx", "tally\t11\t1", tail + "1", ""]


def checks():
    """The check values of CRC-32 and Adler-32, and the last chunk, which is the same in every PNG file."""
    yield "CRC-32 of 123456789", zlib.crc32(b"123456789"), 0xCBF43926
    yield "Adler-32 of Wikipedia", zlib.adler32(b"Wikipedia"), 0x11E60398
    yield "IEND", png.chunk(b"IEND", b""), bytes.fromhex("00000000 49454E44 AE426082")


def chunks(file):
    """The name of each chunk of a file with what it holds, by the lengths that the file says."""
    place = 8
    while place < len(file):
        end = place + 8 + int.from_bytes(file[place:place + 4], "big")
        yield file[place + 4:place + 8], file[place + 8:end]
        place = end + 4


def inflated(stream, rows):
    """What zlib says of a stream: whether it holds the rows, or what is wrong with it."""
    try:
        return "the rows" if zlib.decompress(stream) == rows else "other bytes"
    except zlib.error as fault:
        return str(fault)


def picture_files():
    """A picture's length, its chunks, where its rows begin, what zlib finds in it, and its pixels read again."""
    frame = bytes(k % 9 for k in range(49152))
    file, rows = png.picture(4, frame), png.rows(4, frame)
    held = dict(chunks(file))
    yield "length", len(file), 38747
    yield "chunks", [name for name, _ in chunks(file)], [b"IHDR", b"PLTE", b"IDAT", b"IEND"]
    yield "IHDR", held[b"IHDR"], bytes.fromhex("00000140 000000F0 04 03 00 00 00")
    yield "rows", file[87:87 + len(rows)] == rows, True
    yield "zlib", inflated(held[b"IDAT"], rows), "the rows"
    yield "pixels", png.pixels(file) == (4, frame), True


def covers():
    """CR 1: the record's first value, one that only the cover has, an empty one, none; 11 for the cover, and 11 for the record before it."""
    record = b"deed=A\npins=00\nwrites=0\na=1\na=2\n"
    shared = b"deed=A\npins=00\nwrites=0\nb=\nab=3\na=4\n"
    for key, answer, part in (
        (b"a", (0, 0, 0), (0, 26, b"1")),
        (b"ab", (0, 0, 1), (1, 30, b"3")),
        (b"b", (0, 0, 1), (1, 26, b"")),
        (b"c", (12, 0, 0), (0, 0, b"")),
        (b"", (12, 0, 0), (0, 0, b"")),
        (b"a=", (12, 0, 0), (0, 0, b"")),
    ):
        yield "holder", (key, cover.holder(record, shared, key)), (key, answer)
        yield "value", (key, cover.value(record, shared, key)), (key, part)
    yield "cover broken", cover.holder(record, b"deed=", b"a"), (11, 5, 0)
    yield "cover broken, no such key", cover.holder(record, b"deed=", b"c"), (11, 5, 0)
    yield "both broken", cover.holder(b"deed", b"deed=", b"a"), (11, 4, 0)
    yield "nothing beside a cover that is broken", cover.value(record, b"deed=", b"a"), (0, 0, b"")
    yield "printed", cover.text(record, shared, b"ab"), b"status=0\nsheet=cover\nvalue=3\n"
    yield "printed of a broken cover", cover.text(record, b"deed=", b"a"), b"status=11\nsheet=cover\nplace=5\n"
    yield "printed of no key", cover.text(record, shared, b"c"), b"status=12\nplace=0\n"


CHAPTERS = {
    "document 01": (control_writes, fetched_addresses, dots, refusals, longest_sheet, reports),
    "CR 1": (covers,),
    "CR 2": (lower_case,),
    "CR 5": (external, not_valid),
    "CR 6": (rule_addresses, rule_sheets),
    "CR 7": (suited_lengths, image_places, not_fitted, missing_shown),
    "CR 8": (touched_modes, touched_boards, touched_lines, touched_starts, touched_refused),
    "CR 9": (canvas_cuts, canvas_layers, canvas_sizes, canvas_unfit, canvas_outside, canvas_order),
    "CR 10": (tally_entries, tally_histories, batches),
    "the picture file": (checks, picture_files),
}


def wrong():
    """A line for each figure that these modules do not meet."""
    return [
        "%s, %s: expected %r, found %r" % (source, name, said, found)
        for source in CHAPTERS
        for chapter in CHAPTERS[source]
        for name, found, said in chapter()
        if found != said
    ]
