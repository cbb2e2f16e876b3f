"""The numbers a clerk sees: each condition, the order of each operation, and what it tells and stores."""

from types import SimpleNamespace as Lent

from back import first_stray
from back import read_back as strip_of
from draw import FRAME_LENGTH, LINES, border, first_not_valid, font_length
from draw import frame as frame_of
from fetch import first_missing, image_lengths, touched
from fetch import strip as fetched
from pins import is_graphics, width
from word import bit

IMAGE_LENGTHS = (4096, 8192, 16384, 32768, 65536)

# When each number is given, of what an operation is lent.
CONDITIONS = {
    1: lambda lent: lent.pins > 63,
    3: lambda lent: not is_graphics(lent.pins),
    4: lambda lent: bit(lent.word, "R1") == 1,
    5: lambda lent: len(lent.image) not in IMAGE_LENGTHS,
    6: lambda lent: not is_graphics(lent.pins) and len(lent.font) != font_length(lent.pins),
    7: lambda lent: len(lent.strip) < LINES * width(lent.pins),
    8: lambda lent: len(lent.frame) < FRAME_LENGTH,
    9: lambda lent: first_stray(lent.pins, lent.frame) is not None,
    10: lambda lent: lent.played_number == 10,
    11: lambda lent: lent.sheet_number == 11,
    15: lambda lent: first_not_valid(lent.pins, drawn_bytes(lent)) is not None,
    16: lambda lent: len(lent.image) not in image_lengths(lent.word),
    17: lambda lent: first_missing(lent.word, lent.pins, lent.image, lent.rule) is not None,
}

# The places that are not 0.
PLACES = {
    9: lambda lent: first_stray(lent.pins, lent.frame),
    10: lambda lent: lent.played_place,
    11: lambda lent: lent.sheet_place,
    15: lambda lent: first_not_valid(lent.pins, drawn_bytes(lent)),
    17: lambda lent: first_missing(lent.word, lent.pins, lent.image, lent.rule),
}

# CR 5: 2 is no longer given, and 15 is checked last by drawing and by both at once, never by fetching alone.
# CR 7: 16 is checked after 5, and 17 after 8 and before 15.
FETCHING = (1, 4, 5, 16, 7, 17)
DRAWING = (1, 6, 7, 8, 15)
BOTH = (1, 4, 5, 16, 6, 7, 8, 17, 15)
READING_BACK = (1, 3, 7, 8, 9)
REPORT = (11, 10, 1, 4)


def drawn_bytes(lent):
    """The bytes that are drawn: those of the strip that is lent, and where an image is lent those that are fetched from it."""
    return fetched(lent.word, lent.pins, lent.image, lent.rule) if hasattr(lent, "image") else lent.strip


def told(order, lent):
    """The number and place: the first number of the order whose condition holds, or 0."""
    for number in order:
        if CONDITIONS[number](lent):
            return number, PLACES[number](lent) if number in PLACES else 0
    return 0, 0


def store(buffer, content):
    """Puts content at a buffer's beginning. The bytes past it stay."""
    buffer[:len(content)] = content


# Each operation stores in the buffers that it is lent (bytearrays) and tells (number, place, value).
# A refusal stores nothing and has the value 0. Where no rule is named it is rule 1.


def fetch(word, pins, image, strip, rule=1):
    """Fetches the strip. The value is its length."""
    number, place = told(FETCHING, Lent(word=word, pins=pins, rule=rule, image=image, strip=strip))
    if number != 0:
        return number, place, 0
    content = fetched(word, pins, image, rule)
    store(strip, content)
    return 0, 0, len(content)


def fetch_count(word, pins, image, strip, rule=1):
    """CR 8: the count that fetching reports beside what it tells. A refused call reports 0."""
    number, _ = told(FETCHING, Lent(word=word, pins=pins, rule=rule, image=image, strip=strip))
    return touched(word, pins, rule) if number == 0 else 0


def draw(pins, font, strip, frame):
    """Draws the frame. The value is the border."""
    number, place = told(DRAWING, Lent(pins=pins, font=font, strip=strip, frame=frame))
    if number != 0:
        return number, place, 0
    store(frame, frame_of(pins, font, strip))
    return 0, 0, border(pins)


def show(word, pins, image, font, strip, frame, rule=1):
    """Both at once: fetches the strip and draws the frame from it. The value is the border."""
    lent = Lent(word=word, pins=pins, rule=rule, image=image, font=font, strip=strip, frame=frame)
    number, place = told(BOTH, lent)
    if number != 0:
        return number, place, 0
    content = fetched(word, pins, image, rule)
    store(strip, content)
    store(frame, frame_of(pins, font, content))
    return 0, 0, border(pins)


def read_back(pins, frame, strip):
    """Reads a frame back into its strip. The value is the strip's length."""
    number, place = told(READING_BACK, Lent(pins=pins, frame=frame, strip=strip))
    if number != 0:
        return number, place, 0
    content = strip_of(pins, frame)
    store(strip, content)
    return 0, 0, len(content)
