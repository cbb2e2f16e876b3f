"""From frame to strip: the first stray pixel, and the strip of a frame that has none. Graphics only."""

from draw import COLUMNS, FRAME_LENGTH, element_colour
from pins import dots, element_bits, width


def colours(pins):
    """The colours that the mode and CSS show, by the value of the element."""
    return [element_colour(pins, value) for value in range(2 ** element_bits(pins))]


def leftmost(place, size):
    """The leftmost pixel of a pixel's element, which has `size` dots, on its line."""
    return place - place % COLUMNS % size


def first_stray(pins, frame):
    """The index of the first stray pixel, or None where there is none."""
    shown = colours(pins)
    size = dots(pins)
    for place in range(FRAME_LENGTH):
        if frame[place] not in shown or frame[place] != frame[leftmost(place, size)]:
            return place
    return None


def byte_of(pins, pixels):
    """The byte that draws these pixels: the values of its elements, high bits left."""
    byte = 0
    for pixel in pixels[::dots(pins)]:
        byte = byte << element_bits(pins) | colours(pins).index(pixel)
    return byte


def read_back(pins, frame):
    """The strip that draws a frame, or None where a pixel is stray."""
    if first_stray(pins, frame) is not None:
        return None
    wide = COLUMNS // width(pins)
    return bytes(byte_of(pins, frame[at:at + wide]) for at in range(0, FRAME_LENGTH, wide))
