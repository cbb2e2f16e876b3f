"""CR 9, adjoining plans on one canvas: each pixel of each placement by itself, the refusals in their order, and what each entry receives."""

from dataclasses import dataclass

from draw import COLUMNS, FRAME_LENGTH, LINES

MOST_PIXELS = 65536
MOST_PLACEMENTS = 32


@dataclass
class Placement:
    """An entry of the list: a rectangle of the frame by its left column, top line and sides, where its top left corner goes, and the two counts that it receives."""

    left: int
    top: int
    across: int
    down: int
    x: int
    y: int
    on: int = 0
    cut: int = 0


def pixels(placement):
    """Each pixel of the rectangle: its place in the frame, and its column and line on the canvas. Right and down count up."""
    for v in range(placement.down):
        for u in range(placement.across):
            place = (placement.top + v) * COLUMNS + placement.left + u
            yield place, placement.x + u, placement.y + v


def is_there(width, height, column, line):
    """Whether the canvas has this column and line."""
    return column in range(width) and line in range(height)


def falls_off(width, height, column, line):
    """Whether this column and line lie past an edge: the left or right one, the top or bottom one."""
    return column < 0 or column >= width or line < 0 or line >= height


def count_on(placement, width, height):
    """The rectangle's pixels that the canvas has, also those that a later placement covers."""
    return sum(1 for _, column, line in pixels(placement) if is_there(width, height, column, line))


def count_cut(placement, width, height):
    """The rectangle's pixels that fall off an edge."""
    return sum(1 for _, column, line in pixels(placement) if falls_off(width, height, column, line))


def fits(width, height, canvas):
    """Whether a canvas has its stated width times height, no side of 0, and no more pixels than the most."""
    return width > 0 and height > 0 and width * height <= MOST_PIXELS and len(canvas) == width * height


def is_empty(placement):
    """Whether a rectangle has no pixel."""
    return placement.across == 0 or placement.down == 0


def is_outside(placement):
    """Whether a rectangle has a column or a line that the frame has not."""
    columns = range(placement.left, placement.left + placement.across)
    lines = range(placement.top, placement.top + placement.down)
    return any(column >= COLUMNS for column in columns) or any(line >= LINES for line in lines)


def refusal(frame, placements, width, height, canvas):
    """The number and place: 8, 18, 19, or 20 with the index of the first such placement, in this order, or 0."""
    if len(frame) < FRAME_LENGTH:
        return 8, 0
    if not fits(width, height, canvas):
        return 18, 0
    if len(placements) > MOST_PLACEMENTS:
        return 19, 0
    for index, placement in enumerate(placements):
        if is_empty(placement) or is_outside(placement):
            return 20, index
    return 0, 0


def lay(frame, placements, width, height, canvas):
    """Lays the placements in order on a canvas (a bytearray, line by line) and enters their counts, told as (number, place, value). A refusal stores nothing."""
    number, place = refusal(frame, placements, width, height, canvas)
    if number == 0:
        for placement in placements:
            for taken, column, line in pixels(placement):
                if is_there(width, height, column, line):
                    canvas[line * width + column] = frame[taken]
            placement.on = count_on(placement, width, height)
            placement.cut = count_cut(placement, width, height)
    return number, place, 0
