#!/usr/bin/env python3
"""Draws the example record of the program `copy`: a land plan in mode CG6, with its sheet. Run as a program it writes both."""

import os

GREEN, YELLOW, BLUE, RED = range(4)

# The paper: 128 × 192 elements, each of them 2 dots wide and 1 high. What follows counts in dots from the top left.
ACROSS, DOWN = 128, 192

# Paths are drawn in sixteenths of a dot, so that all is whole numbers.
UNIT = 16

# The image, and where the window stands in it.
IMAGE_LENGTH = 8192
WINDOW = 0x0400

SHEET = (
    b"deed=K-104\n"
    b"pins=2C\n"
    b"writes=3\n"
    b"at=FFC3\n"
    b"at=FFC5\n"
    b"at=FFC9\n"
    b"plan-note=north corner, common pasture\n"
    b"surveyed=12 May 1983\n"
)

# The cover sheet of the batch that the record belongs to, with what was written once for all its records.
COVER = (
    b"deed=BATCH-7\n"
    b"pins=00\n"
    b"writes=0\n"
    b"parish=Aldmere\n"
    b"surveyed=spring 1983\n"
    b"clerk=R. Wickstead\n"
    b"parish=Aldmere and Thornby, from 1979\n"
)

# What the terminal's memory had left over before the window, and after it. It is no part of the plan.
BEFORE = (
    b"DRAFT - NOT REGISTERED\r"
    b"TO THE REGISTRAR AT ALDMERE. DEAR SIR,\r"
    b"MRS. EDITH HOLLOWAY ASKS THAT PLOT 105 BE JOINED TO PLOT 106.\r"
    b"NO FEE WAS PAID. ANSWER BEFORE 1 JUNE.\r"
)
AFTER = (
    b"DRAFT - NOT REGISTERED\r"
    b"SALE OF PLOT 103, T. ARKWRIGHT TO J. PENHALE, PRICE LEFT OPEN.\r"
    b"WITNESSES: NONE YET.\r"
)

# == Letters: 5 × 7 dots for the title, 3 × 5 for the rest, where M and N are wider.

TITLE_LETTERS = {
    "K": "#...# #..#. #.#.. ##... #.#.. #..#. #...#",
    "-": "..... ..... ..... ##### ..... ..... .....",
    "1": "..#.. .##.. ..#.. ..#.. ..#.. ..#.. .###.",
    "0": ".###. #...# #..## #.#.# ##..# #...# .###.",
    "4": "...#. ..##. .#.#. #..#. ##### ...#. ...#.",
    "N": "#...# ##..# ##..# #.#.# #..## #..## #...#",
}

SMALL_LETTERS = {
    "0": "### #.# #.# #.# ###",
    "1": ".#. ##. .#. .#. ###",
    "2": "### ..# ### #.. ###",
    "3": "### ..# .## ..# ###",
    "5": "### #.. ### ..# ###",
    "6": "### #.. ### #.# ###",
    "7": "### ..# ..# .#. .#.",
    "8": "### #.# ### #.# ###",
    "9": "### #.# ### ..# ###",
    "A": ".#. #.# ### #.# #.#",
    "B": "##. #.# ##. #.# ##.",
    "C": "### #.. #.. #.. ###",
    "D": "##. #.# #.# #.# ##.",
    "E": "### #.. ##. #.. ###",
    "I": "### .#. .#. .#. ###",
    "K": "#.# #.# ##. #.# #.#",
    "L": "#.. #.. #.. #.. ###",
    "M": "#...# ##.## #.#.# #...# #...#",
    "N": "#..# ##.# #.## #..# #..#",
    "O": "### #.# #.# #.# ###",
    "P": "### #.# ### #.. #..",
    "R": "##. #.# ##. #.# #.#",
    "S": "### #.. ### ..# ###",
    "T": "### .#. .#. .#. .#.",
    "U": "#.# #.# #.# #.# ###",
    " ": "... ... ... ... ...",
}


class Paper:
    """The elements, green all over at first."""

    def __init__(self):
        self.elements = bytearray([GREEN]) * (ACROSS * DOWN)

    def put(self, column, row, colour):
        """Colours an element, if it is on the paper."""
        if 0 <= column < ACROSS and 0 <= row < DOWN:
            self.elements[row * ACROSS + column] = colour

    def box(self, x, y, wide, high, colour):
        """Colours a rectangle."""
        for row in range(y, y + high):
            for column in range(x // 2, (x + wide) // 2):
                self.put(column, row, colour)

    def outline(self, x, y, wide, high, colour):
        """Colours a rectangle's edge, 2 dots wide and 1 high."""
        self.box(x, y, wide, 1, colour)
        self.box(x, y + high - 1, wide, 1, colour)
        self.box(x, y, 2, high, colour)
        self.box(x + wide - 2, y, 2, high, colour)

    def stroke(self, path, wide, colour):
        """Colours every element whose middle is as near to the path as half the width."""
        for start, end in zip(path, path[1:]):
            columns, rows = reach(start, end, wide)
            for row in rows:
                for column in columns:
                    if is_near(middle(column, row), start, end, wide):
                        self.put(column, row, colour)

    def hatch(self, corners, every, colour):
        """Colours slanting lines, so many dots apart, inside of some corners."""
        for row in range(DOWN):
            for column in range(ACROSS):
                if (2 * column + row) % every < 2 and is_inside(middle(column, row), corners):
                    self.put(column, row, colour)

    def write(self, text, letters, x, y, size, colour):
        """Writes from a top left corner on. A letter's dot is as many elements wide and rows high as the size says."""
        wide, high = size
        for letter in text:
            lines = letters[letter].split()
            for i, line in enumerate(lines):
                for j, dot in enumerate(line):
                    if dot == "#":
                        self.box(x + 2 * wide * j, y + high * i, 2 * wide, high, colour)
            x += 2 * wide * (len(lines[0]) + 1)

    def small(self, text, x, y, colour):
        """Writes in the small letters."""
        self.write(text, SMALL_LETTERS, x, y, (1, 2), colour)


# == Paths and corners.


def path_of(*dots):
    """A path through these places, which are counted in dots."""
    return [(UNIT * x, UNIT * y) for x, y in dots]


def closed(*dots):
    """A path that ends where it begins."""
    return path_of(*dots, dots[0])


def smooth(path, rounds=3):
    """A path with its corners cut, a quarter of each stretch at a time."""
    for _ in range(rounds):
        cut = [path[0]]
        for (x, y), (u, v) in zip(path, path[1:]):
            cut += [((3 * x + u) // 4, (3 * y + v) // 4), ((x + 3 * u) // 4, (y + 3 * v) // 4)]
        path = cut + [path[-1]]
    return path


def middle(column, row):
    """The middle of an element."""
    return UNIT * (2 * column + 1), UNIT * row + UNIT // 2


def reach(start, end, wide):
    """The columns and rows that a stretch of this width can touch."""
    (x, y), (u, v) = start, end
    more = UNIT * wide
    columns = range((min(x, u) - more) // (2 * UNIT), (max(x, u) + more) // (2 * UNIT) + 1)
    return columns, range((min(y, v) - more) // UNIT, (max(y, v) + more) // UNIT + 1)


def is_near(place, start, end, wide):
    """Whether a place is as near to a stretch as half its width."""
    (px, py), (x, y), (u, v) = place, start, end
    along, length = (px - x) * (u - x) + (py - y) * (v - y), (u - x) ** 2 + (v - y) ** 2
    most = (UNIT * wide) ** 2
    if along <= 0:
        return 4 * ((px - x) ** 2 + (py - y) ** 2) <= most
    if along >= length:
        return 4 * ((px - u) ** 2 + (py - v) ** 2) <= most
    return 4 * ((px - x) * (v - y) - (py - y) * (u - x)) ** 2 <= most * length


def is_inside(place, corners):
    """Whether a place is inside of a closed path: a line to its right crosses the path an odd number of times."""
    px, py = place
    inside = False
    for (x, y), (u, v) in zip(corners, corners[1:]):
        if (y > py) != (v > py):
            over = (u - x) * (py - y) - (px - x) * (v - y)
            if (over > 0) == (v > y):
                inside = not inside
    return inside


# == The plan.

BROOK = smooth(path_of(
    (94, 0), (84, 14), (98, 30), (80, 46), (74, 62), (90, 78), (74, 96), (60, 112), (80, 128), (64, 144), (70, 160),
))
LANE = smooth(path_of((0, 100), (60, 94), (120, 97), (180, 88), (256, 93)))
ROAD = smooth(path_of((178, 0), (170, 40), (156, 80), (147, 112), (150, 160)))
PLOT_104 = closed((109, 13), (169, 11), (164, 42), (152, 83), (105, 88), (99, 62), (109, 36))

# The rails of the bridge where the lane crosses the brook.
RAILS = (path_of((74, 86), (92, 86)), path_of((56, 106), (76, 106)))

BOUNDARIES = (
    path_of((33, 104), (35, 160)),
    path_of((107, 102), (109, 160)),
    path_of((173, 48), (256, 44)),
    path_of((213, 0), (217, 46)),
    path_of((187, 94), (189, 160)),
    path_of((221, 96), (223, 160)),
)

# Each number with its place.
NUMBERS = (
    ("101", 8, 110),
    ("102", 82, 132),
    ("103", 116, 108),
    ("105", 186, 9),
    ("106", 222, 9),
    ("107", 180, 58),
    ("108", 160, 106),
    ("109", 194, 106),
    ("110", 226, 106),
)

# The left and the upper edge of each building, its width and its height.
BUILDINGS = (
    (130, 64, 18, 12),
    (10, 126, 18, 16),
    (86, 110, 14, 12),
    (116, 126, 22, 12),
    (186, 27, 20, 12),
    (222, 25, 24, 10),
    (210, 54, 28, 10),
    (230, 66, 12, 8),
    (162, 124, 16, 14),
    (196, 122, 18, 18),
    (228, 126, 18, 10),
)

TUFTS = ((34, 44), (52, 46), (68, 38), (8, 84), (30, 84), (50, 84), (42, 116), (46, 132), (40, 146))


def ways(paper):
    """The brook first, then road and lane over it, with red edges that are open where these two cross."""
    paper.stroke(BROOK, 6, BLUE)
    paper.stroke(ROAD, 12, RED)
    paper.stroke(LANE, 18, RED)
    paper.stroke(ROAD, 8, YELLOW)
    paper.stroke(LANE, 14, YELLOW)
    for rail in RAILS:
        paper.stroke(rail, 4, RED)


def building(paper, x, y, wide, high):
    """A building: hatched, in its outline."""
    corners = closed((x, y), (x + wide, y), (x + wide, y + high), (x, y + high))
    paper.box(x, y, wide, high, GREEN)
    paper.hatch(corners, 6, RED)
    paper.outline(x, y, wide, high, RED)


def plots(paper):
    """The plots with their boundaries, numbers and buildings. That of the deed is hatched and has a heavy edge."""
    paper.hatch(PLOT_104, 8, YELLOW)
    for line in BOUNDARIES:
        paper.stroke(line, 2, RED)
    paper.stroke(PLOT_104, 4, RED)
    ways(paper)
    for number, x, y in NUMBERS:
        paper.small(number, x, y, RED)
    for place in BUILDINGS:
        building(paper, *place)
    paper.box(116, 34, 40, 20, GREEN)
    paper.write("104", TITLE_LETTERS, 120, 37, (1, 2), RED)


def pasture(paper):
    """Tufts of grass on the common and by the brook."""
    for x, y in TUFTS:
        for right, up, high in ((0, 2, 2), (4, 4, 4), (8, 2, 2)):
            paper.box(x + right, y - up, 2, high, YELLOW)


def names(paper):
    """The names of common, brook and lane."""
    paper.small("COMMON", 8, 54, BLUE)
    paper.small("PASTURE", 8, 67, BLUE)
    paper.small("MILL", 46, 8, BLUE)
    paper.small("BROOK", 44, 20, BLUE)
    paper.small("MILL LANE", 58, 90, RED)


def north_arrow(paper):
    """An arrow up, and an N below."""
    for row in range(14):
        paper.box(18 - row // 2 // 2 * 2, 8 + row, 2 + row // 2 // 2 * 4, 1, BLUE)
    paper.box(18, 22, 2, 10, BLUE)
    paper.write("N", TITLE_LETTERS, 14, 34, (1, 2), BLUE)


def scale_bar(paper):
    """Four parts, filled by turns, and how many metres they are."""
    paper.outline(140, 169, 74, 6, RED)
    for part in range(0, 4, 2):
        paper.box(140 + 18 * part, 169, 20, 6, RED)
    for text, x in (("0", 138), ("50", 170), ("100 M", 202)):
        paper.small(text, x, 177, RED)


def title(paper):
    """The edge of the plan, and what stands below it. What was drawn past the edge goes."""
    for place in ((0, 0, 256, 3), (0, 0, 4, 192), (252, 0, 4, 192), (0, 151, 256, 41)):
        paper.box(*place, GREEN)
    paper.outline(2, 2, 252, 188, BLUE)
    paper.outline(2, 2, 252, 150, BLUE)
    paper.write("K-104", TITLE_LETTERS, 12, 160, (2, 3), RED)
    paper.small("ALDMERE 1983", 140, 155, RED)
    scale_bar(paper)


def drawing():
    """The whole plan."""
    paper = Paper()
    plots(paper)
    pasture(paper)
    names(paper)
    north_arrow(paper)
    title(paper)
    return paper


def strip():
    """The plan as the window holds it: four elements a byte, high bits left."""
    elements = drawing().elements
    return bytes(
        64 * a + 16 * b + 4 * c + d
        for a, b, c, d in zip(elements[::4], elements[1::4], elements[2::4], elements[3::4])
    )


def image():
    """The image: what was left over, the window, what was left over, and zeros."""
    return (BEFORE.ljust(WINDOW, b"\0") + strip() + AFTER).ljust(IMAGE_LENGTH, b"\0")


def main():
    """Writes both files."""
    folder = os.path.join(os.path.dirname(os.path.realpath(__file__)), "..", "..", "crates", "copy", "data")
    for name, content in (("plan.sheet", SHEET), ("plan.image", image())):
        with open(os.path.join(folder, name), "wb") as file:
            file.write(content)


if __name__ == "__main__":
    main()
